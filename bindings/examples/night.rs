//! A planned night: what stands today, the cells that are wanted tomorrow, a plan
//! between them, the plan checked before the night, and made.
//!
//! `cargo run --example night`

use mengkiloh::{Cell, Edits, Licence, Mark, Mesh, Records, Refusal, Tally, Type};

fn main() -> Result<(), Box<dyn std::error::Error>> {
    // a hillside and a deck over it
    let mut today = Mesh::with_room(9, 8)?;
    let (hill, before, after) = (Licence(12), Licence(77), Licence(78));
    today.insert_licensed(Cell(0), Type::Triangle, hill, &[0, 1, 2].map(Mark))?;
    today.insert_licensed(Cell(1), Type::Triangle, hill, &[1, 3, 2].map(Mark))?;
    today.insert_licensed(Cell(3), Type::Quad, before, &[1, 2, 6, 7].map(Mark))?;

    // the deck under another licence, and a mast
    let mut wanted = Records::new();
    wanted.add(Cell(3), Type::Quad, after, &[1, 2, 6, 7].map(Mark));
    wanted.add(Cell(0), Type::Triangle, hill, &[0, 1, 2].map(Mark));
    wanted.add(Cell(1), Type::Triangle, hill, &[1, 3, 2].map(Mark));
    wanted.add(Cell(4), Type::Bar, Licence(0), &[2, 8].map(Mark));

    let plan = today.plan(&wanted)?;
    let words: Vec<String> = plan.words().iter().map(u32::to_string).collect();
    println!("the plan: {}", words.join(" "));

    let end = plan.words().len();
    let part = |from: usize, to: usize| Edits::from(plan.words()[from..to].to_vec());
    let check = |today: &Mesh<Vec<u32>>, what: &str, edits: &Edits| -> Result<(), Refusal> {
        let mut tomorrow = Mesh::with_room(9, 8)?;
        match today.check_plan(edits, &wanted, &mut tomorrow) {
            Ok(()) => println!("{what} passes: {} cells tomorrow", tomorrow.live()?.len()),
            Err(wrong) => match wrong.place {
                Some(place) => println!("{what} is wrong at edit {place}"),
                None => return Err(wrong.refusal),
            },
        }
        Ok(())
    };
    check(&today, "the plan", &plan)?;
    check(&today, "the plan without its first edit", &part(2, end))?;
    check(&today, "the plan without its last edit", &part(0, end - 6))?;
    let made = today.edits(&plan, &mut Tally::default())?;
    println!("{made} edits made");
    check(&today, "no edit more", &Edits::new())?;
    Ok(())
}

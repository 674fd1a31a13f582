//! What the examples of a planned night print, by the definitions
//! (examples/night.c, bindings/examples/night.rs, examples/night.py).

use second::{room, Memory, Tally};

/// Cell, type, licence, marks: a hillside and a deck over it.
#[rustfmt::skip]
const STANDS: &[u32] = &[
    0, 2, 12, 0, 1, 2,
    1, 2, 12, 1, 3, 2,
    3, 3, 77, 1, 2, 6, 7,
];

/// The deck under another licence, and a mast.
#[rustfmt::skip]
const WANTED: &[u32] = &[
    3, 3, 78, 1, 2, 6, 7,
    0, 2, 12, 0, 1, 2,
    1, 2, 12, 1, 3, 2,
    4, 1, 0, 2, 8,
];

/// The words of the first edit, a removal, and of the last, a bar's insert.
const FIRST: usize = 2;
const LAST: usize = 6;

fn main() {
    let mut today = Memory::lent(room(9, 8));
    today.build(9, 8, STANDS).expect("the map is sound");
    let plan = today.plan(WANTED, usize::MAX).expect("records are whole");
    let words: Vec<String> = plan.iter().map(u32::to_string).collect();
    println!("the plan: {}", words.join(" "));
    check(&today, "the plan", &plan);
    check(&today, "the plan without its first edit", &plan[FIRST..]);
    let end = plan.len() - LAST;
    check(&today, "the plan without its last edit", &plan[..end]);
    let made = today.edits(&plan, &mut Tally::default());
    println!("{} edits made", made.expect("they are accepted"));
    check(&today, "no edit more", &[]);
}

fn check(today: &Memory, what: &str, edits: &[u32]) {
    let mut second = Memory::lent(room(9, 8));
    match today.plan_check(edits, WANTED, &mut second) {
        Ok(()) => {
            let cells = second.live(usize::MAX).expect("a mesh").len();
            println!("{what} passes: {cells} cells tomorrow");
        }
        Err((_, place)) => {
            let place = place.expect("records are whole, and the room fits");
            println!("{what} is wrong at edit {place}");
        }
    }
}

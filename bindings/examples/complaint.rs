//! A complaint, start to end: a viaduct over a hillside, the cells around a
//! mark, one removed, the cells again; their measures; a morning's edits in one
//! call; solids under the second edition; the same mark on earlier days; and the
//! licences to ask, of the day before a cell was removed and of the day after.
//!
//! `cargo run --example complaint`

use mengkiloh::{journal_words, room, Journal};
use mengkiloh::{Cell, Edition, Edits, Licence, Mark, Measure, Mesh, Refusal, Tally, Type};

/// Three whole metres a mark.
#[rustfmt::skip]
const POSITIONS: [i16; 27] = [
    0, 0, 0, 40, 0, 2, 0, 30, 4, 40, 30, 5, -20, 30, 6, -20, 60, 8, 0, 90, 9, 40, 90, 9, 0, 30, 50,
];

fn main() -> Result<(), Refusal> {
    // a hillside of two sheets that touch in mark 2, and over it a viaduct: a
    // deck on the edge of marks 1 and 2, which then has three cells
    let mut map = Mesh::with_room(9, 8)?;
    let (hill, far_side, bridge) = (Licence(12), Licence(31), Licence(77));
    map.insert_licensed(Cell(0), Type::Triangle, hill, &[0, 1, 2].map(Mark))?;
    map.insert_licensed(Cell(1), Type::Triangle, hill, &[1, 3, 2].map(Mark))?;
    map.insert_licensed(Cell(2), Type::Triangle, far_side, &[2, 4, 5].map(Mark))?;
    map.insert_licensed(Cell(3), Type::Quad, bridge, &[1, 2, 6, 7].map(Mark))?;
    map.insert(Cell(4), Type::Bar, &[2, 8].map(Mark))?;

    tell(&map, Mark(2))?;
    println!("cell 1 is taken down");
    map.remove(Cell(1))?;
    tell(&map, Mark(2))?;

    match map.insert(Cell(5), Type::Triangle, &[2, 0, 1].map(Mark)) {
        Ok(()) => println!("cell 5 stands"),
        Err(refusal) => println!("cell 5 is refused with {}", refusal.number()),
    }

    for cell in [0, 3, 4].map(Cell) {
        let (kind, size) = match map.measure(&POSITIONS, cell)? {
            Measure::SquaredLength(size) => (1, size),
            Measure::DoubledArea(size) => (2, size),
            Measure::SixfoldVolume(size) => (3, size),
        };
        let at = map.centre(&POSITIONS, cell)?;
        println!(
            "cell {cell}: kind {kind}, measure {size:.0}, centre {:.2} {:.2} {:.2}",
            at.x, at.y, at.z
        );
    }

    // a morning's edits; the third is refused, and the fourth not made
    let mut morning = Edits::new();
    morning.remove(Cell(2));
    morning.insert(Cell(6), Type::Bar, Licence(0), &[0, 8].map(Mark));
    morning.remove(Cell(2));
    morning.remove(Cell(0));
    let mut tally = Tally::default();
    match map.edits(&morning, &mut tally) {
        Ok(made) => println!("{made} edits made"),
        Err(stopped) => {
            let number = stopped.refusal.number();
            println!("{} edits made, then {number}", stopped.made);
        }
    }
    println!("{} accepted, {} refused", tally.accepted, tally.refused);

    // under the second edition a face lies between two solids at most
    let mut harbour = Mesh::with_room_edition(6, 4, Edition::Second)?;
    harbour.insert(Cell(0), Type::Tetrahedron, &[0, 1, 2, 3].map(Mark))?;
    harbour.insert(Cell(1), Type::Tetrahedron, &[0, 2, 1, 4].map(Mark))?;
    print!("edition {}: ", harbour.edition()?);
    match harbour.insert(Cell(2), Type::Tetrahedron, &[0, 1, 2, 5].map(Mark)) {
        Ok(()) => println!("three solids on a face"),
        Err(refusal) => println!("a third solid is refused with {}", refusal.number()),
    }

    // from here on the map is edited through a journal: the same mark on earlier
    // days
    let mut journal = Journal::over(vec![0; journal_words(1_000)], vec![0; room(9, 8)]);
    journal.begin(&map)?;
    let marks = [1, 3, 2].map(Mark);
    journal.insert(&mut map, 100, Cell(1), Type::Triangle, hill, &marks)?;
    journal.remove(&mut map, 130, Cell(3))?;
    let mut then = Mesh::with_room(9, 8)?;
    for day in [99, 129, 130] {
        journal.on(day, &mut then)?;
        println!("on day {day}");
        tell(&then, Mark(2))?;
    }
    match journal.fold(100) {
        Ok(()) => println!("day 100 is folded"),
        Err(refusal) => println!("a fold is refused with {}", refusal.number()),
    }

    // whom to ask for a complaint at mark 2: the day before the deck was taken
    // down, and the day after
    for day in [129, 131] {
        let licences = journal.licences(day, Mark(2), &mut then)?;
        let licences: Vec<String> = licences.iter().map(Licence::to_string).collect();
        println!(
            "mark 2 on day {day}: ask the licences [{}]",
            licences.join(", ")
        );
    }
    Ok(())
}

fn tell(map: &Mesh<Vec<u32>>, mark: Mark) -> Result<(), Refusal> {
    for dimension in 1..=3 {
        let cells = map.star(dimension, mark)?;
        let mut licences = Vec::new();
        for &cell in &cells {
            licences.push(map.licence(cell)?.to_string());
        }
        let cells: Vec<String> = cells.iter().map(Cell::to_string).collect();
        println!(
            "mark {mark}, dimension {dimension}: cells [{}], licences [{}]",
            cells.join(", "),
            licences.join(", ")
        );
    }
    for anchor in map.anchors(2, mark)? {
        println!(
            "a sheet begins at cell {}, facet {}",
            anchor.cell(),
            anchor.facet()
        );
    }
    // round the edge of marks 1 and 2, and whether each two agree in direction
    for (half, way) in map.cycle(Cell(0), 1)? {
        let (cell, facet) = (half.cell(), half.facet());
        println!("cell {cell}, facet {facet}: the next runs {way:?}");
    }
    Ok(())
}

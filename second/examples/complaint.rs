//! What the examples of the library say, by the definitions.

use second::journal::{Edit, Journal, EDIT_WORDS, HEAD_WORDS};
use second::{room, Memory, Refusal, Tally};

#[rustfmt::skip]
const POSITIONS: [i16; 27] = [
    0, 0, 0, 40, 0, 2, 0, 30, 4, 40, 30, 5, -20, 30, 6, -20, 60, 8, 0, 90, 9, 40, 90, 9, 0, 30, 50,
];

fn main() -> Result<(), Refusal> {
    let mut map = Memory::lent(room(9, 8));
    map.format(9, 8)?;
    map.insert_licensed(0, 2, 12, &[0, 1, 2])?;
    map.insert_licensed(1, 2, 12, &[1, 3, 2])?;
    map.insert_licensed(2, 2, 31, &[2, 4, 5])?;
    map.insert_licensed(3, 3, 77, &[1, 2, 6, 7])?;
    map.insert(4, 1, &[2, 8])?;

    tell(&map, 2)?;
    println!("cell 1 is taken down");
    map.remove(1)?;
    tell(&map, 2)?;

    match map.insert(5, 2, &[2, 0, 1]) {
        Ok(()) => println!("cell 5 stands"),
        Err(refusal) => println!("cell 5 is refused with {}", refusal.number()),
    }

    for cell in [0, 3, 4] {
        let measure = map.measure(&POSITIONS, cell)?;
        let (kind, size) = (measure.kind(), measure.whole());
        let (sums, count) = map.centre(&POSITIONS, cell)?;
        let [x, y, z] = [sums.x, sums.y, sums.z].map(|sum| sum as f64 / count as f64);
        println!("cell {cell}: kind {kind}, measure {size}, centre {x:.2} {y:.2} {z:.2}");
    }

    let morning = [2, 2, 1, 6, 1, 0, 0, 8, 2, 2, 2, 0];
    let mut tally = Tally::default();
    match map.edits(&morning, &mut tally) {
        Ok(made) => println!("{made} edits made"),
        Err((refusal, made)) => println!("{made} edits made, then {}", refusal.number()),
    }
    println!("{} accepted, {} refused", tally.accepted, tally.refused);

    let mut harbour = Memory::lent(room(6, 4));
    harbour.format_edition(6, 4, 2)?;
    harbour.insert(0, 4, &[0, 1, 2, 3])?;
    harbour.insert(1, 4, &[0, 2, 1, 4])?;
    print!("edition {}: ", harbour.edition()?);
    match harbour.insert(2, 4, &[0, 1, 2, 5]) {
        Ok(()) => println!("three solids on a face"),
        Err(refusal) => println!("a third solid is refused with {}", refusal.number()),
    }

    let mut journal = Journal::lent(HEAD_WORDS + 1_000 * EDIT_WORDS);
    let mut start = Memory::lent(room(9, 8));
    journal.begin(&map, &mut start)?;
    let again = Edit::Insert {
        cell: 1,
        code: 2,
        licence: 12,
        marks: vec![1, 3, 2],
    };
    journal.enter(&mut map, 100, again)?;
    journal.enter(&mut map, 130, Edit::Remove { cell: 3 })?;
    let mut then = Memory::lent(room(9, 8));
    for day in [99, 129, 130] {
        journal.on(&start, day, &mut then)?;
        println!("on day {day}");
        tell(&then, 2)?;
    }
    match journal.fold(&mut start, 100) {
        Ok(()) => println!("day 100 is folded"),
        Err(refusal) => println!("a fold is refused with {}", refusal.number()),
    }

    for day in [129, 131] {
        let licences = journal.licences(&start, day, 2, &mut then, 128)?;
        println!("mark 2 on day {day}: ask the licences {licences:?}");
    }
    Ok(())
}

fn tell(map: &Memory, mark: u32) -> Result<(), Refusal> {
    for dimension in 1..=3 {
        let cells = map.star(dimension, mark, 128)?;
        let licences: Result<Vec<u32>, Refusal> =
            cells.iter().map(|&cell| map.licence(cell)).collect();
        let licences = licences?;
        println!("mark {mark}, dimension {dimension}: cells {cells:?}, licences {licences:?}");
    }
    for anchor in map.anchors(2, mark, 128)? {
        let (cell, facet) = (anchor / 8, anchor % 8);
        println!("a sheet begins at cell {cell}, facet {facet}");
    }
    for (half, way) in map.cycle(0, 1, 128, 128)? {
        let (cell, facet) = (half / 8, half % 8);
        println!("cell {cell}, facet {facet}: the next runs {way:?}");
    }
    Ok(())
}

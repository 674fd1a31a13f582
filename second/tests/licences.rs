//! Request 10: a licence in each cell's record.

mod common;

use common::answers::answers;
use common::maps::*;
use second::journal::{Edit, Journal};
use second::{room, Memory, Refusal, Tally};

/// "given at insertion and read back with type and marks"
#[test]
fn a_licence_is_read_back() {
    let mut memory = formatted(6, 4);
    for (cell, licence) in [(0, 1), (1, u32::MAX), (2, 0), (3, 1)] {
        let marks = [cell, 4, 5];
        let inserted = memory.insert_licensed(cell, TRI, licence, &marks);
        assert_eq!(inserted, Ok(()));
        assert_eq!(memory.licence(cell), Ok(licence));
        assert_eq!(memory.type_of(cell), Ok(TRI));
        assert_eq!(memory.marks_of(cell), marks);
    }
    assert!(memory.whole());
    assert_eq!(memory.licence(4), Err(Refusal::CellOutside));
    memory.remove(1).unwrap();
    assert_eq!(memory.licence(1), Err(Refusal::CellNotLive));
    assert_eq!(Memory::lent(15).licence(0), Err(Refusal::NotMesh));
}

/// "Insert without one .. means 0."
#[test]
fn an_insert_without_one_means_0() {
    let (mut with, mut without) = (formatted(6, 4), formatted(6, 4));
    assert_eq!(without.insert(2, QUAD, &[3, 0, 1, 2]), Ok(()));
    assert_eq!(without.licence(2), Ok(0));
    assert_eq!(with.insert_licensed(2, QUAD, 0, &[3, 0, 1, 2]), Ok(()));
    assert_eq!(with, without);
}

/// A cell that is alike is refused whatever its licence, and no other answer
/// looks at licences.
#[test]
fn no_check_looks_at_licences() {
    let mut memory = p2();
    for licence in [0, 1, u32::MAX] {
        let alike = memory.insert_licensed(1, TRI, licence, &[2, 0, 1]);
        assert_eq!(alike, Err(Refusal::CellSame));
    }
    let without = |memory: &Memory| -> Vec<String> {
        let mut memory = memory.clone();
        for cell in &mut memory.mesh.as_mut().unwrap().live {
            cell.licence = 0;
        }
        answers(&memory)
    };
    let mut other = formatted(6, 4);
    other.insert_licensed(0, TRI, 99, &[0, 1, 2]).unwrap();
    assert_ne!(answers(&other), answers(&memory));
    assert_eq!(without(&other), without(&memory));
}

/// "build records and listed edits give it after the type, and missing it is 7 as
/// there".
#[test]
fn records_and_listed_edits_give_it_after_the_type() {
    let record = [3, BAR, 41, 0, 1];
    let mut built = p1();
    assert_eq!(built.build(6, 4, &record), Ok(()));
    assert_eq!(built.licence(3), Ok(41));
    let mut listed = formatted(6, 4);
    let list = [&[1], &record[..]].concat();
    assert_eq!(listed.edits(&list, &mut Tally::default()), Ok(1));
    assert_eq!(listed, built);
    for length in 1..record.len() {
        let refused = built.build(6, 4, &record[..length]);
        assert_eq!(refused, Err((Refusal::CountWrong, 0)), "{length} words");
        let refused = formatted(6, 4).edits(&list[..=length], &mut Tally::default());
        assert_eq!(refused, Err((Refusal::CountWrong, 0)), "{length} words");
    }
    // before the other checks: a number above, a type that there is not
    for words in [[4, BAR], [0, 8]] {
        let refused = built.build(6, 4, &words);
        assert_eq!(refused, Err((Refusal::CountWrong, 0)));
    }
    assert_eq!(
        built.build(6, 4, &[4, BAR, 0]),
        Err((Refusal::CellOutside, 0))
    );
    assert_eq!(
        built.build(6, 4, &[0, 8, 0]),
        Err((Refusal::TypeUnknown, 0))
    );
}

/// "Demand 3's equal answers now include licences, and so does request 9."
#[test]
fn the_map_of_a_day_has_the_licences_of_that_day() {
    let mut mesh = formatted(6, 4);
    let mut start = Memory::lent(room(6, 4));
    let mut journal = Journal::lent(16 + 16 * 9);
    journal.begin(&mesh, &mut start).unwrap();
    let insert = |licence| Edit::Insert {
        cell: 2,
        code: TRI,
        licence,
        marks: vec![0, 1, 2],
    };
    let edits = [
        (10, insert(5)),
        (11, Edit::Remove { cell: 2 }),
        (11, insert(6)),
        (900, Edit::Remove { cell: 2 }),
    ];
    for (day, edit) in edits {
        journal.enter(&mut mesh, day, edit).unwrap();
    }
    let licences = |journal: &Journal, start: &Memory, days: &[u32]| -> Vec<_> {
        let mut then = Memory::lent(room(6, 4));
        let mut on = |&day: &u32| {
            journal.on(start, day, &mut then).unwrap();
            then.licence(2).ok()
        };
        days.iter().map(&mut on).collect()
    };
    let due = [None, Some(5), Some(6), Some(6), None];
    assert_eq!(licences(&journal, &start, &[9, 10, 11, 899, 900]), due);
    journal.fold(&mut start, 300).unwrap();
    assert_eq!(licences(&journal, &start, &[300, 899, 900]), due[2..]);
    assert_eq!(start.licence(2), Ok(6));
}

//! Request 10: the licences to ask, worked by hand.

use second::journal::{Edit, Journal};
use second::{room, Memory, Refusal};

fn insert(cell: u32, code: u32, licence: u32, marks: &[u32]) -> Edit {
    Edit::Insert {
        cell,
        code,
        licence,
        marks: marks.to_vec(),
    }
}

/// A triangle of licence 7; then one of licence 3 that touches it at mark 1 alone,
/// and a bar of licence 7; then a bar without a licence, and the second triangle
/// removed.
fn kept() -> (Journal, Memory) {
    let mut mesh = Memory::lent(room(6, 4));
    mesh.format(6, 4).expect("the room fits");
    let mut journal = Journal::lent(16 + 16 * 5);
    let mut start = Memory::lent(room(6, 4));
    journal.begin(&mesh, &mut start).expect("the room fits");
    for (day, edit) in [
        (10, insert(0, 2, 7, &[0, 1, 2])),
        (20, insert(1, 2, 3, &[1, 3, 4])),
        (20, insert(2, 1, 7, &[1, 5])),
        (30, insert(3, 1, 0, &[0, 5])),
        (40, Edit::Remove { cell: 1 }),
    ] {
        journal.enter(&mut mesh, day, edit).expect("an edit");
    }
    (journal, start)
}

#[test]
fn complaints_name_the_licences_of_their_day() {
    let (journal, start) = kept();
    let rows: [(u32, u32, &[u32]); 10] = [
        (9, 1, &[]),
        (10, 1, &[7]),
        (20, 1, &[3, 7]),
        (39, 1, &[3, 7]),
        (40, 1, &[7]),
        (65_535, 1, &[7]),
        (39, 3, &[3]),
        (40, 3, &[]),
        (30, 5, &[7]),
        (30, 0, &[7]),
    ];
    for (day, mark, licences) in rows {
        let mut second = Memory::lent(room(6, 4));
        let answer = journal.licences(&start, day, mark, &mut second, licences.len());
        assert_eq!(answer.as_deref(), Ok(licences));
        assert!(second.mesh.is_some());
    }
}

#[test]
fn a_complaint_is_refused_in_order() {
    let (journal, start) = kept();
    let ask = |mark, words, places| {
        let mut second = Memory::lent(words);
        let answer = journal.licences(&start, 39, mark, &mut second, places);
        (answer.err(), second.mesh.is_some())
    };
    let exact = room(6, 4);
    assert_eq!(ask(6, exact - 1, 0), (Some(Refusal::MemoryShort), false));
    assert_eq!(ask(6, exact, 0), (Some(Refusal::MarkOutside), false));
    assert_eq!(ask(1, exact, 1), (Some(Refusal::OutputShort), true));
    assert_eq!(ask(1, exact, 2), (None, true));
}

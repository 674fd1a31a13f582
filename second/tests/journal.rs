//! Request 9, by its sentences: the map on any day of the year.

use second::calls::{room, Memory};
use second::journal::{Edit, Journal};
use second::Refusal;

const TRIANGLE: u32 = 2;

/// Mesh, journal and starting map of 6 marks and 4 cells.
struct Desk {
    mesh: Memory,
    journal: Journal,
    start: Memory,
}

impl Desk {
    fn begun(places: usize) -> Desk {
        let mut mesh = Memory::lent(room(6, 4));
        mesh.format(6, 4).unwrap();
        let mut desk = Desk {
            mesh,
            journal: Journal::lent(16 + 16 * places),
            start: Memory::lent(room(6, 4)),
        };
        desk.journal.begin(&desk.mesh, &mut desk.start).unwrap();
        desk
    }

    fn enter(&mut self, day: u32, edit: Edit) -> Result<(), Refusal> {
        self.journal.enter(&mut self.mesh, day, edit)
    }

    fn insert(&mut self, day: u32, cell: u32) -> Result<(), Refusal> {
        self.enter(day, triangle(cell))
    }

    fn remove(&mut self, day: u32, cell: u32) -> Result<(), Refusal> {
        self.enter(day, Edit::Remove { cell })
    }

    fn fold(&mut self, day: u32) -> Result<(), Refusal> {
        self.journal.fold(&mut self.start, day)
    }

    /// The live cells of a day, ascending.
    fn on(&self, day: u32) -> Result<Vec<u32>, Refusal> {
        let mut second = Memory::lent(room(6, 4));
        self.journal.on(&self.start, day, &mut second)?;
        Ok(live(&second))
    }
}

/// A triangle on three marks that no other cell number here has.
fn triangle(cell: u32) -> Edit {
    Edit::Insert {
        cell,
        code: TRIANGLE,
        licence: 7 + cell,
        marks: vec![cell % 4, 4, 5],
    }
}

fn live(memory: &Memory) -> Vec<u32> {
    (0..4)
        .filter(|&cell| memory.type_of(cell).is_ok())
        .collect()
}

#[test]
fn a_day_has_the_edits_of_that_day_and_earlier_ones() {
    let mut desk = Desk::begun(8);
    desk.insert(10, 0).unwrap();
    desk.insert(10, 1).unwrap();
    desk.insert(12, 2).unwrap();
    desk.remove(20, 0).unwrap();
    assert_eq!(desk.on(0), Ok(vec![]));
    assert_eq!(desk.on(9), Ok(vec![]));
    assert_eq!(desk.on(10), Ok(vec![0, 1]));
    assert_eq!(desk.on(11), Ok(vec![0, 1]));
    assert_eq!(desk.on(19), Ok(vec![0, 1, 2]));
    assert_eq!(desk.on(20), Ok(vec![1, 2]));
}

#[test]
fn a_day_after_the_last_reads_as_the_last() {
    let mut desk = Desk::begun(8);
    desk.insert(10, 0).unwrap();
    assert_eq!(desk.on(11), desk.on(10));
    assert_eq!(desk.on(u32::MAX), desk.on(10));
}

#[test]
fn a_new_journal_is_14_and_then_2() {
    let none = Memory::lent(room(6, 4));
    let mut mesh = none.clone();
    mesh.format(6, 4).unwrap();
    let begin = |mesh: &Memory, words: usize, start: usize| {
        Journal::lent(words).begin(mesh, &mut Memory::lent(start))
    };
    assert_eq!(begin(&none, 0, 0), Err(Refusal::NotMesh));
    assert_eq!(begin(&mesh, 15, room(6, 4)), Err(Refusal::MemoryShort));
    assert_eq!(begin(&mesh, 16, room(6, 4) - 1), Err(Refusal::MemoryShort));
    assert_eq!(begin(&mesh, 16, room(6, 4)), Ok(()));
}

#[test]
fn an_entry_is_14_1_20_its_own_and_23() {
    let mut desk = Desk::begun(1);
    desk.insert(10, 0).unwrap();
    let before = (desk.mesh.clone(), desk.journal.clone());
    assert_eq!(desk.insert(65_536, 9), Err(Refusal::CapacityAbove));
    assert_eq!(desk.insert(9, 9), Err(Refusal::DayBefore));
    assert_eq!(desk.insert(10, 9), Err(Refusal::CellOutside));
    assert_eq!(desk.insert(10, 0), Err(Refusal::CellLive));
    assert_eq!(desk.remove(10, 1), Err(Refusal::CellNotLive));
    assert_eq!(desk.insert(10, 1), Err(Refusal::JournalFull));
    assert_eq!(desk.remove(65_535, 0), Err(Refusal::JournalFull));
    assert_eq!((desk.mesh.clone(), desk.journal.clone()), before);
    desk.journal = Journal::lent(32);
    assert_eq!(desk.insert(9, 9), Err(Refusal::NotMesh));
}

#[test]
fn sixteen_to_thirty_one_words_hold_no_entry() {
    for words in [16, 31] {
        let mut desk = Desk::begun(0);
        desk.journal = Journal::lent(words);
        desk.journal.begin(&desk.mesh, &mut desk.start).unwrap();
        assert_eq!(desk.insert(0, 0), Err(Refusal::JournalFull));
    }
}

#[test]
fn a_fold_leaves_a_year() {
    let mut desk = Desk::begun(8);
    assert_eq!(desk.fold(0), Err(Refusal::FoldNotAllowed));
    desk.insert(10, 0).unwrap();
    assert_eq!(desk.fold(0), Err(Refusal::FoldNotAllowed));
    desk.insert(376, 1).unwrap();
    assert_eq!(desk.fold(11), Err(Refusal::FoldNotAllowed));
    assert_eq!(desk.fold(u32::MAX), Err(Refusal::FoldNotAllowed));
    assert_eq!(desk.fold(10), Ok(()));
    assert_eq!(desk.fold(9), Err(Refusal::FoldNotAllowed));
    assert_eq!(desk.fold(10), Ok(()));
}

#[test]
fn a_fold_frees_its_room_and_changes_no_later_day() {
    let mut desk = Desk::begun(3);
    desk.insert(10, 0).unwrap();
    desk.insert(11, 1).unwrap();
    desk.insert(400, 2).unwrap();
    assert_eq!(desk.insert(401, 3), Err(Refusal::JournalFull));
    let before: Vec<_> = (10..402).map(|day| desk.on(day)).collect();
    desk.fold(10).unwrap();
    let after: Vec<_> = (10..402).map(|day| desk.on(day)).collect();
    assert_eq!(after, before);
    assert_eq!(desk.on(9), Err(Refusal::DayFolded));
    assert_eq!(desk.insert(401, 3), Ok(()));
    assert_eq!(desk.on(401), Ok(vec![0, 1, 2, 3]));
}

#[test]
fn a_fold_that_moves_no_edit_is_the_last_fold() {
    let mut desk = Desk::begun(3);
    desk.insert(400, 0).unwrap();
    desk.fold(5).unwrap();
    assert_eq!(desk.on(4), Err(Refusal::DayFolded));
    assert_eq!(desk.on(5), Ok(vec![]));
    assert_eq!(desk.fold(4), Err(Refusal::FoldNotAllowed));
}

#[test]
fn a_query_is_14_21_and_2() {
    let mut desk = Desk::begun(3);
    desk.insert(400, 0).unwrap();
    desk.fold(5).unwrap();
    let mut short = Memory::lent(room(6, 4) - 1);
    let on = |day, second: &mut Memory| desk.journal.on(&desk.start, day, second);
    assert_eq!(on(4, &mut short), Err(Refusal::DayFolded));
    assert_eq!(on(5, &mut short), Err(Refusal::MemoryShort));
    let none = Memory::lent(room(6, 4));
    assert_eq!(desk.journal.on(&none, 4, &mut short), Err(Refusal::NotMesh));
}

//! Request 10 beside the second program: complaints over journals by chance, every
//! refusal in its order, lists of just the room and one short, damaged memory; and a
//! map of full size.

mod common;

use std::collections::BTreeSet;

use common::{draw_edit, is_map, marks, Chance, SENTINEL};
use mengkiloh::{journal_words, room, Cell, Journal, Licence, Mark, Mesh, Records, Refusal, Type};
use second::journal::{Edit, Journal as TheirJournal};
use second::Memory;

/// A journal with its starting map, here and in the second program, and the mesh that
/// its edits go to.
struct Desk {
    of: (u32, u32),
    mesh: Vec<u32>,
    journal: Vec<u32>,
    start: Vec<u32>,
    their_mesh: Memory,
    their_journal: TheirJournal,
    their_start: Memory,
}

impl Desk {
    fn begun(of: (u32, u32), edition: u32, edits: usize) -> Desk {
        let exact = room(of.0, of.1);
        let mut desk = Desk {
            of,
            mesh: vec![0; exact],
            journal: vec![SENTINEL; journal_words(edits)],
            start: vec![SENTINEL; exact],
            their_mesh: Memory::lent(exact),
            their_journal: TheirJournal::lent(journal_words(edits)),
            their_start: Memory::lent(exact),
        };
        let mut mesh = Mesh::over(&mut desk.mesh[..]);
        mesh.format_edition(of.0, of.1, edition).expect("room");
        desk.their_mesh
            .format_edition(of.0, of.1, edition)
            .expect("room");
        Journal::over(&mut desk.journal[..], &mut desk.start[..])
            .begin(&mesh)
            .expect("room");
        desk.their_journal
            .begin(&desk.their_mesh, &mut desk.their_start)
            .expect("room");
        desk
    }

    /// The edit entered, here and there; whether it was accepted.
    fn enter(&mut self, day: u32, edit: &Edit) -> bool {
        let mut mesh = Mesh::over(&mut self.mesh[..]);
        let mut journal = Journal::over(&mut self.journal[..], ());
        let answer = match edit {
            Edit::Insert {
                cell,
                code,
                licence,
                marks: list,
            } => {
                let licence = Licence(*licence);
                journal.insert(&mut mesh, day, Cell(*cell), *code, licence, &marks(list))
            }
            Edit::Remove { cell } => journal.remove(&mut mesh, day, Cell(*cell)),
        };
        let expected = self
            .their_journal
            .enter(&mut self.their_mesh, day, edit.clone());
        assert_eq!(
            answer.map_err(|why| why.number()),
            expected.map_err(|why| why.number())
        );
        answer.is_ok()
    }

    fn fold(&mut self, day: u32) {
        let answer = Journal::over(&mut self.journal[..], &mut self.start[..]).fold(day);
        let expected = self.their_journal.fold(&mut self.their_start, day);
        assert_eq!(
            answer.map_err(|why| why.number()),
            expected.map_err(|why| why.number())
        );
    }

    /// A complaint, into second memory of so many words and a list of so many
    /// places: the number of its refusal, 0 for an answer, and both memories as the
    /// second program says.
    fn complain(&self, day: u32, mark: u32, words: usize, places: usize) -> u8 {
        let mut second = vec![SENTINEL; words + 8];
        let mut out = vec![Licence(SENTINEL); places + 8];
        let answer = Journal::over(&self.journal[..], &self.start[..]).licences_into(
            day,
            Mark(mark),
            &mut Mesh::over(&mut second[..words]),
            &mut out[..places],
        );
        let mut their_second = Memory::lent(words);
        let expected =
            self.their_journal
                .licences(&self.their_start, day, mark, &mut their_second, places);
        let used = match &their_second.mesh {
            Some(mesh) => {
                is_map(&second, &their_second);
                room(mesh.marks, mesh.cells)
            }
            None => 0,
        };
        assert!(second[used..].iter().all(|&word| word == SENTINEL));
        let list = expected.as_ref().map_or(&[][..], |list| &list[..]);
        assert!(out
            .iter()
            .map(|licence| licence.0)
            .take(list.len())
            .eq(list.iter().copied()));
        assert!(out[list.len()..]
            .iter()
            .all(|&place| place == Licence(SENTINEL)));
        assert!(list.windows(2).all(|pair| pair[0] < pair[1]) && !list.contains(&0));
        match (answer, expected) {
            (Ok(count), Ok(list)) => {
                assert_eq!(count, list.len());
                0
            }
            (Err(why), Err(their)) => {
                assert_eq!(why.number(), their.number());
                why.number()
            }
            (answer, expected) => panic!("{answer:?} where {expected:?} is due"),
        }
    }

    /// How many licences a complaint names.
    fn named(&self, day: u32, mark: u32) -> usize {
        let mut second = Memory::lent(room(self.of.0, self.of.1));
        self.their_journal
            .licences(&self.their_start, day, mark, &mut second, usize::MAX)
            .map_or(0, |list| list.len())
    }
}

#[test]
fn complaints_by_chance() {
    const OF: (u32, u32) = (27, 24);
    let exact = room(OF.0, OF.1);
    let mut seen = BTreeSet::new();
    let (mut most, mut named) = (0, 0);
    for seed in 0..60 {
        let mut chance = Chance::from_seed(seed);
        let mut desk = Desk::begun(OF, 1 + seed as u32 % 2, 200);
        let mut day = 0;
        for _ in 0..160 {
            day += match chance.below(20) {
                0 => 366,
                1..=6 => chance.below(9),
                _ => 0,
            };
            let edit = draw_edit(&mut chance, OF, &desk.their_mesh);
            desk.enter(day, &edit);
            if chance.one_in(12) {
                desk.fold((day + 1).saturating_sub(366 + chance.below(3)));
            }
            let asked = match chance.below(6) {
                0 => u32::MAX,
                1 => 0,
                _ => day.saturating_sub(chance.below(40)),
            };
            let mark = chance.below(OF.0 + 1);
            let full = desk.named(asked, mark);
            (most, named) = (most.max(full), named + full);
            let words = exact - 1 + chance.below(8).min(3) as usize;
            for places in [full.saturating_sub(1), full, full + 1, 128] {
                seen.insert(desk.complain(asked, mark, words, places));
            }
        }
    }
    println!("{named} licences named, {most} at most");
    assert!(seen.into_iter().eq([0, 2, 8, 12, 21]) && most > 5);
}

/// Every combination of faults: the first in the listed order is given.
#[test]
fn a_complaint_refuses_in_order() {
    let exact = room(6, 4);
    let bar = |cell: u32, licence: u32| Edit::Insert {
        cell,
        code: 1,
        licence,
        marks: vec![1, 2 + cell],
    };
    let mut desk = Desk::begun((6, 4), 1, 4);
    for (day, edit) in [
        (100, bar(0, 9)),
        (100, bar(1, 9)),
        (120, bar(2, 4)),
        (500, bar(3, 0)),
    ] {
        assert!(desk.enter(day, &edit));
    }
    desk.fold(110);
    let mut seen = BTreeSet::new();
    for no_journal in [false, true] {
        if no_journal {
            desk.journal[0] ^= 1;
            desk.their_journal.book = None;
        }
        for day in [0, 109, 110, 119, 120, 499, 500, 65_536, u32::MAX] {
            for words in [0, 15, exact - 1, exact, exact + 5] {
                for mark in [0, 1, 5, 6, u32::MAX] {
                    for places in [0, 1, 2, 128] {
                        let list = match mark {
                            1 if day >= 120 => 2,
                            1 => 1,
                            5 | 0 => 0,
                            _ => 0,
                        };
                        let expected = match () {
                            () if no_journal => 14,
                            () if day < 110 => 21,
                            () if words < exact => 2,
                            () if mark >= 6 => 8,
                            () if places < list => 12,
                            () => 0,
                        };
                        let number = desk.complain(day, mark, words, places);
                        assert_eq!(number, expected);
                        seen.insert(number);
                    }
                }
            }
        }
    }
    assert!(seen.into_iter().eq([0, 2, 8, 12, 14, 21]));
}

/// 128 cells of 128 licences at a mark, and the same with one licence.
#[test]
fn as_many_as_a_mark_has() {
    let exact = room(140, 140);
    for one in [false, true] {
        let mut desk = Desk::begun((140, 140), 1, 140);
        for cell in 0..128 {
            let licence = if one { 5 } else { u32::MAX - cell };
            let marks = vec![0, 1 + cell];
            let edit = Edit::Insert {
                cell,
                code: 1,
                licence,
                marks,
            };
            assert!(desk.enter(cell, &edit));
        }
        for day in [0, 1, 64, 126, 127, 200] {
            let full = if one { 1 } else { (day as usize + 1).min(128) };
            assert_eq!(desk.named(day, 0), full);
            assert_eq!(desk.complain(day, 0, exact, full), 0);
            assert_eq!(desk.complain(day, 0, exact, full - 1), 12);
        }
    }
}

/// 65,535 cells and a mark for each, in a chain: cell c on the marks c, c + 1 and
/// c + 2. Every seventh is removed and inserted with another licence, a day each.
#[test]
fn at_full_size() {
    const FULL: u32 = 65_535;
    const STEP: u32 = 7;
    let exact = room(FULL, FULL);
    let body = |cell: u32| [0, 1, 2].map(|step| Mark((cell + step) % FULL));
    let before = |cell: u32| cell % 1_000;
    let after = |cell: u32| u32::MAX - cell;
    let mut records = Records::new();
    for cell in 0..FULL {
        records.add(
            Cell(cell),
            Type::Triangle,
            Licence(before(cell)),
            &body(cell),
        );
    }
    let mut mesh = Mesh::over(vec![SENTINEL; exact]);
    mesh.build(FULL, FULL, &records)
        .expect("the chain is sound");
    let turns = FULL.div_ceil(STEP);
    let mut journal = Journal::over(
        vec![SENTINEL; journal_words(2 * turns as usize)],
        vec![SENTINEL; exact],
    );
    journal.begin(&mesh).expect("the room fits");
    for turn in 0..turns {
        let cell = Cell(STEP * turn);
        let licence = Licence(after(cell.0));
        let removed = journal.remove(&mut mesh, 2 * turn, cell);
        assert_eq!(removed, Ok(()));
        let marks = body(cell.0);
        let again = journal.insert(
            &mut mesh,
            2 * turn + 1,
            cell,
            Type::Triangle,
            licence,
            &marks,
        );
        assert_eq!(again, Ok(()));
    }
    let due = |day: u32, mark: u32| -> Vec<Licence> {
        let around = [0, 1, 2].map(|step| (mark + FULL - step) % FULL);
        let licence = |cell: u32| match cell % STEP {
            0 if day > 2 * (cell / STEP) => Some(after(cell)),
            0 if day == 2 * (cell / STEP) => None,
            _ => Some(before(cell)),
        };
        let named: BTreeSet<u32> = around.into_iter().filter_map(licence).collect();
        let named = named.into_iter().filter(|&licence| licence != 0);
        named.map(Licence).collect()
    };
    let mut then = Mesh::over(vec![SENTINEL; exact + 4]);
    for (day, mark) in [
        (0, 0),
        (1, 0),
        (1, 1),
        (11_428, 39_998),
        (11_428, 39_999),
        (11_429, 39_999),
        (11_427, 39_999),
        (2 * turns - 2, FULL - 1),
        (2 * turns, FULL - 1),
        (u32::MAX, 1_000),
    ] {
        assert_eq!(
            journal.licences(day, Mark(mark), &mut then),
            Ok(due(day, mark))
        );
    }
    assert_eq!(then.words()[..exact], *mesh.words());
    assert_eq!(then.words()[exact..], [SENTINEL; 4]);
    let outside = journal.licences(0, Mark(FULL), &mut then);
    assert_eq!(outside, Err(Refusal::MarkOutside));
}

/// Damaged words of journal and starting map: the call returns, a refusal leaves
/// the list, and nothing is written behind the room or behind the count.
#[test]
fn damaged_memory_is_safe() {
    const OF: (u32, u32) = (9, 10);
    let exact = room(OF.0, OF.1);
    let mut chance = Chance::from_seed(10);
    let (mut answered, mut refused) = (0, 0);
    for _ in 0..60 {
        let mut desk = Desk::begun(OF, 1, 30);
        for day in 0..30 {
            let edit = draw_edit(&mut chance, OF, &desk.their_mesh);
            desk.enter(day, &edit);
        }
        for _ in 0..200 {
            let (mut journal, mut start) = (desk.journal.clone(), desk.start.clone());
            for _ in 0..=chance.below(3) {
                let words = if chance.one_in(2) {
                    &mut journal
                } else {
                    &mut start
                };
                let at = chance.below(words.len() as u32) as usize;
                words[at] = match chance.below(3) {
                    0 => chance.below(300),
                    1 => words[at] ^ (1 << chance.below(32)),
                    _ => chance.bits() as u32,
                };
            }
            let words = exact - 1 + chance.below(6) as usize;
            let places = chance.below(20) as usize;
            let mut second = vec![SENTINEL; words + 8];
            let mut out = vec![Licence(SENTINEL); places + 8];
            let answer = Journal::over(&journal[..], &start[..]).licences_into(
                chance.below(40),
                Mark(chance.below(OF.0 + 2)),
                &mut Mesh::over(&mut second[..words]),
                &mut out[..places],
            );
            let count = answer.unwrap_or(0);
            assert!(count <= places);
            assert!(out[count..].iter().all(|&place| place == Licence(SENTINEL)));
            assert!(second[words.min(exact)..]
                .iter()
                .all(|&word| word == SENTINEL));
            answered += u32::from(answer.is_ok());
            refused += u32::from(answer.is_err());
        }
    }
    println!("{answered} answered, {refused} refused");
    assert!(answered > 1_000 && refused > 1_000);
}

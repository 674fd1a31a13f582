//! Request 13: two edits on different cell numbers whose cells share no mark, in
//! either order.

mod common;

use common::answers::answers;
use common::maps::*;
use common::random::{map_by_chance, Random};
use second::shapes::type_with_code;
use second::{Memory, Refusal, Tally};

#[derive(Clone, Debug, PartialEq, Eq)]
enum Edit {
    Insert(u32, u32, Vec<u32>),
    Remove(u32),
}

use Edit::{Insert, Remove};

impl Edit {
    fn cell(&self) -> u32 {
        match self {
            Insert(cell, ..) | Remove(cell) => *cell,
        }
    }

    /// "The cell of a removal is the one live under its number before both
    /// edits; a removal refused with 3 or 5 has none and shares nothing. An
    /// insert that is refused counts with the marks it named."
    fn marks(&self, before: &Memory) -> Vec<u32> {
        match self {
            Insert(_, _, marks) => marks.clone(),
            Remove(cell) => before.marks_of(*cell),
        }
    }

    fn call(&self, memory: &mut Memory) -> Result<(), Refusal> {
        match self {
            Insert(cell, code, marks) => {
                memory.insert_licensed(*cell, *code, licence_of(*cell), marks)
            }
            Remove(cell) => memory.remove(*cell),
        }
    }

    fn words(&self) -> Vec<u32> {
        match self {
            Insert(cell, code, marks) => {
                [&[1, *cell, *code, licence_of(*cell)], &marks[..]].concat()
            }
            Remove(cell) => vec![2, *cell],
        }
    }

    /// A list holds no more marks than the type has.
    fn listable(&self) -> bool {
        match self {
            Insert(_, code, marks) => {
                type_with_code(*code).map_or(0, |row| row.marks) >= marks.len()
            }
            Remove(_) => true,
        }
    }
}

/// "two edits on different cell numbers whose cells share no mark"
fn two_crews(before: &Memory, a: &Edit, b: &Edit) -> bool {
    let theirs = b.marks(before);
    a.cell() != b.cell() && !a.marks(before).iter().any(|mark| theirs.contains(mark))
}

/// The live cells in the order of their numbers.
fn sorted(mut memory: Memory) -> Memory {
    if let Some(mesh) = &mut memory.mesh {
        mesh.live.sort_by_key(|cell| cell.number);
    }
    memory
}

/// What the first is answered, what the second is, and what is left.
type Made = (Result<(), Refusal>, Result<(), Refusal>, Memory);

fn made(before: &Memory, first: &Edit, second: &Edit) -> Made {
    let mut after = before.clone();
    let answers = [first, second].map(|edit| edit.call(&mut after));
    (answers[0], answers[1], sorted(after))
}

/// The same as two lists of one edit, with what is left of the tally.
fn tallied(before: &Memory, first: &Edit, second: &Edit, tally: Tally) -> (Memory, Tally) {
    let (mut after, mut tally) = (before.clone(), tally);
    for edit in [first, second] {
        let _ = after.edits(&edit.words(), &mut tally);
    }
    (sorted(after), tally)
}

/// "each gets the same answer both times, and every query answers alike at the
/// end .. Live counts and the request 2 tally are equal as well."
fn either_order(before: &Memory, a: &Edit, b: &Edit) -> (Result<(), Refusal>, Result<(), Refusal>) {
    let (first, second, after) = made(before, a, b);
    let (second_first, first_second, other) = made(before, b, a);
    assert_eq!((first, second), (first_second, second_first), "{a:?} {b:?}");
    assert_eq!(after, other, "{a:?} {b:?}");
    if a.listable() && b.listable() {
        for count in [0, u32::MAX - 1, u32::MAX] {
            let tally = Tally {
                accepted: count,
                refused: count,
            };
            let (left, counts) = tallied(before, a, b, tally);
            assert_eq!(left, after);
            assert_eq!(tallied(before, b, a, tally), (left, counts));
        }
    }
    (first, second)
}

/// The marks of a crew's end of the map, and a crew's spare cells.
const END: u32 = 16;
const CELLS: u32 = 300;

/// A crew's part: cell numbers of its own parity, marks of its own end. Mark 0 of
/// the end is full; the face of its marks 10, 11 and 12 has two tetrahedra.
fn part(crew: u32) -> Vec<(u32, u32, Vec<u32>)> {
    let mut cells = Vec::new();
    for a in 1..10 {
        cells.push((BAR, vec![0, a]));
        for b in a + 1..10 {
            cells.push((TRI, vec![0, a, b]));
            cells.extend((b + 1..10).map(|c| (QUAD, vec![0, a, b, c])));
        }
    }
    cells.truncate(128);
    cells.push((TETRA, vec![10, 11, 12, 13]));
    cells.push((TETRA, vec![11, 10, 12, 14]));
    let numbered = (0..).zip(cells);
    numbered
        .map(|(place, (code, marks))| (2 * place + crew, code, at_end(crew, &marks)))
        .collect()
}

fn at_end(crew: u32, marks: &[u32]) -> Vec<u32> {
    marks.iter().map(|mark| END * crew + mark).collect()
}

fn both_ends(edition: u32) -> Memory {
    let mut memory = formatted_edition(2 * END, CELLS, edition);
    for (cell, code, marks) in [part(0), part(1)].concat() {
        assert_eq!(memory.insert(cell, code, &marks), Ok(()));
    }
    memory
}

/// An edit at a crew's end for each answer that an edit can get.
fn every_answer(crew: u32) -> Vec<(u8, Edit)> {
    let spare = 298 + crew;
    let insert = |cell, code, marks: &[u32]| Insert(cell, code, at_end(crew, marks));
    vec![
        (0, insert(spare, BAR, &[10, 11])),
        (0, insert(spare, PENTA, &[10, 11, 13, 12, 14, 15])),
        (3, insert(CELLS + crew, BAR, &[10, 11])),
        (4, insert(crew, BAR, &[10, 11])),
        (6, insert(spare, 0, &[])),
        (6, insert(spare, 8 + crew, &[10, 11])),
        (7, insert(spare, TRI, &[])),
        (7, insert(spare, TRI, &[10, 11])),
        (7, insert(spare, BAR, &[10, 11, 12])),
        (8, Insert(spare, BAR, vec![END * crew, 2 * END + crew])),
        (9, insert(spare, TRI, &[10, 11, 10])),
        (10, insert(spare, TRI, &[0, 2, 1])),
        (19, insert(spare, TETRA, &[12, 10, 11, 15])),
        (19, insert(spare, PYRA, &[10, 11, 13, 15, 12])),
        (11, insert(spare, BAR, &[0, 10])),
        (11, insert(spare, HEXA, &[0, 1, 2, 3, 12, 13, 14, 15])),
        (0, Remove(crew)),
        (0, Remove(2 * 128 + crew)),
        (3, Remove(CELLS + crew)),
        (5, Remove(spare)),
    ]
}

/// Every pair of answers and of kinds, at both ends of one map, under both
/// editions.
#[test]
fn every_pair_of_answers() {
    for edition in [1, 2] {
        let before = both_ends(edition);
        for (number, a) in every_answer(0) {
            for (other, b) in every_answer(1) {
                assert!(two_crews(&before, &a, &b), "{a:?} {b:?}");
                // edition 1 puts any number of solids on a face
                let due = |number: u8| {
                    if (number, edition) == (19, 1) {
                        0
                    } else {
                        number
                    }
                };
                let (first, second) = either_order(&before, &a, &b);
                let number_of =
                    |answer: Result<(), Refusal>| answer.map_or_else(Refusal::number, |()| 0);
                assert_eq!(number_of(first), due(number), "{a:?} {edition}");
                assert_eq!(number_of(second), due(other), "{b:?} {edition}");
            }
        }
    }
}

/// An edit of a map, mostly a good one.
fn by_chance(random: &mut Random, memory: &Memory) -> Edit {
    let mesh = memory.mesh.as_ref().expect("a mesh to edit");
    let cell = random.below(mesh.cells as usize + 1) as u32;
    if random.below(3) == 0 {
        return Remove(cell);
    }
    let code = random.below(9) as u32;
    let count = type_with_code(code).map_or(0, |row| row.marks);
    let mut marks = random.marks(mesh.marks + 1, count);
    marks.resize(count, 0);
    match (random.below(12), &mut marks[..]) {
        (0, [first, second, ..]) => *first = *second,
        (1, [_, ..]) => {
            marks.pop();
        }
        _ => {}
    }
    Insert(cell, code, marks)
}

/// On small maps, so that cells share marks all around the two; with every
/// answer of the two maps left.
#[test]
fn pairs_by_chance() {
    let mut random = Random::from_seed(13);
    let (mut apart, mut close) = (0, 0);
    let mut both = [0; 4];
    for turn in 0..60 {
        let before = map_by_chance(&mut random, 10, 8, 1 + turn % 2);
        for _ in 0..150 {
            let (a, b) = (
                by_chance(&mut random, &before),
                by_chance(&mut random, &before),
            );
            if !two_crews(&before, &a, &b) {
                close += 1;
                continue;
            }
            apart += 1;
            let (first, second) = either_order(&before, &a, &b);
            both[usize::from(first.is_ok()) + 2 * usize::from(second.is_ok())] += 1;
            if apart % 40 == 0 {
                let (_, _, after) = made(&before, &a, &b);
                let (_, _, other) = made(&before, &b, &a);
                assert_eq!(answers(&after), answers(&other));
            }
        }
    }
    assert!(apart > 1_000 && close > 1_000, "{apart} {close}");
    assert!(both.iter().all(|&count| count > 50), "{both:?}");
}

/// What the two are answered in each order.
fn answered(before: &Memory, a: &Edit, b: &Edit) -> [Result<(), Refusal>; 4] {
    let (first, second, _) = made(before, a, b);
    let (other_second, other_first, _) = made(before, b, a);
    [first, second, other_first, other_second]
}

/// "on different cell numbers": one number, and cells that share no mark.
#[test]
fn one_number_is_not_enough() {
    let before = p2();
    let a = Remove(0);
    let b = Insert(0, BAR, vec![3, 4]);
    let live = Err(Refusal::CellLive);
    assert_eq!(answered(&before, &a, &b), [Ok(()), Ok(()), Ok(()), live]);
    let a = Insert(1, BAR, vec![0, 1]);
    let b = Insert(1, BAR, vec![3, 4]);
    assert_eq!(answered(&before, &a, &b), [Ok(()), live, live, Ok(())]);
}

/// "whose cells share no mark": a mark's 128th cell, a face's second solid, and
/// the removal of a cell beside them.
#[test]
fn one_shared_mark_is_too_many() {
    let mut before = both_ends(2);
    before.remove(0).expect("a bar at the full mark");
    let full = Err(Refusal::MarkFull);
    let a = Insert(0, BAR, vec![0, 10]);
    let b = Insert(298, BAR, vec![0, 11]);
    assert_eq!(answered(&before, &a, &b), [Ok(()), full, full, Ok(())]);
    let before = both_ends(2);
    let a = Remove(0);
    assert_eq!(before.marks_of(0), [0, 1]);
    assert_eq!(answered(&before, &a, &b), [Ok(()), Ok(()), Ok(()), full]);
    let third = Err(Refusal::FaceFull);
    let a = Remove(256);
    let b = Insert(298, TETRA, vec![10, 11, 12, 15]);
    assert_eq!(answered(&before, &a, &b), [Ok(()), Ok(()), Ok(()), third]);
    let twin = Err(Refusal::CellSame);
    let b = Insert(298, TETRA, vec![13, 12, 11, 10]);
    assert_eq!(answered(&before, &a, &b), [Ok(()), Ok(()), Ok(()), twin]);
}

/// "An insert that is refused counts with the marks it named": with 11 at a full
/// mark, beside a removal there, it would share nothing if it counted with none.
#[test]
fn a_refused_insert_counts() {
    let before = both_ends(1);
    let a = Insert(298, BAR, vec![0, 11]);
    let b = Remove(0);
    assert_eq!(a.call(&mut before.clone()), Err(Refusal::MarkFull));
    assert!(!two_crews(&before, &a, &b));
    let full = Err(Refusal::MarkFull);
    assert_eq!(answered(&before, &a, &b), [full, Ok(()), Ok(()), Ok(())]);
}

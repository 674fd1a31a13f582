//! Request 2: a list of edits in one call, and the tally.

mod common;

use common::maps::*;
use common::pairs::*;
use common::random::Random;
use second::shapes::type_with_code;
use second::{room, Memory, Refusal, Tally};

/// 6 for a kind neither insert nor remove, which is checked before all of an
/// edit's own.
const KIND: u8 = EDITION;

const NONE: Tally = Tally {
    accepted: 0,
    refused: 0,
};

/// One edit, as a list has it.
#[derive(Clone, Debug, PartialEq, Eq)]
enum Edit {
    Insert(u32, u32, Vec<u32>),
    Remove(u32),
}

use Edit::{Insert, Remove};

impl Edit {
    fn words(&self) -> Vec<u32> {
        match self {
            Insert(cell, code, marks) => {
                [&[1, *cell, *code, licence_of(*cell)], &marks[..]].concat()
            }
            Remove(cell) => vec![2, *cell],
        }
    }

    fn call(&self, memory: &mut Memory) -> Result<(), Refusal> {
        match self {
            Insert(cell, code, marks) => {
                memory.insert_licensed(*cell, *code, licence_of(*cell), marks)
            }
            Remove(cell) => memory.remove(*cell),
        }
    }
}

fn words_of(edits: &[Edit]) -> Vec<u32> {
    edits.iter().flat_map(Edit::words).collect()
}

/// The list by one call, on a copy, with the tally of that call alone.
type Answered = (Result<usize, (Refusal, usize)>, Memory, Tally);

fn called(memory: &Memory, list: &[u32]) -> Answered {
    let mut after = memory.clone();
    let mut tally = NONE;
    let answer = after.edits(list, &mut tally);
    (answer, after, tally)
}

/// The edits called one by one until one is refused.
fn one_by_one(memory: &Memory, edits: &[Edit]) -> Answered {
    let mut after = memory.clone();
    for (made, edit) in edits.iter().enumerate() {
        if let Err(refusal) = edit.call(&mut after) {
            let tally = Tally {
                accepted: made as u32,
                refused: 1,
            };
            return (Err((refusal, made)), after, tally);
        }
    }
    let tally = Tally {
        accepted: edits.len() as u32,
        refused: 0,
    };
    (Ok(edits.len()), after, tally)
}

/// An edit of a map of few marks, mostly a good one. Marks are as many as the
/// type has, so that the list is read as it was written.
fn by_chance(random: &mut Random, memory: &Memory) -> Edit {
    let mesh = memory.mesh.as_ref().expect("a mesh to edit");
    let cell = random.below(mesh.cells as usize + 1) as u32;
    if random.below(3) == 0 {
        return Remove(cell);
    }
    let code = random.below(8) as u32;
    let count = type_with_code(code).map_or(0, |row| row.marks);
    let mut marks = random.marks(mesh.marks + 1, count);
    marks.resize(count, 0);
    if let ([first, second, ..], 0) = (marks.as_mut_slice(), random.below(20)) {
        *first = *second;
    }
    Insert(cell, code, marks)
}

/// "14 first, for an empty list too": nothing is made, and the list is stopped.
#[test]
fn memory_that_is_no_mesh() {
    let mut shortened = p4();
    shortened.words -= 1;
    for memory in [Memory::lent(0), Memory::lent(1000), shortened] {
        for list in [&[][..], &[2, 0], &[3], &[1], &[1, 0, BAR, 7, 0, 1, 2, 0]] {
            let (answer, after, tally) = called(&memory, list);
            assert_eq!(answer, Err((Refusal::NotMesh, 0)));
            assert_eq!(after, memory);
            assert_eq!((tally.accepted, tally.refused), (0, 1));
        }
    }
}

#[test]
fn an_empty_list_makes_nothing_and_is_not_stopped() {
    let (answer, after, tally) = called(&p4(), &[]);
    assert_eq!(answer, Ok(0));
    assert_eq!(after, p4());
    assert_eq!(tally, NONE);
}

/// "result and memory as if called one by one": by hand.
#[test]
fn a_list_is_its_edits_in_order() {
    let edits = [
        Insert(0, TRI, vec![0, 1, 2]),
        Insert(1, TRI, vec![2, 1, 3]),
        Remove(0),
        Insert(0, HEXA, vec![0, 1, 2, 3, 4, 5, 6, 7]),
        Insert(2, BAR, vec![3, 0]),
    ];
    let empty = formatted(8, 4);
    let (answer, after, tally) = called(&empty, &words_of(&edits));
    assert_eq!(answer, Ok(5));
    assert_eq!((tally.accepted, tally.refused), (5, 0));
    assert_eq!(after.type_of(0), Ok(HEXA));
    assert_eq!(after.marks_of(1), [2, 1, 3]);
    assert_eq!(after.count_of_type(TRI), Ok(1));
    assert!(after.whole());
    // stopped: "the edits before it stay", and those behind it are not made
    let stopped = [&edits[..2], &[Insert(3, TRI, vec![1, 2, 0])], &edits[2..]].concat();
    let (answer, after, tally) = called(&empty, &words_of(&stopped));
    assert_eq!(answer, Err((Refusal::CellSame, 2)));
    assert_eq!((tally.accepted, tally.refused), (2, 1));
    assert_eq!(after, one_by_one(&empty, &edits[..2]).1);
}

/// Words of one edit behind a good one, which is made. Of an insert the map with
/// a full mark and full faces, under edition 2.
#[test]
fn an_inserts_6_7_3_4_6_7_8_9_10_19_11() {
    let order = &[14, KIND, MISSING, 3, 4, 6, 7, 8, 9, 10, 19, 11];
    let mut pairs = Pairs::in_order(order);
    let kinds: [Choice<u32>; 4] = [(1, &[]), (0, &[KIND]), (3, &[KIND]), (257, &[KIND])];
    let cells: [Choice<u32>; 3] = [(150, &[]), (ABOVE_ALL, &[3]), (0, &[4])];
    let rest = [after_the_number(), third_solids_after_the_number()].concat();
    let memories: [Choice<Memory>; 2] = [
        (with_full_face(), &[]),
        (Memory::lent(room(200, 200)), &[14]),
    ];
    let before = [1, 151, BAR, 7, 198, 199];
    for (memory, of_memory) in &memories {
        for (kind, of_kind) in kinds {
            for (cell, of_cell) in cells {
                for (record, of_record) in &rest {
                    let faults = [of_cell, of_record].concat();
                    let needs_live = faults.iter().any(|it| [4, 10, 19, 11].contains(it));
                    if memory.mesh.is_none() && needs_live {
                        continue;
                    }
                    let list = [&before, &[kind, cell][..], record].concat();
                    let (answer, after, tally) = called(memory, &list);
                    let refusal = answer.err().map(|(refusal, _)| refusal);
                    pairs.see(&[of_memory, of_kind, of_cell, of_record], refusal);
                    if of_memory.is_empty() {
                        let made = answer.unwrap_or_else(|(_, made)| made);
                        assert_eq!(made, if answer.is_ok() { 2 } else { 1 });
                        assert_eq!(after.type_of(151), Ok(BAR));
                        assert_eq!(tally.accepted, made as u32);
                        assert_eq!(tally.refused, u32::from(answer.is_err()));
                    }
                }
            }
        }
    }
    const NO_TYPE: &str = "an edit without its type or its licence has no marks";
    const UNKNOWN: &str = "an unknown type has no live cell and no faces";
    const TOO_FEW: &str = "a list cut short has fewer marks than a live cell of its type";
    const LIVE_MARKS: &str = "the marks of a live cell are below the capacity and differ";
    pairs.end(&[
        (14, 4, NO_LIVE_CELL),
        (14, 10, NO_LIVE_CELL),
        (14, 19, NO_LIVE_CELL),
        (14, 11, NO_LIVE_CELL),
        (MISSING, 7, NO_TYPE),
        (MISSING, 8, NO_TYPE),
        (MISSING, 9, NO_TYPE),
        (MISSING, 10, NO_TYPE),
        (MISSING, 19, NO_TYPE),
        (MISSING, 11, NO_TYPE),
        (3, 4, LIVE_IS_BELOW),
        (6, 10, UNKNOWN),
        (6, 19, UNKNOWN),
        (7, 10, TOO_FEW),
        (8, 10, LIVE_MARKS),
        (9, 10, LIVE_MARKS),
    ]);
}

#[test]
fn a_removals_6_7_3_5() {
    let mut pairs = Pairs::in_order(&[14, KIND, MISSING, 3, 5]);
    let kinds: [Choice<u32>; 3] = [(2, &[]), (0, &[KIND]), (u32::MAX, &[KIND])];
    let numbers: [Choice<&[u32]>; 5] = [
        (&[0], &[]),
        (&[], &[MISSING]),
        (&[1], &[5]),
        (&[4], &[3, 5]),
        (&[ABOVE_ALL], &[3, 5]),
    ];
    let memories: [Choice<Memory>; 2] = [(p9(), &[]), (Memory::lent(1000), &[14])];
    for (memory, of_memory) in &memories {
        for (kind, of_kind) in kinds {
            for (number, of_number) in numbers {
                let list = [&[kind][..], number].concat();
                let (answer, _, _) = called(memory, &list);
                let refusal = answer.err().map(|(refusal, _)| refusal);
                pairs.see(&[of_memory, of_kind, of_number], refusal);
            }
        }
    }
    const NO_NUMBER: &str = "an edit without its number has none to check";
    pairs.end(&[(MISSING, 3, NO_NUMBER), (MISSING, 5, NO_NUMBER)]);
}

/// "missing marks are 7 in its place": after 3, 4 and 6, before 8.
#[test]
fn a_record_cut_short_is_checked_in_its_place() {
    let memory = p2();
    for (list, due) in [
        (&[1, 4, TRI, 7, 0][..], Refusal::CellOutside),
        (&[1, 0, TRI, 7, 0], Refusal::CellLive),
        (&[1, 1, 9, 7], Refusal::TypeUnknown),
        (&[1, 1, TRI, 7, 0, 99], Refusal::CountWrong),
        (&[1, 1, TRI, 7, 0, 1, 99], Refusal::MarkOutside),
        // without its licence it is 7 before all of them
        (&[1, 4, TRI], Refusal::CountWrong),
        (&[1, 0, TRI], Refusal::CountWrong),
        (&[1, 1, 9], Refusal::CountWrong),
    ] {
        let (answer, after, _) = called(&memory, list);
        assert_eq!(answer, Err((due, 0)), "{list:?}");
        assert_eq!(after, memory);
    }
}

/// A list cut at each word: all edits before the cut are made, and a cut inside
/// one is 7, unless one of its checks comes before.
#[test]
fn a_list_cut_short_at_every_word() {
    let edits = [
        Insert(0, TRI, vec![0, 1, 2]),
        Insert(1, TETRA, vec![0, 1, 2, 3]),
        Remove(0),
        Insert(2, HEXA, vec![0, 1, 2, 3, 4, 5, 6, 7]),
        Insert(0, PYRA, vec![4, 5, 6, 7, 8]),
        Remove(1),
        Insert(3, PENTA, vec![0, 1, 2, 3, 4, 5]),
    ];
    let empty = formatted(9, 4);
    let list = words_of(&edits);
    let ends: Vec<usize> = (0..=edits.len())
        .map(|made| words_of(&edits[..made]).len())
        .collect();
    for length in 0..=list.len() {
        let made = ends.iter().filter(|&&end| end <= length).count() - 1;
        let (answer, after, tally) = called(&empty, &list[..length]);
        let due = match ends.contains(&length) {
            true => Ok(made),
            false => Err((Refusal::CountWrong, made)),
        };
        assert_eq!(answer, due, "{length} words");
        assert_eq!(after, one_by_one(&empty, &edits[..made]).1);
        assert_eq!(tally.accepted, made as u32);
        assert_eq!(tally.refused, u32::from(due.is_err()));
    }
}

/// A good list with a refused edit put in at each place.
#[test]
fn a_list_refused_at_every_place() {
    let edits = [
        Insert(0, TRI, vec![0, 1, 2]),
        Insert(1, TETRA, vec![0, 1, 2, 3]),
        Remove(0),
        Insert(0, PYRA, vec![4, 5, 6, 7, 8]),
        Remove(1),
    ];
    let empty = formatted(9, 4);
    let bad: [(&[u32], Refusal); 6] = [
        (&[3, 0], Refusal::TypeUnknown),
        (&[2, 3], Refusal::CellNotLive),
        (&[2, 4], Refusal::CellOutside),
        (&[1, 2, 8, 7], Refusal::TypeUnknown),
        (&[1, 2, BAR, 7, 1, 1], Refusal::MarkTwice),
        (&[1, 2, BAR, 7, 1, 9], Refusal::MarkOutside),
    ];
    for place in 0..=edits.len() {
        for (words, refusal) in bad {
            let list = [
                &words_of(&edits[..place]),
                words,
                &words_of(&edits[place..]),
            ]
            .concat();
            let (answer, after, tally) = called(&empty, &list);
            assert_eq!(answer, Err((refusal, place)));
            assert_eq!(after, one_by_one(&empty, &edits[..place]).1);
            assert_eq!((tally.accepted, tally.refused), (place as u32, 1));
        }
    }
}

/// By chance, under both editions: as if called one by one, whole and in parts.
#[test]
fn lists_by_chance_are_as_if_called_one_by_one() {
    let mut random = Random::from_seed(31);
    let (mut all, mut stopped) = (0, 0);
    for turn in 0..400 {
        let mut memory = formatted_edition(6 + turn % 5, 12, 1 + turn % 2);
        let mut tally = NONE;
        let mut expected = NONE;
        for _ in 0..6 {
            let edits: Vec<Edit> = (0..random.below(7))
                .map(|_| by_chance(&mut random, &memory))
                .collect();
            let (answer, after, count) = one_by_one(&memory, &edits);
            assert_eq!(memory.edits(&words_of(&edits), &mut tally), answer);
            assert_eq!(memory, after);
            expected.accepted += count.accepted;
            expected.refused += count.refused;
            assert_eq!(tally, expected);
            *if answer.is_ok() {
                &mut all
            } else {
                &mut stopped
            } += 1;
        }
        assert!(memory.whole());
    }
    assert!(all > 300 && stopped > 300, "{all} {stopped}");
}

/// Thousands of edits in one list.
#[test]
fn a_long_list() {
    let mut edits = Vec::new();
    for turn in 0..3_000 {
        let cell = turn % 7;
        edits.push(Insert(cell, BAR, vec![cell, cell + 1]));
        if turn >= 5 {
            edits.push(Remove((turn - 5) % 7));
        }
    }
    let empty = formatted(9, 7);
    let (answer, after, tally) = called(&empty, &words_of(&edits));
    assert_eq!(answer, Ok(edits.len()));
    assert_eq!(after, one_by_one(&empty, &edits).1);
    assert_eq!(tally.accepted as usize, edits.len());
    assert_eq!(after.count_of_type(BAR), Ok(5));
}

/// "a count at its largest number stays there"
#[test]
fn a_count_at_its_largest_stays() {
    let most = u32::MAX;
    for (accepted, refused, list, due) in [
        (most, 5, &[2, 0][..], (most, 5)),
        (most - 1, 5, &[2, 0], (most, 5)),
        (most - 1, 5, &[2, 0, 2, 1], (most, 5)),
        (most - 2, 5, &[2, 0, 2, 1], (most, 5)),
        (most - 3, 5, &[2, 0, 2, 1], (most - 1, 5)),
        (5, most, &[2, 3], (5, most)),
        (5, most - 1, &[2, 3], (5, most)),
        (5, most - 2, &[2, 3], (5, most - 1)),
        (most, most, &[2, 0, 2, 0], (most, most)),
        (most - 1, most - 1, &[2, 0, 2, 1, 2, 1], (most, most)),
        (5, most, &[2, 0], (6, most)),
        (most, most, &[], (most, most)),
    ] {
        let mut tally = Tally { accepted, refused };
        let mut memory = p4();
        let answer = memory.edits(list, &mut tally);
        assert_eq!((tally.accepted, tally.refused), due, "{list:?}");
        // "No answer depends on the tally."
        let (otherwise, after, _) = called(&p4(), list);
        assert_eq!((answer, memory), (otherwise, after));
    }
    let mut tally = Tally {
        accepted: 3,
        refused: most,
    };
    let answer = Memory::lent(0).edits(&[], &mut tally);
    assert_eq!(answer, Err((Refusal::NotMesh, 0)));
    assert_eq!((tally.accepted, tally.refused), (3, most));
}

//! Damaged memory into every call: each returns, a refusal changes nothing, no
//! word beyond the room changes, and where the whole check says yes every
//! query agrees with the second program over the records.
//!
//! MENGKILOH_DAMAGE gives the count of calls, 1,000,000 where it is not set.

mod common;

use common::{draw_licence, marks, plain, told, Chance, Number, Question, SENTINEL};
use mengkiloh::{room, Cell, Edits, Licence, Mark, Mesh, Records, Refusal, Tally};
use second::shapes::type_with_code;
use streams::lattice;

const MARKS: u32 = 9;
const CELLS: u32 = 10;
const PAD: usize = 24;

#[test]
fn every_call_is_safe_on_damaged_memory() {
    let calls = std::env::var("MENGKILOH_DAMAGE")
        .ok()
        .and_then(|count| count.parse().ok())
        .unwrap_or(1_000_000_u64);
    let mut chance = Chance::from_seed(4);
    let mut made = 0;
    let (mut whole, mut damaged_whole) = (0, 0);
    while made < calls {
        let good = good_memory(&mut chance);
        for _ in 0..64 {
            let mut words = good.clone();
            let damaged = damage(&mut chance, &mut words);
            for _ in 0..6 {
                made += one_call(&mut chance, &mut words);
            }
            if Mesh::over(&words[..]).whole() {
                whole += 1;
                damaged_whole += u64::from(damaged);
                // all questions where damage left a mesh, some where there was none
                match damaged {
                    true => agrees(&words, every_question()),
                    false => agrees(&words, (0..4).map(|_| draw(&mut chance))),
                }
            }
        }
    }
    println!("{made} calls; memory was whole {whole} times, {damaged_whole} after damage");
    assert!(whole > 0);
}

/// The edition's word changed and no other: no mesh's where there is no such
/// edition, and else a well-formed one exactly if each face has the solids that
/// the other edition lets it have.
#[test]
fn the_other_edition_holds_of_the_same_cells_or_not() {
    const EDITION: usize = 3;
    let mut chance = Chance::from_seed(8);
    let (mut yes, mut no) = (0, 0);
    for _ in 0..2_000 {
        let mut words = good_memory(&mut chance);
        assert!(Mesh::over(&words[..]).whole() && told(&words).whole());
        words[EDITION] = 3 - words[EDITION];
        let whole = Mesh::over(&words[..]).whole();
        assert_eq!(whole, told(&words).whole());
        *if whole { &mut yes } else { &mut no } += 1;
        if whole {
            agrees(&words, (0..8).map(|_| draw(&mut chance)));
        }
        for edition in [0, 3, 4, 1 << 31, u32::MAX] {
            words[EDITION] = edition;
            let mesh = Mesh::over(&words[..]);
            assert!(!mesh.whole());
            assert_eq!(mesh.edition(), Err(Refusal::NotMesh));
            let (number, _) = draw(&mut chance).to_library(&mesh);
            assert_eq!(number, Refusal::NotMesh.number());
        }
    }
    println!("the other edition held {yes} times and {no} times not");
    assert!(yes > 100 && no > 20);
}

/// The way in a stored sibling changed and no other bit: not well-formed.
#[test]
fn another_way_is_not_whole() {
    let mut chance = Chance::from_seed(6);
    let mut changed = 0;
    for _ in 0..500 {
        let mut words = good_memory(&mut chance);
        let first = 16 + 8 * MARKS as usize;
        for cell in 0..CELLS as usize {
            let record = first + 16 * cell;
            let facets = type_with_code(words[record]).map_or(0, |row| row.facets.len());
            for word in record + 5..record + 5 + facets {
                let right = words[word];
                words[word] ^= 1 + chance.below(3);
                assert!(!Mesh::over(&words[..]).whole());
                words[word] = right;
                changed += 1;
            }
        }
        assert!(Mesh::over(&words[..]).whole());
    }
    assert!(changed > 1_000, "{changed} ways");
}

/// A small map after some edits, under either edition, with words behind its
/// room.
fn good_memory(chance: &mut Chance) -> Vec<u32> {
    let mut mesh = Mesh::over(vec![SENTINEL; room(MARKS, CELLS) + PAD]);
    let edition = 1 + chance.below(2);
    mesh.format_edition(MARKS, CELLS, edition)
        .expect("the room fits");
    for _ in 0..24 {
        edit(chance, &mut mesh);
    }
    mesh.into_words()
}

fn edit<W: AsMut<[u32]>>(chance: &mut Chance, mesh: &mut Mesh<W>) -> bool {
    let cell = Cell(chance.below(CELLS + 1));
    if chance.below(4) == 0 {
        return mesh.remove(cell).is_ok();
    }
    if chance.one_in(2) {
        let (code, drawn) = lattice::draw(chance, lattice::side(MARKS));
        let licence = Licence(draw_licence(chance));
        return mesh
            .insert_licensed(cell, code, licence, &marks(&drawn))
            .is_ok();
    }
    let code = 1 + chance.below(7);
    let count = type_with_code(code).map_or(0, |row| row.marks);
    let mut drawn: Vec<u32> = (0..MARKS).collect();
    chance.shuffle(&mut drawn);
    if chance.one_in(8) {
        drawn[0] = drawn[1];
    }
    mesh.insert(cell, code, &marks(&drawn[..count])).is_ok()
}

/// Whether anything was changed.
fn damage(chance: &mut Chance, words: &mut Vec<u32>) -> bool {
    let before = words.clone();
    let any = |chance: &mut Chance, words: &[u32]| chance.below(words.len() as u32) as usize;
    match chance.below(9) {
        0 => {}
        1 => words.fill(0),
        2 => words.fill(u32::MAX),
        3 => words
            .iter_mut()
            .for_each(|word| *word = chance.bits() as u32),
        4 => words.truncate(chance.below(words.len() as u32) as usize),
        5 => {
            let at = any(chance, words);
            words[at] ^= 1 << chance.below(32);
        }
        6 => {
            for _ in 0..1 + chance.below(4) {
                let at = any(chance, words);
                words[at] = small_number(chance);
            }
        }
        7 => {
            let (a, b) = (any(chance, words), any(chance, words));
            words.swap(a, b);
        }
        _ => {
            // a mesh's head over small numbers: links that lead anywhere
            for word in &mut words[4..] {
                *word = small_number(chance);
            }
        }
    }
    *words != before
}

/// One that a type, a mark or a count might be, a link or a sibling and its way:
/// 8 × cell + corner + 1, 4 × (8 × cell + facet) + way (docs/LAYOUT.md).
fn small_number(chance: &mut Chance) -> u32 {
    match chance.below(3) {
        0 => chance.below(CELLS + 2),
        1 => chance.below(8 * CELLS + 2),
        _ => chance.below(4 * 8 * CELLS + 4),
    }
}

/// A call of any kind; how many were made.
fn one_call(chance: &mut Chance, words: &mut Vec<u32>) -> u64 {
    let before = words.clone();
    let end = match before.as_slice() {
        [_, marks @ 0..=65_535, cells @ 0..=65_535, ..] => room(*marks, *cells),
        _ => usize::MAX,
    };
    match chance.below(9) {
        0 => {
            let mut mesh = Mesh::over(&mut words[..]);
            if !edit(chance, &mut mesh) {
                assert_eq!(*words, before, "a refused edit changes nothing");
            }
        }
        1 => {
            let (marks, cells) = (chance.below(MARKS + 2), chance.below(CELLS + 2));
            let mut mesh = Mesh::over(&mut words[..]);
            let formatted = match chance.below(5) {
                4 => mesh.format(marks, cells),
                edition => mesh.format_edition(marks, cells, edition),
            };
            match formatted {
                Ok(()) => assert_eq!(words[room(marks, cells)..], before[room(marks, cells)..]),
                Err(_) => assert_eq!(*words, before),
            }
            *words = before;
            return 1;
        }
        2 => {
            let mut records: Vec<u32> = (0..chance.below(12)).map(|_| chance.below(8)).collect();
            if chance.one_in(2) {
                let (code, drawn) = lattice::draw(chance, lattice::side(MARKS));
                let record = [chance.below(CELLS + 1), code, draw_licence(chance)];
                records.splice(..0, record.into_iter().chain(drawn));
            }
            let records = Records::from(records);
            let edition = chance.below(4);
            let mut mesh = Mesh::over(&mut words[..]);
            let built = match edition {
                0 => mesh.build(MARKS, CELLS, &records),
                _ => mesh.build_edition(MARKS, CELLS, edition, &records),
            };
            match built.map_err(|refused| refused.refusal.number()) {
                Err(1 | 2) => assert_eq!(*words, before),
                Err(6) if edition == 3 => assert_eq!(*words, before),
                _ => {
                    assert!(Mesh::over(&words[..]).whole());
                    assert_eq!(words[3], edition.max(1));
                    assert_eq!(words[room(MARKS, CELLS)..], before[room(MARKS, CELLS)..]);
                }
            }
            *words = before;
            return 2;
        }
        3 => lists_leave_the_rest(chance, words),
        4 => some_edits(chance, words),
        _ => {
            let question = draw(chance);
            question.to_library(&Mesh::over(&words[..]));
            assert_eq!(*words, before, "a query changes nothing");
        }
    }
    if end < words.len() {
        assert_eq!(words[end..], before[end..], "nothing beyond the room");
    }
    1
}

/// A list of edits, or of any words: one that made none changes nothing, and the
/// tally counts what was made and whether it was stopped.
fn some_edits(chance: &mut Chance, words: &mut [u32]) {
    let before = words.to_vec();
    let mut list = Vec::new();
    for _ in 0..chance.below(4) {
        let (code, drawn) = lattice::draw(chance, lattice::side(MARKS));
        match chance.below(3) {
            0 => list.extend([2, chance.below(CELLS + 1)]),
            1 => list.extend((0..chance.below(8)).map(|_| chance.below(8))),
            _ => {
                list.extend([1, chance.below(CELLS + 1), code, draw_licence(chance)]);
                list.extend(drawn);
            }
        }
    }
    let mut tally = Tally {
        accepted: u32::MAX - chance.below(4),
        refused: chance.below(2),
    };
    let was = tally;
    let answer = Mesh::over(&mut *words).edits(&Edits::from(list), &mut tally);
    let (made, stopped) = match answer {
        Ok(made) => (made, 0),
        Err(stopped) => (stopped.made, 1),
    };
    assert_eq!(tally.accepted, was.accepted.saturating_add(made as u32));
    assert_eq!(tally.refused, was.refused + stopped);
    if made == 0 {
        assert_eq!(words, before, "no edit, no change");
    }
}

/// A list that is refused leaves the output, one that is given only its first
/// places.
fn lists_leave_the_rest(chance: &mut Chance, words: &[u32]) {
    let mesh = Mesh::over(words);
    let room = chance.below(33) as usize;
    let cell = Cell(chance.below(CELLS));
    let mark = Mark(chance.below(MARKS));
    let dimension = 1 + chance.below(3);
    match chance.below(6) {
        0 => {
            leaves_the_rest(room, |out| mesh.star_into(dimension, mark, out));
        }
        1 => {
            leaves_the_rest(room, |out| mesh.anchors_into(dimension, mark, out));
        }
        2 => {
            let mut ways = [SENTINEL; 40];
            let ways_room = chance.below(33) as usize;
            let facet = chance.below(6);
            let given = leaves_the_rest(room, |out| {
                mesh.cycle_into(cell, facet, out, &mut ways[..ways_room])
            });
            assert!(given <= ways_room);
            assert!(ways[given..].iter().all(|&word| word == SENTINEL));
            assert!(ways[..given].iter().all(|&word| word < 4));
        }
        3 => {
            leaves_the_rest(room, |out| mesh.neighbours_into(cell, out));
        }
        4 => {
            leaves_the_rest(room, |out| mesh.live_into(out));
        }
        _ => {
            leaves_the_rest(room, |out| mesh.cells_into(1 + chance.below(7), out));
        }
    }
}

/// How many places were given.
fn leaves_the_rest<T: Number>(
    room: usize,
    fill: impl FnOnce(&mut [T]) -> Result<usize, Refusal>,
) -> usize {
    let mut out = [T::from(SENTINEL); 40];
    let given = fill(&mut out[..room]).unwrap_or(0);
    assert!(given <= room);
    assert!(plain(&out[given..]).iter().all(|&word| word == SENTINEL));
    given
}

fn draw(chance: &mut Chance) -> Question {
    Question::draw(chance, MARKS, CELLS)
}

/// Each query with each argument, one past its range too.
fn every_question() -> impl Iterator<Item = Question> {
    let cells = (0..=CELLS).flat_map(|cell| {
        let halves = (0..7).flat_map(move |facet| {
            [
                Question::Sibling(cell, facet),
                Question::Border(cell, facet),
                Question::Cycle(cell, facet),
            ]
        });
        halves.chain([
            Question::Type(cell),
            Question::Licence(cell),
            Question::Marks(cell),
            Question::Neighbours(cell),
        ])
    });
    let at_marks = (0..=MARKS).flat_map(|mark| {
        (0..5).flat_map(move |dimension| {
            [
                Question::Star(dimension, mark),
                Question::Anchors(dimension, mark),
                Question::FirstAnchor(dimension, mark),
            ]
        })
    });
    let types = (0..9).flat_map(|code| [Question::Cells(code), Question::Count(code)]);
    let sets = (0..=MARKS).flat_map(|a| {
        let pairs = (0..MARKS).flat_map(move |b| {
            let triples = (b..MARKS).flat_map(move |c| {
                let fours = (c + 1..MARKS).map(move |d| Question::Lookup(vec![a, b, c, d]));
                fours.chain([Question::Lookup(vec![a, b, c])])
            });
            triples.chain([Question::Lookup(vec![a, b])])
        });
        pairs.chain([Question::Lookup(vec![a])])
    });
    let of_all = [
        Question::Edition,
        Question::Capacities,
        Question::Free,
        Question::Live,
    ];
    cells.chain(at_marks).chain(types).chain(sets).chain(of_all)
}

fn agrees(words: &[u32], questions: impl Iterator<Item = Question>) {
    let (mesh, second) = (Mesh::over(words), told(words));
    assert!(second.whole());
    for question in questions {
        let (ours, theirs) = (question.to_library(&mesh), question.to_second(&second));
        assert_eq!(ours, theirs, "{question:?}");
    }
}

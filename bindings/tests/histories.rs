//! Random histories under both editions, every answer beside the second
//! program's.

mod common;

use common::{draw_licence, marks, ours, records, theirs, Chance, Question, SENTINEL};
use mengkiloh::{room, Cell, Licence, Mesh};
use second::map::LiveCell;
use second::shapes::type_with_code;
use second::Memory;
use streams::lattice;

/// Sentinels before and behind the mesh.
const PAD: usize = 64;

struct Size {
    marks: u32,
    cells: u32,
    /// Marks are mostly drawn below this: the fewer, the more cells share.
    pool: u32,
    edits: u32,
    questions: u32,
}

#[test]
fn at_50_cells() {
    let mut third = 0;
    for seed in 0..40 {
        let size = Size {
            marks: 30,
            cells: 50,
            pool: 8 + seed as u32 % 16,
            edits: 300,
            questions: 12,
        };
        third += history(seed, size);
    }
    assert!(third > 40, "{third} third solids on a face");
}

#[test]
fn at_500_cells() {
    for seed in 100..104 {
        let size = Size {
            marks: 200,
            cells: 500,
            pool: 120,
            edits: 1_500,
            questions: 6,
        };
        history(seed, size);
    }
}

#[test]
fn at_5000_cells() {
    let size = Size {
        marks: 2_500,
        cells: 5_000,
        pool: 2_000,
        edits: 7_000,
        questions: 1,
    };
    history(200, size);
}

/// How many inserts were refused with 19.
fn history(seed: u64, size: Size) -> u32 {
    let mut chance = Chance::from_seed(seed);
    let edition = 1 + chance.below(2);
    let mut third = 0;
    let exact = room(size.marks, size.cells);
    let mut memory = vec![SENTINEL; exact + 2 * PAD];
    let mut second = Memory::lent(exact);
    Mesh::over(&mut memory[PAD..PAD + exact])
        .format_edition(size.marks, size.cells, edition)
        .expect("the room fits");
    second
        .format_edition(size.marks, size.cells, edition)
        .expect("the room fits");
    for turn in 0..size.edits {
        let number = one_edit(&mut chance, &size, &mut memory, &mut second);
        third += u32::from(number == 19);
        assert!(memory[..PAD].iter().all(|&word| word == SENTINEL));
        assert!(memory[PAD + exact..].iter().all(|&word| word == SENTINEL));
        let words = &memory[PAD..PAD + exact];
        for _ in 0..size.questions {
            ask(&mut chance, &size, words, &second);
        }
        if turn % (size.edits / 4) == size.edits / 4 - 1 {
            afresh(&mut chance, &size, words, &second);
        }
    }
    assert!(edition == 2 || third == 0);
    third
}

/// The number of its refusal, 0 for accepted.
fn one_edit(chance: &mut Chance, size: &Size, memory: &mut [u32], second: &mut Memory) -> u8 {
    let exact = room(size.marks, size.cells);
    let before = memory.to_vec();
    let cell = chance.below(size.cells + 1 + size.cells / 50);
    let removed = live_cell(second, cell).cloned();
    let mut mesh = Mesh::over(&mut memory[PAD..PAD + exact]);
    let (answer, expected, touched) = if chance.below(8) < 3 {
        let touched: Vec<u32> = removed
            .iter()
            .flat_map(|cell| cell.marks.iter().map(|mark| mark.0))
            .collect();
        let expected = theirs(second.remove(cell), |()| vec![]);
        let answer = ours(mesh.remove(Cell(cell)), |()| vec![]);
        (answer, expected, touched)
    } else {
        let (code, drawn) = match chance.below(2) {
            0 => draw_part(chance, size),
            _ => draw_cell(chance, size),
        };
        let licence = draw_licence(chance);
        let inserted = second.insert_licensed(cell, code, licence, &drawn);
        let expected = theirs(inserted, |()| vec![]);
        let answer = match licence {
            0 => mesh.insert(Cell(cell), code, &marks(&drawn)),
            _ => mesh.insert_licensed(Cell(cell), code, Licence(licence), &marks(&drawn)),
        };
        (ours(answer, |()| vec![]), expected, drawn)
    };
    assert_eq!(answer, expected);
    if answer.0 != 0 {
        assert_eq!(memory, before, "a refused edit changes nothing");
        return answer.0;
    }
    let changed: Vec<usize> = (0..exact)
        .filter(|&word| memory[PAD + word] != before[PAD + word])
        .collect();
    for word in changed {
        assert!(
            may_change(size, second, cell, &touched, word),
            "word {word} is of no record that the edit is about"
        );
    }
    answer.0
}

/// A type's code, now and then none, and marks, now and then too few, too many
/// or one of them twice.
fn draw_cell(chance: &mut Chance, size: &Size) -> (u32, Vec<u32>) {
    let code = match chance.below(40) {
        0 => chance.below(10),
        _ => 1 + chance.below(7),
    };
    let count = match chance.below(40) {
        0 => chance.below(10) as usize,
        _ => type_with_code(code).map_or(3, |row| row.marks),
    };
    let mut drawn = Vec::new();
    while drawn.len() < count {
        let mark = draw_mark(chance, size);
        if !drawn.contains(&mark) || chance.one_in(20) {
            drawn.push(mark);
        }
    }
    (code, drawn)
}

/// A cell of a cube, of few cubes as often as of many, so that faces are full.
fn draw_part(chance: &mut Chance, size: &Size) -> (u32, Vec<u32>) {
    let side = 1 + chance.below(lattice::side(size.marks));
    lattice::draw(chance, side)
}

fn draw_mark(chance: &mut Chance, size: &Size) -> u32 {
    match chance.below(80) {
        0 => chance.below(size.marks + 2),
        _ => chance.below(size.pool),
    }
}

fn live_cell(second: &Memory, cell: u32) -> Option<&LiveCell> {
    let live = &second.mesh.as_ref()?.live;
    second::map::live_cell(live, second::map::Cell(cell))
}

/// The head's live counts, the records of the edited cell and its marks, and
/// those of the cells that share a mark with it; second parts only of cells with
/// more than four marks.
fn may_change(size: &Size, second: &Memory, edited: u32, touched: &[u32], word: usize) -> bool {
    let first_cell = 16 + 8 * size.marks as usize;
    let second_part = first_cell + 16 * size.cells as usize;
    if word < 16 {
        return (5..12).contains(&word);
    }
    if word < first_cell {
        return touched.contains(&((word as u32 - 16) / 8));
    }
    let (part, least) = match word < second_part {
        true => (first_cell, 0),
        false => (second_part, 5),
    };
    let cell = ((word - part) / 16) as u32;
    let shares = |cell: &LiveCell| {
        cell.marks.len() >= least && cell.marks.iter().any(|mark| touched.contains(&mark.0))
    };
    (cell == edited && touched.len() >= least) || live_cell(second, cell).is_some_and(shares)
}

fn ask(chance: &mut Chance, size: &Size, words: &[u32], second: &Memory) {
    let question = match chance.below(6) {
        0 => Question::of_facet(second, chance),
        _ => None,
    };
    let question = question.unwrap_or_else(|| Question::draw(chance, size.marks, size.cells));
    let mesh = Mesh::over(words);
    let (ours, theirs) = (question.to_library(&mesh), question.to_second(second));
    assert_eq!(ours, theirs, "{question:?}");
}

/// "The evening's lists the afternoon's": a build of the live cells in any
/// order under the same edition is the same memory, word for word.
fn afresh(chance: &mut Chance, size: &Size, words: &[u32], second: &Memory) {
    assert!(Mesh::over(words).whole());
    let mut live: Vec<&LiveCell> = second
        .mesh
        .iter()
        .flat_map(|mesh| mesh.live.iter())
        .collect();
    chance.shuffle(&mut live);
    let mut built = Mesh::over(vec![chance.bits() as u32; words.len()]);
    let edition = Mesh::over(words).edition().expect("a mesh");
    let answer = built.build_edition(size.marks, size.cells, edition, &records(live));
    assert_eq!(answer, Ok(()));
    assert_eq!(built.words(), words);
}

//! Points, centres and measures of the library beside the second program's, bit
//! for bit.

mod common;

use common::{bits, marks, measured, metre, ours, pointed, theirs, Chance, Question, Said};
use mengkiloh::{room, Cell, Measure, Mesh, Refusal};
use second::positions::float;
use second::shapes::TYPES;
use second::Memory;

/// One cell of each type, numbered by its code less 1, on the first marks; the
/// same map in the library and in the second program.
fn one_of_each() -> (Mesh<Vec<u32>>, Memory) {
    let mut mesh = Mesh::with_room(9, 8).expect("the room fits");
    let mut memory = Memory::lent(room(9, 8));
    memory.format(9, 8).expect("the room fits");
    for (cell, row) in TYPES.iter().enumerate() {
        let on: Vec<u32> = (0..row.marks as u32).collect();
        let cell = cell as u32;
        assert_eq!(mesh.insert(Cell(cell), row.code, &marks(&on)), Ok(()));
        assert_eq!(memory.insert(cell, row.code, &on), Ok(()));
    }
    (mesh, memory)
}

/// The three answers about a cell, of the library and of the second program.
fn answers(mesh: &Mesh<Vec<u32>>, positions: &[i16], cell: u32, places: usize) -> [Said; 3] {
    [
        pointed(places, |out| mesh.points_into(positions, Cell(cell), out)),
        ours(mesh.centre(positions, Cell(cell)), |it| {
            bits([it.x, it.y, it.z])
        }),
        ours(mesh.measure(positions, Cell(cell)), measured),
    ]
}

fn expected(memory: &Memory, positions: &[i16], cell: u32, places: usize) -> [Said; 3] {
    [
        theirs(memory.points(positions, cell, places), |corners| {
            bits(corners.iter().flat_map(|at| [at.x, at.y, at.z].map(float)))
        }),
        theirs(memory.centre(positions, cell), |(sums, count)| {
            bits([sums.x, sums.y, sums.z].map(|sum| float(sum) / float(count)))
        }),
        theirs(memory.measure(positions, cell), |measure| {
            let mut numbers = vec![measure.kind()];
            numbers.extend(bits([float(measure.whole())]));
            numbers
        }),
    ]
}

/// -32,768 and 32,767 at every corner, in every way, for the types of up to four
/// corners; by chance for the others.
#[test]
fn at_the_extremes() {
    let (mesh, memory) = one_of_each();
    for ways in 0..1u32 << 12 {
        let mut positions = [0; 27];
        for (place, metre) in positions[..12].iter_mut().enumerate() {
            *metre = if ways >> place & 1 == 0 {
                i16::MIN
            } else {
                i16::MAX
            };
        }
        for cell in 0..4 {
            let ours = answers(&mesh, &positions, cell, 24);
            assert_eq!(ours, expected(&memory, &positions, cell, 24), "{ways:b}");
        }
    }
    let mut chance = Chance::from_seed(16);
    for _ in 0..10_000 {
        let mut positions = [0; 27];
        positions.fill_with(|| [i16::MIN, i16::MAX][chance.below(2) as usize]);
        for cell in 0..7 {
            let ours = answers(&mesh, &positions, cell, 24);
            assert_eq!(ours, expected(&memory, &positions, cell, 24));
        }
    }
}

#[test]
fn by_chance() {
    let (mesh, memory) = one_of_each();
    let mut chance = Chance::from_seed(4);
    for _ in 0..20_000 {
        let mut positions = [0; 27];
        positions.fill_with(|| metre(&mut chance));
        for cell in 0..7 {
            let ours = answers(&mesh, &positions, cell, 24);
            assert_eq!(
                ours,
                expected(&memory, &positions, cell, 24),
                "{positions:?}"
            );
        }
    }
}

/// "zero is positive zero": of products whose bare difference is -0 too.
#[test]
fn zero_is_positive_zero() {
    let (mesh, _) = one_of_each();
    let mut positions = [0; 27];
    positions[3..9].copy_from_slice(&[-1, 0, 0, 1, 0, 0]);
    for cell in [1, 2, 3] {
        let (Measure::SquaredLength(size)
        | Measure::DoubledArea(size)
        | Measure::SixfoldVolume(size)) = mesh.measure(&positions, Cell(cell)).expect("a measure");
        assert_eq!(size.to_bits(), 0);
    }
    let centre = mesh.centre(&positions, Cell(1)).expect("a centre");
    assert_eq!(bits([centre.x, centre.y, centre.z]), [0; 6]);
}

/// Every two faults at once, in both programs; and nothing lent is changed.
#[test]
fn refused_alike() {
    let (mesh, memory) = one_of_each();
    let words = mesh.words().to_vec();
    let all = [7; 30];
    let mut seen = [0; 20];
    for cell in [0, 1, 2, 3, 4, 5, 6, 7, 8, 65_536, u32::MAX] {
        for numbers in [0, 1, 24, 26, 27, 28] {
            for places in [0, 5, 6, 8, 9, 11, 12, 14, 15, 17, 18, 23, 24] {
                let ours = answers(&mesh, &all[..numbers], cell, places);
                assert_eq!(ours, expected(&memory, &all[..numbers], cell, places));
                for (number, _) in ours {
                    seen[number as usize] += 1;
                }
                let none = Mesh::over(vec![0u32; 400]);
                for (number, _) in answers(&none, &all[..numbers], cell, places) {
                    assert_eq!(number, 14);
                }
            }
        }
    }
    assert!([0, 3, 5, 6, 12, 16].iter().all(|&number| seen[number] > 0));
    assert_eq!(mesh.words(), words);
}

/// Any words beneath: a call is safe and returns, and on a mesh whose marks are
/// no marks it reads nothing beyond the list.
#[test]
fn marks_that_are_none() {
    let (mesh, _) = one_of_each();
    let mut chance = Chance::from_seed(404);
    let positions = [3; 27];
    for _ in 0..20_000 {
        let mut words = mesh.words().to_vec();
        for _ in 0..1 + chance.below(6) {
            let place = 16 + chance.below(words.len() as u32 - 16) as usize;
            words[place] = match chance.below(3) {
                0 => u32::MAX,
                1 => 65_535 + chance.below(4),
                _ => chance.below(12),
            };
        }
        let damaged = Mesh::over(words.clone());
        for cell in 0..8 {
            let _ = answers(&damaged, &positions, cell, 24);
        }
        assert_eq!(damaged.words(), words);
    }
    let question = Question::Measure(4);
    assert_eq!(question.to_library(&mesh).0, Refusal::TypeUnknown.number());
}

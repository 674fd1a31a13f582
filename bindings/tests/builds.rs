//! Streams of build records beside the second program: drawn by chance, licences
//! among them, under both editions, cut short at any word, into memory of just the
//! room, more or less. The answer, its place and the cells left are the second
//! program's.

mod common;

use std::collections::BTreeSet;

use common::{draw_licence, told, Chance, Question, SENTINEL};
use mengkiloh::{room, BuildRefused, Mesh, Records};
use second::Memory;
use streams::lattice;

const MARKS: u32 = 27;
const CELLS: u32 = 24;
/// Sentinels behind the memory.
const PAD: usize = 16;

/// The words of so many records; now and then one of their numbers is another.
fn draw(chance: &mut Chance, count: u32) -> Vec<u32> {
    let mut numbers: Vec<u32> = (0..CELLS).collect();
    chance.shuffle(&mut numbers);
    let mut words = Vec::new();
    for &number in &numbers[..count as usize] {
        let (code, marks) = lattice::draw(chance, lattice::side(MARKS));
        let mut record = vec![number, code, draw_licence(chance)];
        record.extend(marks);
        if chance.one_in(40) {
            let at = chance.below(record.len() as u32) as usize;
            record[at] = chance.below(MARKS + 9);
        }
        words.extend(record);
    }
    words
}

#[test]
fn records_by_chance() {
    let exact = room(MARKS, CELLS);
    let (mut refused, mut built) = (BTreeSet::new(), 0);
    let mut licences = Vec::new();
    for seed in 0..6_000 {
        let mut chance = Chance::from_seed(seed);
        let count = chance.below(CELLS);
        let mut records = draw(&mut chance, count);
        if chance.one_in(4) {
            records.truncate(chance.below(records.len() as u32 + 1) as usize);
        }
        let edition = match chance.below(40) {
            0 => 3 * chance.below(2),
            turn => 1 + turn % 2,
        };
        let marks = if chance.one_in(40) { 65_536 } else { MARKS };
        let words = exact + chance.below(20) as usize - 1;
        let mut memory = vec![SENTINEL; words + PAD];
        let mut theirs = Memory::lent(words);
        let answer = Mesh::over(&mut memory[..words]).build_edition(
            marks,
            CELLS,
            edition,
            &Records::from(records.clone()),
        );
        let expected = theirs.build_edition(marks, CELLS, edition, &records);
        let answer = answer.map_err(|BuildRefused { refusal, record }| (refusal.number(), record));
        let expected = expected.map_err(|(refusal, place)| (refusal.number(), place as u32));
        assert_eq!(answer, expected, "{records:?}");
        match answer {
            Ok(()) => built += 1,
            Err((number, _)) => {
                refused.insert(number);
            }
        }
        licences.extend(left(&memory[..words], &theirs));
        let used = theirs.mesh.as_ref().map_or(0, |_| exact);
        assert!(memory[used..].iter().all(|&word| word == SENTINEL));
    }
    println!("{built} of 6,000 built, {} licences", licences.len());
    assert!(refused.into_iter().eq([1, 2, 3, 4, 6, 7, 8, 9, 10, 19]) && built > 500);
    let apart: BTreeSet<u32> = licences.iter().copied().collect();
    assert!([0, 1, u32::MAX].iter().all(|it| apart.contains(it)));
    assert!(apart.len() < licences.len());
}

/// The cells that are left, in memory and by what is asked, are the second
/// program's; their licences.
fn left(words: &[u32], theirs: &Memory) -> Vec<u32> {
    let mesh = Mesh::over(words);
    assert_eq!(mesh.whole(), theirs.mesh.is_some());
    let Some(due) = &theirs.mesh else {
        return Vec::new();
    };
    let mut live = due.live.clone();
    live.sort_by_key(|cell| cell.number);
    assert_eq!(told(words).mesh.expect("a mesh").live, live);
    for cell in 0..=CELLS {
        for question in [Question::Licence(cell), Question::Type(cell)] {
            assert_eq!(question.to_library(&mesh), question.to_second(theirs));
        }
    }
    live.iter().map(|cell| cell.licence).collect()
}

//! Two crews: pairs of edits on different cell numbers whose cells share no mark,
//! made in both orders by calls of their own and as lists of one edit, and whole
//! lists of such edits, beside the second program. Each gets the same answer, the
//! memory left is equal word for word, and so is the tally.

mod common;

use common::{marks, ours, theirs, told, Chance, Question, SENTINEL};
use mengkiloh::{room, Cell, Edits, EditsStopped, Licence, Mesh, Tally};
use second::shapes::type_with_code;
use second::Memory;
use std::collections::BTreeMap;
use streams::lattice;

/// Sentinels behind the mesh.
const PAD: usize = 16;

#[derive(Clone, Debug)]
enum Edit {
    Insert(u32, u32, Vec<u32>),
    Remove(u32),
}

use Edit::{Insert, Remove};

impl Edit {
    fn cell(&self) -> u32 {
        match self {
            Insert(cell, ..) | Remove(cell) => *cell,
        }
    }

    /// The licence that an insert gives: few, so that cells of either crew have the
    /// same.
    fn licence(&self) -> u32 {
        [0, 7, u32::MAX][self.cell() as usize % 3]
    }

    /// The marks that an insert names; those of the cell that is live under a
    /// removal's number, or none.
    fn marks(&self, memory: &Memory) -> Vec<u32> {
        match self {
            Insert(_, _, marks) => marks.clone(),
            Remove(cell) => memory.marks_of(*cell),
        }
    }

    fn words(&self) -> Vec<u32> {
        match self {
            Insert(cell, code, marks) => [&[1, *cell, *code, self.licence()], &marks[..]].concat(),
            Remove(cell) => vec![2, *cell],
        }
    }

    /// A list holds no more marks than the type has.
    fn listable(&self) -> bool {
        match self {
            Insert(_, code, marks) => {
                type_with_code(*code).map_or(0, |row| row.marks) >= marks.len()
            }
            Remove(_) => true,
        }
    }

    fn in_library(&self, words: &mut [u32]) -> u8 {
        let mut mesh = Mesh::over(words);
        let answer = match self {
            Insert(cell, code, named) => {
                mesh.insert_licensed(Cell(*cell), *code, Licence(self.licence()), &marks(named))
            }
            Remove(cell) => mesh.remove(Cell(*cell)),
        };
        ours(answer, |()| vec![]).0
    }

    fn in_second(&self, memory: &mut Memory) -> u8 {
        let answer = match self {
            Insert(cell, code, named) => {
                memory.insert_licensed(*cell, *code, self.licence(), named)
            }
            Remove(cell) => memory.remove(*cell),
        };
        theirs(answer, |()| vec![]).0
    }
}

/// The number made and the refusal's, of a list of edits in the library.
fn listed(list: &[u32], words: &mut [u32], tally: &mut Tally) -> (usize, u8) {
    match Mesh::over(words).edits(&Edits::from(list.to_vec()), tally) {
        Ok(made) => (made, 0),
        Err(EditsStopped { refusal, made }) => (made, refusal.number()),
    }
}

/// A mesh of the library with sentinels behind it, and the second program's.
#[derive(Clone)]
struct Both {
    words: Vec<u32>,
    memory: Memory,
}

impl Both {
    fn formatted(marks: u32, cells: u32, edition: u32) -> Both {
        let mut words = vec![SENTINEL; room(marks, cells) + PAD];
        let mut memory = Memory::lent(words.len());
        Mesh::over(&mut words[..])
            .format_edition(marks, cells, edition)
            .expect("the room fits");
        memory
            .format_edition(marks, cells, edition)
            .expect("the room fits");
        Both { words, memory }
    }

    /// The edit in both, which say the same.
    fn make(&mut self, edit: &Edit) -> u8 {
        let number = edit.in_library(&mut self.words);
        assert_eq!(edit.in_second(&mut self.memory), number, "{edit:?}");
        number
    }

    fn two_crews(&self, a: &Edit, b: &Edit) -> bool {
        let theirs = b.marks(&self.memory);
        let shared = a.marks(&self.memory).iter().any(|m| theirs.contains(m));
        a.cell() != b.cell() && !shared
    }

    /// What both hold is one map, and they answer alike.
    fn agree(&self, chance: &mut Chance, questions: u32) {
        let mesh = self.memory.mesh.as_ref().expect("a mesh");
        let mut live = mesh.live.clone();
        live.sort_by_key(|cell| cell.number);
        assert_eq!(told(&self.words).mesh.expect("a mesh").live, live);
        let library = Mesh::over(&self.words[..]);
        assert!(library.whole());
        for _ in 0..questions {
            let question = Question::draw(chance, mesh.marks, mesh.cells);
            let answer = question.to_library(&library);
            assert_eq!(question.to_second(&self.memory), answer, "{question:?}");
        }
        let exact = room(mesh.marks, mesh.cells);
        assert!(self.words[exact..].iter().all(|&word| word == SENTINEL));
    }

    /// Both orders by calls and by lists; what the two are answered.
    fn either_order(&self, a: &Edit, b: &Edit, chance: &mut Chance, questions: u32) -> [u8; 2] {
        let (mut here, mut there) = (self.clone(), self.clone());
        let first = here.make(a);
        let answers = [first, here.make(b)];
        let second = there.make(b);
        assert_eq!([there.make(a), second], answers, "{a:?} {b:?}");
        assert!(here.words == there.words, "the words differ: {a:?} {b:?}");
        here.agree(chance, questions);
        if a.listable() && b.listable() {
            for count in [0, u32::MAX - 1, u32::MAX] {
                let words = self.either_list(&a.words(), &b.words(), count);
                assert!(words == here.words, "the words differ: {a:?} {b:?}");
            }
        }
        answers
    }

    /// Two lists in both orders, with a tally that begins at this count: answers,
    /// words and tally are equal, and the second program's. The words left.
    fn either_list(&self, a: &[u32], b: &[u32], count: u32) -> Vec<u32> {
        let [here, there] = [[a, b], [b, a]].map(|order| {
            let (mut words, mut memory) = (self.words.clone(), self.memory.clone());
            let (accepted, refused) = (count, count);
            let mut tally = Tally { accepted, refused };
            let mut counts = second::Tally { accepted, refused };
            let said = order.map(|list| {
                let said = listed(list, &mut words, &mut tally);
                let answer = match memory.edits(list, &mut counts) {
                    Ok(made) => (made, 0),
                    Err((refusal, made)) => (made, refusal.number()),
                };
                assert_eq!(answer, said, "{list:?}");
                said
            });
            let theirs = (counts.accepted, counts.refused);
            assert_eq!(theirs, (tally.accepted, tally.refused));
            (said, tally, words)
        });
        assert_eq!(here.0, [there.0[1], there.0[0]], "{a:?} {b:?}");
        assert_eq!(here.1, there.1, "{a:?} {b:?}");
        assert!(here.2 == there.2, "the words differ: {a:?} {b:?}");
        here.2
    }
}

/// The marks of a crew's end of the map, and the number of cells.
const END: u32 = 16;
const CELLS: u32 = 300;

fn at_end(crew: u32, marks: &[u32]) -> Vec<u32> {
    marks.iter().map(|mark| END * crew + mark).collect()
}

/// A crew's cells: under numbers of its own parity, on marks of its own end.
/// Mark 0 of the end stands in 128 cells, the last with the numbers 254 and 255;
/// the face of its marks 10, 11 and 12 has two tetrahedra.
fn part(crew: u32) -> Vec<Edit> {
    let mut cells = Vec::new();
    for a in 1..10 {
        cells.push((1, vec![0, a]));
        for b in a + 1..10 {
            cells.push((2, vec![0, a, b]));
            cells.extend((b + 1..10).map(|c| (3, vec![0, a, b, c])));
        }
    }
    cells.truncate(128);
    cells.push((4, vec![10, 11, 12, 13]));
    cells.push((4, vec![11, 10, 12, 14]));
    let numbered = (0..).zip(cells);
    numbered
        .map(|(place, (code, marks))| Insert(2 * place + crew, code, at_end(crew, &marks)))
        .collect()
}

/// An edit at a crew's end for each answer that an edit can get.
fn every_answer(crew: u32) -> Vec<(u8, Edit)> {
    let spare = 298 + crew;
    let insert = |cell, code, marks: &[u32]| Insert(cell, code, at_end(crew, marks));
    vec![
        (0, insert(spare, 1, &[10, 11])),
        (0, insert(spare, 2, &[10, 11, 12])),
        (0, insert(spare, 3, &[10, 11, 12, 13])),
        (0, insert(spare, 4, &[10, 11, 13, 15])),
        (0, insert(spare, 5, &[10, 11, 13, 15, 14])),
        (0, insert(spare, 6, &[10, 11, 13, 12, 14, 15])),
        (0, insert(spare, 7, &[9, 10, 11, 12, 13, 14, 15, 8])),
        (3, insert(CELLS + crew, 1, &[10, 11])),
        (3, Insert(u32::MAX - crew, 2, vec![])),
        (4, insert(crew, 1, &[10, 11])),
        (6, insert(spare, 0, &[])),
        (6, insert(spare, 8 + crew, &[10, 11])),
        (7, insert(spare, 2, &[])),
        (7, insert(spare, 2, &[10, 11])),
        (7, insert(spare, 1, &[10, 11, 12])),
        (8, Insert(spare, 1, vec![END * crew, 2 * END + crew])),
        (9, insert(spare, 2, &[10, 11, 10])),
        (10, insert(spare, 2, &[0, 2, 1])),
        (19, insert(spare, 4, &[12, 10, 11, 15])),
        (19, insert(spare, 5, &[10, 11, 13, 15, 12])),
        (11, insert(spare, 1, &[0, 10])),
        (11, insert(spare, 7, &[0, 1, 2, 3, 12, 13, 14, 15])),
        (0, Remove(crew)),
        (0, Remove(2 * 128 + crew)),
        (3, Remove(CELLS + crew)),
        (3, Remove(u32::MAX - crew)),
        (5, Remove(spare)),
    ]
}

/// Every pair of kinds and of answers, at both ends of one map, under both
/// editions.
#[test]
fn every_pair_of_answers() {
    let mut chance = Chance::from_seed(1);
    for edition in [1, 2] {
        let mut before = Both::formatted(2 * END, CELLS, edition);
        for edit in part(0).iter().chain(&part(1)) {
            assert_eq!(before.make(edit), 0, "{edit:?}");
        }
        // edition 1 puts any number of solids on a face
        let due = |number: u8| match (number, edition) {
            (19, 1) => 0,
            _ => number,
        };
        for (number, a) in every_answer(0) {
            for (other, b) in every_answer(1) {
                assert!(before.two_crews(&a, &b), "{a:?} {b:?}");
                let answers = before.either_order(&a, &b, &mut chance, 2);
                assert_eq!(answers, [due(number), due(other)], "{a:?} {b:?}");
            }
        }
    }
}

/// An edit by chance: accepted, or refused for any reason.
fn draw(chance: &mut Chance, marks: u32, cells: u32) -> Edit {
    let cell = chance.below(cells + 1 + cells / 16);
    if chance.below(5) < 2 {
        return Remove(cell);
    }
    let side = 1 + chance.below(lattice::side(marks));
    let (code, mut drawn) = match chance.below(3) {
        0 => {
            let code = chance.below(9);
            let count = type_with_code(code).map_or(1, |row| row.marks);
            let mut drawn: Vec<u32> = (0..=marks).collect();
            chance.shuffle(&mut drawn);
            drawn.truncate(count);
            (code, drawn)
        }
        _ => lattice::draw(chance, side),
    };
    if chance.one_in(12) {
        drawn.pop();
    }
    if chance.one_in(12) {
        let again = drawn.first().copied();
        drawn.extend(again);
    } else if chance.one_in(12) && drawn.len() > 1 {
        drawn[0] = drawn[1];
    }
    Insert(cell, code, drawn)
}

/// Random histories under both editions, and before each edit pairs by chance.
/// How many pairs there were of each two answers.
fn history(seed: u64, marks: u32, cells: u32, edits: u32) -> BTreeMap<[u8; 2], u32> {
    let mut chance = Chance::from_seed(seed);
    let edition = 1 + chance.below(2);
    let mut before = Both::formatted(marks, cells, edition);
    let mut seen = BTreeMap::new();
    for _ in 0..edits {
        let a = draw(&mut chance, marks, cells);
        for _ in 0..4 {
            let b = draw(&mut chance, marks, cells);
            if before.two_crews(&a, &b) {
                let answers = before.either_order(&a, &b, &mut chance, 2);
                *seen.entry(answers).or_default() += 1;
            }
        }
        before.make(&a);
    }
    seen
}

#[test]
fn pairs_by_chance() {
    let mut seen = BTreeMap::new();
    for seed in 10..40 {
        for (answers, count) in history(seed, 27, 30, 150) {
            *seen.entry(answers).or_default() += count;
        }
    }
    for seed in 40..44 {
        for (answers, count) in history(seed, 125, 200, 400) {
            *seen.entry(answers).or_default() += count;
        }
    }
    let pairs: u32 = seen.values().sum();
    assert!(pairs > 5_000, "{pairs}");
    // a full mark takes more cells than these maps have: every_pair_of_answers
    for number in [0, 3, 4, 5, 6, 7, 8, 9, 10, 19] {
        let with = seen.iter().filter(|(answers, _)| answers.contains(&number));
        let count: u32 = with.map(|(_, count)| count).sum();
        assert!(count > 20, "{number}: {count} of {pairs}");
    }
    assert!(seen[&[0, 0]] > 200, "{seen:?}");
}

/// An edit at a crew's end: under numbers of its own parity, with marks of its own
/// half, and marks of its own above the capacity. Its words say how long it is.
fn draw_at(chance: &mut Chance, crew: u32, half: u32, cells: u32) -> Edit {
    loop {
        match draw(chance, half, cells) {
            Remove(cell) => return Remove(2 * cell + crew),
            Insert(cell, code, mut drawn) => {
                let count = type_with_code(code).map_or(0, |row| row.marks);
                if count == drawn.len() {
                    for mark in &mut drawn {
                        *mark += if *mark < half {
                            half * crew
                        } else {
                            half + crew
                        };
                    }
                    return Insert(2 * cell + crew, code, drawn);
                }
            }
        }
    }
}

/// A crew's list of edits: in every other one all are accepted.
fn list_at(chance: &mut Chance, before: &Memory, crew: u32, half: u32, cells: u32) -> Vec<Edit> {
    let mut memory = before.clone();
    let (length, good) = (1 + chance.below(8), chance.one_in(2));
    let mut list = Vec::new();
    while list.len() < length as usize {
        let edit = draw_at(chance, crew, half, cells);
        if edit.in_second(&mut memory) == 0 || !good {
            list.push(edit);
        }
    }
    list
}

/// The numbers and the marks of a list's cells, each edit at its turn.
fn touched(memory: &Memory, list: &[Edit]) -> (Vec<u32>, Vec<u32>) {
    let mut memory = memory.clone();
    let (mut numbers, mut marks) = (Vec::new(), Vec::new());
    for edit in list {
        numbers.push(edit.cell());
        marks.extend(edit.marks(&memory));
        edit.in_second(&mut memory);
    }
    (numbers, marks)
}

/// A list of each crew, again and again on one map.
#[test]
fn lists_by_chance() {
    let (half, cells) = (27, 40);
    let (mut whole, mut stopped) = (0, 0);
    for seed in 50..70 {
        let mut chance = Chance::from_seed(seed);
        let edition = 1 + chance.below(2);
        let mut before = Both::formatted(2 * half, 2 * cells, edition);
        for _ in 0..60 {
            let lists = [0, 1].map(|crew| list_at(&mut chance, &before.memory, crew, half, cells));
            let [a, b] = [0, 1].map(|crew| touched(&before.memory, &lists[crew]));
            assert!(!a.0.iter().any(|number| b.0.contains(number)));
            assert!(!a.1.iter().any(|mark| b.1.contains(mark)));
            let words = lists.map(|list| list.iter().flat_map(Edit::words).collect::<Vec<u32>>());
            let count = [0, u32::MAX - 3][chance.below(2) as usize];
            let left = before.either_list(&words[0], &words[1], count);
            for list in &words {
                let mut tally = Tally::default();
                let (_, number) = listed(list, &mut before.words, &mut tally);
                let mut counts = second::Tally::default();
                assert_eq!(before.memory.edits(list, &mut counts).is_ok(), number == 0);
                *if number == 0 {
                    &mut whole
                } else {
                    &mut stopped
                } += 1;
            }
            assert!(before.words == left);
        }
        before.agree(&mut chance, 40);
    }
    assert!(whole > 1_000 && stopped > 500, "{whole} {stopped}");
}

/// Where the two share a mark or a number the orders may differ, so the runs
/// above would see a difference.
#[test]
fn close_pairs_differ() {
    let mut before = Both::formatted(2 * END, CELLS, 2);
    for edit in part(0).iter().chain(&part(1)) {
        assert_eq!(before.make(edit), 0);
    }
    let close = [
        // one number
        (Remove(0), Insert(0, 1, at_end(1, &[10, 11]))),
        (
            Insert(298, 1, vec![10, 11]),
            Insert(298, 1, at_end(1, &[10, 11])),
        ),
        // one mark, with 11 at a full mark beside a removal there
        (Remove(0), Insert(298, 1, vec![0, 10])),
        // the face of a removed solid
        (Remove(256), Insert(298, 4, vec![10, 11, 12, 15])),
    ];
    for (a, b) in close {
        assert!(!before.two_crews(&a, &b), "{a:?} {b:?}");
        let (mut here, mut there) = (before.clone(), before.clone());
        let first = here.make(&a);
        let answers = [first, here.make(&b)];
        let second = there.make(&b);
        assert_ne!([there.make(&a), second], answers, "{a:?} {b:?}");
    }
}

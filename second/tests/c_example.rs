//! What the example in C must print (tests/c/viaduct.c): the same map, asked
//! the same, by the definitions. The text is held to tests/c/expected, which
//! tests/c/run holds the example to.

mod common;

use common::maps::{BAR, HEXA, PENTA, PYRA, QUAD, TETRA, TRI};
use second::calls::{INSERT, REMOVE};
use second::journal::{Edit, Journal, EDIT_WORDS, HEAD_WORDS};
use second::positions::{float, Metres};
use second::{room, Memory, Refusal, Tally};
use std::fmt::Write;

const MARKS: u32 = 22;
const CELLS: u32 = 13;
const PLACES: usize = 128;
const WALL: [u32; 3] = [0, 5, 10];

/// The hillside, the deck's two sides, the pier's wall, the rail, the rock, the
/// pier's block, the pier, the ramp.
#[rustfmt::skip]
const RECORDS: [u32; 83] = [
    0, TRI, 71, 0, 1, 2,
    1, TRI, 71, 0, 2, 3,
    2, TRI, 71, 0, 3, 4,
    3, QUAD, 72, 0, 5, 6, 7,
    4, QUAD, 72, 5, 0, 8, 9,
    5, TRI, 72, 0, 5, 10,
    6, BAR, 0, 0, 5,
    7, BAR, 0, 5, 11,
    8, TETRA, 71, 0, 1, 2, 11,
    10, HEXA, 73, 12, 13, 14, 15, 16, 17, 18, 19,
    11, PYRA, 73, 16, 17, 18, 19, 5,
    12, PENTA, 73, 13, 14, 20, 17, 18, 21,
];

const CUT_SHORT: [u32; 11] = [0, TRI, 71, 0, 1, 2, 1, TRI, 71, 0, 2];

const NO_SUCH_TYPE: [u32; 9] = [0, TRI, 71, 0, 1, 2, 1, 8, 71];

/// Three solids on the face between the block and the pier.
#[rustfmt::skip]
const THIRD: [u32; 27] = [
    10, HEXA, 73, 12, 13, 14, 15, 16, 17, 18, 19,
    11, PYRA, 73, 16, 17, 18, 19, 5,
    12, PYRA, 73, 16, 18, 17, 19, 11,
];
const OTHER_PIER: [u32; 5] = [16, 18, 17, 19, 11];

/// Lists of edits.
const MORNING: &[u32] = &[REMOVE, 4, REMOVE, 1, INSERT, 9, BAR, 9, 6, 10, REMOVE, 5];
const STOPPED: &[u32] = &[INSERT, 4, QUAD, 72, 5, 0, 8, 9, REMOVE, 1, REMOVE, 9];
const OTHER_KIND: &[u32] = &[REMOVE, 9, 3, 1];
const NO_NUMBER: &[u32] = &[REMOVE];
const NO_TYPE: &[u32] = &[INSERT, 1];
const NO_LICENCE: &[u32] = &[INSERT, 1, TRI];
const FEW_MARKS: &[u32] = &[INSERT, 1, TRI, 71, 0, 2];
const BACK: &[u32] = &[INSERT, 1, TRI, 71, 0, 2, 3, INSERT, 5, TRI, 72, 0, 5, 10];

#[test]
fn the_example_in_c_prints_what_the_definitions_answer() {
    let expected = include_str!("../../tests/c/expected");
    assert_eq!(text(), expected);
}

fn text() -> String {
    let words = room(MARKS, CELLS);
    let mut lines = Lines(String::new());
    let nothing = Memory::lent(words);
    lines.whole(&nothing);
    lines.edition(&nothing);
    lines.held(&nothing, PLACES);
    lines.star(&nothing, 2, 0, PLACES);
    lines.verdict("format", Memory::lent(words - 1).format(MARKS, CELLS));
    lines.verdict("format", Memory::lent(words).format(65_536, CELLS));
    let mut memory = nothing;
    lines.verdict("format", memory.format(MARKS, CELLS));
    lines.whole(&memory);
    lines.build(&mut memory, &CUT_SHORT);
    lines.whole(&memory);
    lines.build(&mut memory, &RECORDS);
    lines.all(&memory);
    lines.held(&memory, 4);
    lines.verdict("remove 4", memory.remove(4));
    lines.verdict("remove 4", memory.remove(4));
    lines.all(&memory);
    lines.verdict("remove 10", memory.remove(10));
    lines.verdict("remove 1", memory.remove(1));
    lines.verdict("insert 9", memory.insert(9, TRI, &WALL));
    lines.verdict("insert 9", memory.insert(9, QUAD, &WALL));
    lines.verdict("remove 5", memory.remove(5));
    lines.verdict("insert 9", memory.insert_licensed(9, TRI, 9, &WALL));
    lines.all(&memory);
    lines.second_edition(&mut memory);
    lines.all_placed(&memory);
    lines.mornings(&mut memory);
    lines.complaints(&mut memory);
    lines.nights(&memory);
    lines.0
}

struct Lines(String);

impl Lines {
    fn say(&mut self, what: &str, number: u8, parts: &[String]) {
        write!(self.0, "{what}: {number}").unwrap();
        for part in parts {
            write!(self.0, ";{part}").unwrap();
        }
        self.0.push('\n');
    }

    fn verdict(&mut self, what: &str, answer: Result<(), Refusal>) {
        self.say(what, number(&answer), &[]);
    }

    fn one(&mut self, what: &str, answer: Result<u32, Refusal>) {
        self.say(what, number(&answer), &[word(answer.ok())]);
    }

    fn found(&mut self, what: &str, answer: Result<Option<u32>, Refusal>) {
        let count = answer.ok().map(|half| half.map_or(0, |_| 1));
        let half = answer.ok().flatten();
        self.say(what, number(&answer), &[word(count), word(half)]);
    }

    fn list(&mut self, what: &str, answer: Result<Vec<u32>, Refusal>) {
        let count = answer.as_ref().ok().map(|list| list.len() as u32);
        let list = answer.iter().flatten().map(|&n| word(Some(n))).collect();
        self.say(what, number(&answer), &[word(count), list]);
    }

    fn held(&mut self, memory: &Memory, room: usize) {
        let capacities = memory.capacities();
        let marks = capacities.ok().map(|both| both.0);
        let cells = capacities.ok().map(|both| both.1);
        let both = [word(marks), word(cells)];
        self.say("capacities", number(&capacities), &both);
        self.found("free", memory.free());
        self.list("live", memory.live(room));
    }

    fn whole(&mut self, memory: &Memory) {
        self.say("whole", memory.whole().into(), &[]);
    }

    fn build(&mut self, memory: &mut Memory, records: &[u32]) {
        let answer = memory.build(MARKS, CELLS, records);
        let place = answer.err().map(|(_, place)| place as u32);
        let refusal = answer.map_err(|(refusal, _)| refusal);
        self.say("build", number(&refusal), &[word(place)]);
    }

    fn build_edition(&mut self, memory: &mut Memory, edition: u32, records: &[u32]) {
        let answer = memory.build_edition(MARKS, CELLS, edition, records);
        let place = answer.err().map(|(_, place)| place as u32);
        let refusal = answer.map_err(|(refusal, _)| refusal);
        let what = format!("build edition {edition}");
        self.say(&what, number(&refusal), &[word(place)]);
    }

    fn format_edition(&mut self, memory: &mut Memory, marks: u32, edition: u32) {
        let answer = memory.format_edition(marks, CELLS, edition);
        self.verdict(&format!("format edition {edition}"), answer);
    }

    fn edition(&mut self, memory: &Memory) {
        self.one("edition", memory.edition());
    }

    fn second_edition(&mut self, memory: &mut Memory) {
        self.edition(memory);
        self.format_edition(memory, MARKS, 3);
        self.format_edition(memory, 65_536, 3);
        self.format_edition(memory, 65_536, 2);
        self.build_edition(memory, 0, &RECORDS);
        self.edition(memory);
        self.whole(memory);
        self.format_edition(memory, MARKS, 2);
        self.edition(memory);
        self.build_edition(memory, 2, &THIRD);
        self.edition(memory);
        self.whole(memory);
        self.build_edition(memory, 1, &THIRD);
        self.edition(memory);
        self.build_edition(memory, 2, &RECORDS);
        self.edition(memory);
        self.verdict("insert 9", memory.insert(9, PYRA, &OTHER_PIER));
        self.verdict("remove 11", memory.remove(11));
        self.verdict("insert 9", memory.insert(9, PYRA, &OTHER_PIER));
        self.all(memory);
        self.build(memory, &RECORDS);
        self.edition(memory);
    }

    fn edits(&mut self, memory: &mut Memory, list: &[u32], accepted: u32, refused: u32) {
        let mut tally = Tally { accepted, refused };
        let answer = memory.edits(list, &mut tally);
        let made = answer.unwrap_or_else(|(_, made)| made) as u32;
        let counts = word(Some(tally.accepted)) + &word(Some(tally.refused));
        let refusal = answer.map_err(|(refusal, _)| refusal);
        self.say("edits", number(&refusal), &[word(Some(made)), counts]);
    }

    fn mornings(&mut self, memory: &mut Memory) {
        self.edits(memory, &[], 0, 0);
        self.edits(&mut Memory::lent(15), &[], 0, 0);
        self.edits(&mut Memory::lent(15), MORNING, 7, 8);
        self.edits(memory, MORNING, 0, 0);
        self.edits(memory, STOPPED, 4, 0);
        self.edits(memory, OTHER_KIND, 5, 1);
        self.edits(memory, NO_NUMBER, 6, 2);
        self.edits(memory, NO_TYPE, 6, 3);
        self.edits(memory, NO_LICENCE, 6, 4);
        self.edits(memory, FEW_MARKS, u32::MAX, u32::MAX);
        self.all(memory);
        self.edits(memory, BACK, u32::MAX - 1, 9);
        self.whole(memory);
    }

    fn complaints(&mut self, memory: &mut Memory) {
        let words = room(MARKS, CELLS);
        let mut journal = Journal::lent(HEAD_WORDS + 3 * EDIT_WORDS);
        let (mut start, mut second) = (Memory::lent(words), Memory::lent(words));
        let stay = Edit::Insert {
            cell: 9,
            code: BAR,
            licence: 4,
            marks: vec![5, 10],
        };
        let removal = |cell| Edit::Remove { cell };
        self.complaint(&journal, &start, &mut second, (0, 5, 0, PLACES));
        self.verdict("begin", journal.begin(memory, &mut start));
        self.verdict("enter insert", journal.enter(memory, 10, stay.clone()));
        self.verdict("enter insert", journal.enter(memory, 10, stay));
        self.verdict("enter remove", journal.enter(memory, 40, removal(11)));
        self.verdict("enter remove", journal.enter(memory, 500, removal(9)));
        self.verdict("enter remove", journal.enter(memory, 500, removal(8)));
        self.verdict("fold", journal.fold(&mut start, 30));
        for asked in [
            (29, MARKS, 1, 0),
            (30, MARKS, 1, 0),
            (30, MARKS, 0, 0),
            (39, 5, 0, 2),
            (501, 5, 0, PLACES),
            (39, 5, 0, 3),
            (41, 5, 0, 2),
        ] {
            self.complaint(&journal, &start, &mut second, asked);
        }
    }

    /// A day, a mark, by how many words second memory is short, and the places.
    fn complaint(
        &mut self,
        journal: &Journal,
        start: &Memory,
        second: &mut Memory,
        (day, mark, short, places): (u32, u32, usize, usize),
    ) {
        second.words -= short;
        let answer = journal.licences(start, day, mark, second, places);
        second.words += short;
        self.list(&format!("licences {day} {mark}"), answer);
        self.say("second", second.whole().into(), &[]);
    }

    fn nights(&mut self, memory: &Memory) {
        let short = Memory {
            words: memory.words - 1,
            mesh: memory.mesh.clone(),
        };
        self.plan(&short, &CUT_SHORT, 0);
        self.plan(memory, &CUT_SHORT, 0);
        self.plan(memory, &NO_SUCH_TYPE, 0);
        self.plan(memory, &RECORDS, 8);
        let plan = self.plan(memory, &RECORDS, 9);
        self.check(memory, &plan, &RECORDS, 0);
        self.check(memory, &[], &RECORDS, 0);
        self.check(memory, &plan[..plan.len() - 1], &RECORDS, 0);
        self.check(memory, &plan, &THIRD, 0);
        self.check(&short, &plan, &CUT_SHORT, 1);
        self.check(memory, &plan, &CUT_SHORT, 1);
        self.check(memory, &plan, &CUT_SHORT, 0);
        self.check(memory, &plan, &NO_SUCH_TYPE, 0);
        let plan = self.plan(memory, &THIRD, PLACES);
        self.check(memory, &plan, &THIRD, 0);
        self.check(memory, &plan[2..], &THIRD, 0);
        self.check(memory, &plan[4..plan.len() - 9], &THIRD, 0);
        self.check(memory, &plan[1..], &THIRD, 0);
    }

    fn plan(&mut self, memory: &Memory, wanted: &[u32], places: usize) -> Vec<u32> {
        let answer = memory.plan(wanted, places);
        self.list("plan", answer.clone());
        answer.unwrap_or_default()
    }

    /// By how many words second memory is short.
    fn check(&mut self, memory: &Memory, edits: &[u32], wanted: &[u32], short: usize) {
        let words = room(MARKS, CELLS);
        let mut second = Memory::lent(words - short);
        let answer = memory.plan_check(edits, wanted, &mut second);
        let place = answer.err().and_then(|(_, place)| place);
        let refusal = answer.map_err(|(refusal, _)| refusal);
        let place = word(place.map(|place| place as u32));
        self.say("plan check", number(&refusal), &[place]);
        second.words = words;
        self.list("second", second.live(PLACES));
    }

    fn star(&mut self, memory: &Memory, dimension: u32, mark: u32, room: usize) {
        let answer = memory.star(dimension, mark, room);
        self.list(&format!("star {dimension} {mark}"), answer);
    }

    fn around_mark_0(&mut self, memory: &Memory, dimension: u32) {
        self.star(memory, dimension, 0, PLACES);
        let anchors = memory.anchors(dimension, 0, PLACES);
        self.list(&format!("anchors {dimension} 0"), anchors);
        let first = memory.first_anchor(dimension, 0);
        self.found(&format!("first anchor {dimension} 0"), first);
    }

    fn cell(&mut self, memory: &Memory, cell: u32) {
        let answer = memory.type_of(cell);
        self.one(&format!("type {cell}"), answer);
        self.one(&format!("licence {cell}"), memory.licence(cell));
        let marks = answer.map(|_| memory.marks_of(cell));
        self.list(&format!("marks {cell}"), marks);
        let neighbours = memory.neighbours(cell, PLACES);
        self.list(&format!("neighbours {cell}"), neighbours);
    }

    fn half_facet(&mut self, memory: &Memory, cell: u32, facet: u32) {
        let sibling = memory.sibling(cell, facet);
        let half = sibling.ok().map(|(half, _)| half);
        let way = sibling.ok().map(|(_, way)| way.number());
        let what = format!("sibling {cell} {facet}");
        self.say(&what, number(&sibling), &[word(half), word(way)]);
        let border = memory.border(cell, facet).map(u32::from);
        self.one(&format!("border {cell} {facet}"), border);
        let cycle = memory.cycle(cell, facet, PLACES, PLACES);
        let halves = cycle
            .clone()
            .map(|list| list.iter().map(|it| it.0).collect());
        self.list(&format!("cycle {cell} {facet}"), halves);
        let ways = cycle.map(|list| list.iter().map(|it| it.1.number()).collect());
        self.list(&format!("ways {cell} {facet}"), ways);
    }

    fn lookup(&mut self, memory: &Memory, set: &[u32]) {
        let marks: String = set.iter().map(|&mark| word(Some(mark))).collect();
        self.found(&format!("lookup{marks}"), memory.lookup(set));
    }

    fn cells_of(&mut self, memory: &Memory, code: u32) {
        let cells = memory.cells_of_type(code, PLACES);
        self.list(&format!("cells {code}"), cells);
        let count = memory.count_of_type(code).map(|count| count as u32);
        self.one(&format!("count {code}"), count);
    }

    fn placed(&mut self, memory: &Memory, positions: &[i16], cell: u32, room: usize) {
        let points = memory.points(positions, cell, room);
        let count = points.as_ref().ok().map(|corners| corners.len() as u32);
        let corners = points.iter().flatten();
        let all = floats(corners.flat_map(|at| [at.x, at.y, at.z].map(float)));
        let what = format!("points {cell}");
        self.say(&what, number(&points), &[word(count), all]);
        let centre = memory.centre(positions, cell);
        let mean =
            |(at, count): (Metres, i64)| [at.x, at.y, at.z].map(|sum| float(sum) / float(count));
        let at = floats(centre.ok().map(mean).into_iter().flatten());
        self.say(&format!("centre {cell}"), number(&centre), &[at]);
        let measure = memory.measure(positions, cell);
        let kind = word(measure.ok().map(|measure| measure.kind()));
        let size = floats(measure.ok().map(|measure| float(measure.whole())));
        self.say(&format!("measure {cell}"), number(&measure), &[kind, size]);
    }

    fn all_placed(&mut self, memory: &Memory) {
        let metre = |n: u32| ((n * 7919 % 65_536) as i32 - 32_768) as i16;
        let positions: Vec<i16> = (0..3 * MARKS).map(metre).collect();
        for cell in 0..=CELLS {
            self.placed(memory, &positions, cell, 24);
            self.placed(memory, &positions[1..], cell, 5);
            self.placed(memory, &positions, cell, 5);
        }
    }

    fn all(&mut self, memory: &Memory) {
        for dimension in 0..5 {
            self.around_mark_0(memory, dimension);
        }
        self.star(memory, 2, 0, 4);
        self.star(memory, 2, MARKS, PLACES);
        for cell in 0..=CELLS {
            self.cell(memory, cell);
        }
        for cell in 3..6 {
            self.half_facet(memory, cell, 0);
        }
        self.half_facet(memory, 0, 3);
        self.half_facet(memory, 10, 5);
        self.half_facet(memory, 12, 0);
        self.half_facet(memory, 12, 5);
        self.lookup(memory, &[5, 0]);
        self.lookup(memory, &[2, 1, 0]);
        self.lookup(memory, &[6, 10]);
        self.lookup(memory, &[5, 5]);
        self.lookup(memory, &[18, 17, 19, 16]);
        self.lookup(memory, &[12, 13, 14, 15, 16]);
        for code in 0..9 {
            self.cells_of(memory, code);
        }
        self.held(memory, PLACES);
        self.whole(memory);
    }
}

fn number<T>(answer: &Result<T, Refusal>) -> u8 {
    answer.as_ref().err().map_or(0, |refusal| refusal.number())
}

fn floats(floats: impl IntoIterator<Item = f64>) -> String {
    let said = floats.into_iter().map(|float| format!(" {float:.3}"));
    said.collect()
}

/// A word that the call writes, or leaves as it was.
fn word(written: Option<u32>) -> String {
    match written {
        Some(number) => format!(" {number}"),
        None => " unwritten".into(),
    }
}

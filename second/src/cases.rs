//! The outline's twelve cases and the runs that it asks for besides, each with
//! everything that can be asked of it, as text.
//!
//! P1 to P12 are the twelve cases. R13 on are runs besides: a cell that comes
//! back, quads, a mesh emptied again, a record cut short, edits that are all
//! refused, request 3's two quads that only look joined and two that share two
//! edges, a pyramid with a tetrahedron and a quad on its faces; with more marks
//! a brick on a brick, a wedge between a brick and a pyramid, faces in crossed
//! order, the wedge taken away; memory that is no mesh; under edition 2 an edge
//! with many faces, a build refused at the third solid on a face, and third
//! solids on faces in crossed order, on a triangle and on a quad, some of them
//! accepted after a removal; siblings that run every way, at bar ends, edges and
//! faces of three and four marks; lists of edits, all made and stopped in each
//! way, with a tally up to its largest counts. `bound` lines are the outline's "To run":
//! capacities, editions, rooms, a mark's 128th and 129th cell, lists that fit
//! exactly and lists one place too long.

use crate::calls::{FIRST_EDITION, SECOND_EDITION};
use crate::{Memory, Refusal, Tally, Walker, Way};
use std::fmt::Write;

const BAR: u32 = 1;
const TRI: u32 = 2;
const QUAD: u32 = 3;
const TETRA: u32 = 4;
const PYRA: u32 = 5;
const PENTA: u32 = 6;
const HEXA: u32 = 7;

/// The capacities of every case, and the words it lies in.
const MARKS: u32 = 5;
const CELLS: u32 = 4;
const WORDS: usize = 16 + 8 * 5 + 32 * 4;

/// The same of the cases with bricks and wedges.
const SOLID_MARKS: u32 = 12;
const SOLID_WORDS: usize = 16 + 8 * 12 + 32 * 4;

/// A list room that no list of a case outgrows.
const PLENTY: usize = 128;

/// Cell number, type code, licence, marks. Cell 0 has no licence, cell 2 the
/// largest, cells 1 and 3 have the same.
type Record = (u32, u32, u32, &'static [u32]);

enum Edit {
    Insert(Record),
    Remove(u32),
}

use Edit::{Insert, Remove};

/// A case: what it is built from, and the edits tried after that.
struct Case {
    name: &'static str,
    built: &'static [Record],
    edits: &'static [Edit],
}

const fn case(name: &'static str, built: &'static [Record], edits: &'static [Edit]) -> Case {
    Case { name, built, edits }
}

const ONE: &[Record] = &[(0, TRI, 0, &[0, 1, 2])];
const THREE: &[Record] = &[
    (0, TRI, 0, &[0, 1, 2]),
    (1, TRI, 7, &[0, 1, 3]),
    (2, TRI, 4294967295, &[0, 1, 4]),
];
const CLOSED: &[Record] = &[
    (0, TRI, 0, &[0, 2, 1]),
    (1, TRI, 7, &[0, 1, 3]),
    (2, TRI, 4294967295, &[1, 2, 3]),
    (3, TRI, 7, &[2, 0, 3]),
];

const CASES: &[Case] = &[
    case("P1", &[], &[]),
    case("P2", ONE, &[]),
    case(
        "P3",
        &[(0, TRI, 0, &[0, 1, 2]), (1, TRI, 7, &[2, 1, 3])],
        &[],
    ),
    case("P4", THREE, &[]),
    case(
        "P5",
        &[(0, TRI, 0, &[0, 1, 2]), (1, TRI, 7, &[0, 3, 4])],
        &[],
    ),
    case(
        "P6",
        &[(0, TETRA, 0, &[0, 1, 2, 3]), (1, TETRA, 7, &[0, 2, 1, 4])],
        &[],
    ),
    case("P7", CLOSED, &[]),
    case("P8", &[(0, BAR, 0, &[0, 1]), (1, BAR, 7, &[1, 2])], &[]),
    case("P9", THREE, &[Remove(1)]),
    case("P10", ONE, &[Insert((1, TRI, 7, &[2, 0, 1]))]),
    case("P11", &[], &[Insert((0, TRI, 0, &[0, 1, 1]))]),
    case(
        "P12",
        &[(0, TRI, 0, &[0, 1, 2]), (1, TETRA, 7, &[0, 1, 2, 3])],
        &[],
    ),
    case("R13", THREE, &[Remove(1), Insert((1, TRI, 7, &[0, 1, 3]))]),
    case(
        "R14",
        &[
            (0, QUAD, 0, &[0, 1, 2, 3]),
            (1, QUAD, 7, &[1, 0, 3, 4]),
            (2, TRI, 4294967295, &[0, 1, 4]),
        ],
        &[Insert((3, BAR, 7, &[0, 1]))],
    ),
    case("R15", CLOSED, &[Remove(0), Remove(3), Remove(1), Remove(2)]),
    case(
        "R16",
        &[(0, TRI, 0, &[0, 1, 2]), (1, TETRA, 7, &[0, 1, 2])],
        &[],
    ),
    case(
        "R17",
        ONE,
        &[
            Insert((4, TRI, 5, &[0, 1, 3])),
            Insert((0, TRI, 0, &[0, 1, 3])),
            Insert((1, 8, 7, &[0, 1, 3])),
            Insert((1, TRI, 7, &[0, 1])),
            Insert((1, TRI, 7, &[0, 1, 5])),
            Insert((1, TRI, 7, &[3, 4, 3])),
            Insert((1, TRI, 7, &[1, 2, 0])),
            Remove(4),
            Remove(1),
        ],
    ),
    case(
        "R18",
        &[(0, QUAD, 0, &[0, 1, 2, 3]), (1, QUAD, 7, &[0, 4, 1, 2])],
        &[],
    ),
    case(
        "R19",
        &[(0, QUAD, 0, &[0, 1, 2, 3]), (1, QUAD, 7, &[0, 1, 2, 4])],
        &[],
    ),
    case(
        "R20",
        &[
            (0, PYRA, 0, &[0, 1, 2, 3, 4]),
            (1, TETRA, 7, &[0, 1, 4, 2]),
            (2, QUAD, 4294967295, &[0, 1, 2, 3]),
        ],
        &[],
    ),
];

const BRICK: Edit = Insert((0, HEXA, 0, &[0, 1, 2, 3, 4, 5, 6, 7]));
const WEDGE: Edit = Insert((1, PENTA, 7, &[1, 2, 8, 5, 6, 9]));
const PYRAMID: Edit = Insert((2, PYRA, 4294967295, &[2, 8, 9, 6, 10]));
const END: Edit = Insert((3, TETRA, 7, &[1, 2, 8, 11]));

const SOLIDS: &[Case] = &[
    case(
        "R21",
        &[],
        &[BRICK, Insert((1, HEXA, 7, &[4, 5, 6, 7, 8, 9, 10, 11]))],
    ),
    case("R22", &[], &[BRICK, WEDGE, PYRAMID, END]),
    case(
        "R23",
        &[],
        &[
            BRICK,
            Insert((1, HEXA, 7, &[4, 6, 5, 7, 8, 9, 10, 11])),
            Insert((2, PYRA, 4294967295, &[7, 4, 6, 5, 8])),
        ],
    ),
    case("R24", &[], &[BRICK, WEDGE, PYRAMID, END, Remove(1)]),
];

/// Under edition 2.
const LIMITED: &[Case] = &[
    case("R26", THREE, &[Insert((3, QUAD, 7, &[0, 1, 2, 3]))]),
    case(
        "R27",
        &[
            (0, TETRA, 0, &[0, 1, 2, 3]),
            (1, TETRA, 7, &[0, 2, 1, 4]),
            (2, PYRA, 4294967295, &[0, 1, 3, 4, 2]),
        ],
        &[],
    ),
];

const LIMITED_SOLIDS: &[Case] = &[
    case(
        "R28",
        &[],
        &[
            BRICK,
            Insert((1, HEXA, 7, &[4, 6, 5, 7, 8, 9, 10, 11])),
            Insert((2, PYRA, 4294967295, &[7, 4, 6, 5, 8])),
        ],
    ),
    case(
        "R29",
        &[],
        &[
            Insert((0, TETRA, 0, &[0, 1, 2, 3])),
            Insert((1, PYRA, 7, &[0, 1, 4, 5, 2])),
            Insert((2, PENTA, 4294967295, &[2, 0, 1, 6, 7, 8])),
            Insert((2, TRI, 4294967295, &[0, 1, 2])),
            Remove(0),
            Insert((3, PENTA, 7, &[2, 0, 1, 6, 7, 8])),
        ],
    ),
    case(
        "R30",
        &[],
        &[
            BRICK,
            WEDGE,
            Insert((2, PYRA, 4294967295, &[6, 1, 5, 2, 10])),
            Insert((2, HEXA, 4294967295, &[7, 6, 5, 4, 3, 2, 1, 0])),
            Remove(0),
            Insert((2, PYRA, 4294967295, &[6, 1, 5, 2, 10])),
            BRICK,
        ],
    ),
];

/// Siblings that run every way: at bar ends; at edges, where a cell comes back
/// the other way round; at faces of three marks and of four.
const WAYS: &[Case] = &[
    case(
        "R31",
        &[
            (0, BAR, 0, &[0, 1]),
            (1, BAR, 7, &[0, 2]),
            (2, BAR, 4294967295, &[3, 0]),
        ],
        &[],
    ),
    case(
        "R32",
        &[
            (0, TRI, 0, &[0, 1, 2]),
            (1, TRI, 7, &[3, 0, 1]),
            (2, TRI, 4294967295, &[1, 0, 4]),
        ],
        &[Remove(1), Insert((1, TRI, 7, &[3, 1, 0]))],
    ),
    case(
        "R33",
        &[
            (0, TETRA, 0, &[0, 1, 2, 3]),
            (1, TETRA, 7, &[1, 2, 0, 4]),
            (2, PYRA, 4294967295, &[0, 1, 4, 3, 2]),
        ],
        &[],
    ),
];

const WAYS_OF_SOLIDS: &[Case] = &[case(
    "R34",
    &[],
    &[
        BRICK,
        Insert((1, PYRA, 7, &[7, 6, 5, 4, 8])),
        Insert((2, PYRA, 4294967295, &[7, 4, 6, 5, 9])),
        Insert((3, HEXA, 7, &[4, 5, 6, 7, 8, 9, 10, 11])),
    ],
)];

/// The counts of a tally before, and a list of edits.
type Morning = (u32, u32, &'static [u32]);

const MOST: u32 = u32::MAX;

#[rustfmt::skip]
const MORNINGS: &[Morning] = &[
    (0, 0, &[]),
    (0, 0, &[1, 0, 2, 0, 0, 1, 2, 1, 1, 2, 7, 2, 1, 3, 2, 0]),
    (3, 0, &[2, 1, 2, 1, 1, 0, 2, 0, 0, 1, 2]),
    (4, 1, &[1, 0, 2, 9, 0, 1, 2, 3, 1]),
    (5, 2, &[0]),
    (5, 2, &[2]),
    (5, 2, &[1]),
    (5, 2, &[1, 1]),
    (5, 2, &[1, 1, 2]),
    (5, 2, &[1, 1, 8]),
    (5, 2, &[1, 1, 8, 7]),
    (5, 2, &[1, 9, 2, 7]),
    (5, 2, &[1, 0, 2, 7]),
    (5, 2, &[1, 1, 2, 7, 0, 1]),
    (5, 2, &[1, 1, 2, 7, 2, 1, 0]),
    (5, 2, &[1, 1, 3, 7, 0, 1, 2, 3, 2, 0, 1, 0, 4, MOST, 0, 1, 2, 3]),
    (MOST - 1, MOST - 1, &[2, 0, 2, 1, 2, 1]),
    (MOST, MOST, &[1, 0, 2, 0, 0, 1, 2, 2, 3]),
    (MOST - 1, MOST, &[1, 1, 2, 7, 0, 1, 3]),
];

/// Of memory that is no mesh.
const WITHOUT_MESH: &[Morning] = &[(0, 0, &[]), (7, MOST - 1, &[2, 0]), (7, MOST, &[3])];

/// All of it, one answer or one group of answers a line.
pub fn text() -> String {
    let mut text = Text::default();
    text.small(CASES, FIRST_EDITION);
    text.solids(SOLIDS, FIRST_EDITION);
    text.everything("R25", &Memory::lent(WORDS));
    text.small(LIMITED, SECOND_EDITION);
    text.solids(LIMITED_SOLIDS, SECOND_EDITION);
    text.small(WAYS, FIRST_EDITION);
    text.solids(WAYS_OF_SOLIDS, FIRST_EDITION);
    text.mornings();
    text.formats();
    text.editions();
    text.full_mark();
    text.lines
}

/// An answer as text, or the number of its refusal.
trait Answer {
    fn says(&self) -> String;
}

impl Answer for () {
    fn says(&self) -> String {
        "accepted".to_string()
    }
}

impl Answer for bool {
    fn says(&self) -> String {
        if *self { "yes" } else { "no" }.to_string()
    }
}

impl Answer for u32 {
    fn says(&self) -> String {
        self.to_string()
    }
}

impl Answer for usize {
    fn says(&self) -> String {
        self.to_string()
    }
}

impl Answer for (u32, u32) {
    fn says(&self) -> String {
        format!("{} {}", self.0, self.1)
    }
}

impl Answer for (u32, Way) {
    fn says(&self) -> String {
        format!("{} way {}", self.0, self.1.number())
    }
}

impl Answer for (Walker, Way) {
    fn says(&self) -> String {
        (self.0.half, self.1).says()
    }
}

impl Answer for Vec<(u32, Way)> {
    fn says(&self) -> String {
        let (halves, ways): (Vec<u32>, Vec<u32>) =
            self.iter().map(|(half, way)| (half, way.number())).unzip();
        format!("{}, ways {}", halves.says(), ways.says())
    }
}

impl Answer for Option<u32> {
    fn says(&self) -> String {
        self.map_or("none".to_string(), |number| number.to_string())
    }
}

impl Answer for Vec<u32> {
    fn says(&self) -> String {
        let numbers: Vec<String> = self.iter().map(u32::to_string).collect();
        match numbers.as_slice() {
            [] => "none".to_string(),
            some => some.join(" "),
        }
    }
}

impl<A: Answer> Answer for Result<A, Refusal> {
    fn says(&self) -> String {
        match self {
            Ok(answer) => answer.says(),
            Err(refusal) => format!("refused {}", refusal.number()),
        }
    }
}

#[derive(Default)]
struct Text {
    lines: String,
}

impl Text {
    fn line(&mut self, line: String) {
        writeln!(self.lines, "{line}").expect("a string takes any text");
    }

    fn small(&mut self, cases: &[Case], edition: u32) {
        for case in cases {
            let memory = self.made(case, MARKS, WORDS, edition);
            self.everything(case.name, &memory);
        }
    }

    fn solids(&mut self, cases: &[Case], edition: u32) {
        for case in cases {
            let memory = self.made(case, SOLID_MARKS, SOLID_WORDS, edition);
            self.of_solids(case.name, &memory);
        }
    }

    /// The map of a case.
    fn made(&mut self, case: &Case, marks: u32, words: usize, edition: u32) -> Memory {
        let name = case.name;
        let mut memory = Memory::lent(words);
        let mut words = Vec::new();
        for &(cell, code, licence, marks) in case.built {
            words.extend([cell, code, licence]);
            words.extend(marks);
        }
        let built = match memory.build_edition(marks, CELLS, edition, &words) {
            Ok(()) => "accepted".to_string(),
            Err((refusal, place)) => format!("refused {} record {place}", refusal.number()),
        };
        self.line(format!("{name} build: {built}"));
        for edit in case.edits {
            self.edit(name, &mut memory, edit);
        }
        memory
    }

    fn edit(&mut self, name: &str, memory: &mut Memory, edit: &Edit) {
        match *edit {
            Insert((cell, code, 0, marks)) => {
                let answer = memory.insert(cell, code, marks).says();
                let marks = marks.to_vec().says();
                self.line(format!(
                    "{name} insert {cell} type {code} marks {marks}: {answer}"
                ));
            }
            Insert((cell, code, licence, marks)) => {
                let answer = memory.insert_licensed(cell, code, licence, marks).says();
                let marks = marks.to_vec().says();
                self.line(format!(
                    "{name} insert {cell} type {code} licence {licence} marks {marks}: {answer}"
                ));
            }
            Remove(cell) => {
                let answer = memory.remove(cell).says();
                self.line(format!("{name} remove {cell}: {answer}"));
            }
        }
    }

    /// Lists of edits, one after the other.
    fn mornings(&mut self) {
        let mut memory = Memory::lent(WORDS);
        memory.format(MARKS, CELLS).expect("the room is exact");
        for morning in MORNINGS {
            self.morning("R35", &mut memory, morning);
        }
        self.everything("R35", &memory);
        for morning in WITHOUT_MESH {
            self.morning("R36", &mut Memory::lent(WORDS), morning);
        }
    }

    fn morning(&mut self, name: &str, memory: &mut Memory, morning: &Morning) {
        let &(accepted, refused, list) = morning;
        let mut tally = Tally { accepted, refused };
        let made = match memory.edits(list, &mut tally) {
            Ok(made) => made.to_string(),
            Err((refusal, made)) => format!("{made} refused {}", refusal.number()),
        };
        let list = list.to_vec().says();
        self.line(format!(
            "{name} edits {list}: made {made}, tally {accepted} {refused} to {} {}",
            tally.accepted, tally.refused
        ));
    }

    /// Every query with every argument, each also one past its range; and the
    /// whole check.
    fn everything(&mut self, name: &str, memory: &Memory) {
        for cell in 0..=CELLS {
            self.cell(name, memory, cell);
        }
        for dimension in 0..=4 {
            for mark in 0..=MARKS {
                self.mark(name, memory, dimension, mark);
            }
        }
        self.types(name, memory);
        self.sets(name, memory);
        self.edition(name, memory);
        self.room(name, memory);
        self.whole(name, memory);
    }

    /// The same of solids, with some sets only.
    fn of_solids(&mut self, name: &str, memory: &Memory) {
        for cell in 0..=CELLS {
            self.cell(name, memory, cell);
        }
        for mark in 0..=SOLID_MARKS {
            self.mark(name, memory, 3, mark);
        }
        self.types(name, memory);
        self.set(name, memory, &[4, 5, 6, 7]);
        self.set(name, memory, &[7, 5, 4, 6]);
        self.set(name, memory, &[1, 2, 6, 5]);
        self.set(name, memory, &[2, 8, 9, 6]);
        self.set(name, memory, &[8, 2, 1]);
        self.set(name, memory, &[0, 1, 6, 7]);
        self.set(name, memory, &[0, 1, 2, 12]);
        self.set(name, memory, &[0, 1, 2, 3, 12]);
        self.edition(name, memory);
        self.room(name, memory);
        self.whole(name, memory);
    }

    fn types(&mut self, name: &str, memory: &Memory) {
        for code in 0..=8 {
            let cells = memory.cells_of_type(code, PLENTY).says();
            let count = memory.count_of_type(code).says();
            self.line(format!("{name} type {code}: cells {cells}, count {count}"));
        }
    }

    fn edition(&mut self, name: &str, memory: &Memory) {
        let edition = memory.edition().says();
        self.line(format!("{name} edition: {edition}"));
    }

    fn room(&mut self, name: &str, memory: &Memory) {
        let capacities = memory.capacities().says();
        let live = memory.live(PLENTY).says();
        let free = memory.free().says();
        self.line(format!(
            "{name} capacities: {capacities}, live {live}, free {free}"
        ));
    }

    fn whole(&mut self, name: &str, memory: &Memory) {
        let whole = if memory.whole() { "yes" } else { "no" };
        self.line(format!("{name} whole: {whole}"));
    }

    fn cell(&mut self, name: &str, memory: &Memory, cell: u32) {
        let code = memory.type_of(cell).says();
        let licence = memory.licence(cell).says();
        let marks = memory.marks_of(cell).says();
        let neighbours = memory.neighbours(cell, PLENTY).says();
        self.line(format!(
            "{name} cell {cell}: \
             type {code}, licence {licence}, marks {marks}, neighbours {neighbours}"
        ));
        for facet in 0..=6 {
            let sibling = memory.sibling(cell, facet).says();
            let border = memory.border(cell, facet).says();
            let cycle = memory.cycle(cell, facet, PLENTY, PLENTY).says();
            let half = 8 * cell + facet;
            let step = Walker { half }.step(memory).says();
            self.line(format!(
                "{name} half {cell} {facet}: \
                 sibling {sibling}, border {border}, cycle {cycle}, step {step}"
            ));
        }
    }

    fn mark(&mut self, name: &str, memory: &Memory, dimension: u32, mark: u32) {
        let star = memory.star(dimension, mark, PLENTY).says();
        let anchors = memory.anchors(dimension, mark, PLENTY).says();
        let first = memory.first_anchor(dimension, mark).says();
        self.line(format!(
            "{name} mark {mark} dimension {dimension}: \
             star {star}, anchors {anchors}, first {first}"
        ));
    }

    /// Sets of 1 to 4 marks, ascending, and one with none, with a repeat and
    /// with five.
    fn sets(&mut self, name: &str, memory: &Memory) {
        for a in 0..=MARKS {
            self.set(name, memory, &[a]);
            for b in a + 1..=MARKS {
                self.set(name, memory, &[a, b]);
                for c in b + 1..=MARKS {
                    self.set(name, memory, &[a, b, c]);
                    for d in c + 1..=MARKS {
                        self.set(name, memory, &[a, b, c, d]);
                    }
                }
            }
        }
        self.set(name, memory, &[]);
        self.set(name, memory, &[1, 0, 1]);
        self.set(name, memory, &[0, 1, 2, 3, 4]);
    }

    fn set(&mut self, name: &str, memory: &Memory, set: &[u32]) {
        let found = memory.lookup(set).says();
        let set = set.to_vec().says();
        self.line(format!("{name} lookup {set}: {found}"));
    }

    /// "capacities 65,535 and 65,536; room exact and one word short"
    fn formats(&mut self) {
        for (words, marks, cells) in [
            (16 + 8 * 65_535, 65_535, 0),
            (16 + 8 * 65_535 - 1, 65_535, 0),
            (WORDS, 65_536, 0),
            (WORDS, 0, 65_536),
            (WORDS, 65_535, 65_535),
            (WORDS, MARKS, CELLS),
            (WORDS - 1, MARKS, CELLS),
            (16, 0, 0),
            (15, 0, 0),
        ] {
            let answer = Memory::lent(words).format(marks, cells).says();
            self.line(format!(
                "bound format {words} words {marks} {cells}: {answer}"
            ));
        }
    }

    /// "6 for another edition, before 1 and like it"
    fn editions(&mut self) {
        for (words, marks, cells, edition) in [
            (WORDS, MARKS, CELLS, 0),
            (WORDS, MARKS, CELLS, 1),
            (WORDS, MARKS, CELLS, 2),
            (WORDS, MARKS, CELLS, 3),
            (WORDS, MARKS, CELLS, 258),
            (WORDS, 65_536, 0, 2),
            (WORDS, 65_536, 0, 3),
            (WORDS, 65_535, 65_535, 2),
            (WORDS, 65_535, 65_535, 3),
        ] {
            let answer = Memory::lent(words)
                .format_edition(marks, cells, edition)
                .says();
            self.line(format!(
                "bound format {words} words {marks} {cells} edition {edition}: {answer}"
            ));
        }
    }

    /// "a mark's 128th and 129th cell; a list that fits exactly and one place
    /// too short": bars from mark 0, one to each other mark.
    fn full_mark(&mut self) {
        let mut memory = Memory::lent(16 + 8 * 130 + 32 * 129);
        let formatted = memory.format(130, 129).says();
        self.line(format!("bound format 5184 words 130 129: {formatted}"));
        for cell in 0..129 {
            self.bar(&mut memory, cell);
        }
        for room in [126, 127, 128] {
            self.lists(&memory, room);
        }
        self.ring(&memory, 127, 128);
        self.ring(&memory, 128, 127);
        let removed = memory.remove(5).says();
        self.line(format!("bound remove 5: {removed}"));
        self.lists(&memory, 127);
        for cell in [128, 5] {
            self.bar(&mut memory, cell);
        }
        self.lists(&memory, 128);
    }

    fn bar(&mut self, memory: &mut Memory, cell: u32) {
        let answer = memory.insert(cell, BAR, &[0, cell + 1]).says();
        self.line(format!("bound insert {cell}: {answer}"));
    }

    fn lists(&mut self, memory: &Memory, room: usize) {
        let star = memory.star(1, 0, room).says();
        let neighbours = memory.neighbours(7, room).says();
        let cells = memory.cells_of_type(BAR, room).says();
        let anchors = memory.anchors(1, 0, room).says();
        let live = memory.live(room).says();
        let free = memory.free().says();
        self.line(format!("bound star {room}: {star}"));
        self.line(format!("bound neighbours {room}: {neighbours}"));
        self.line(format!("bound cells {room}: {cells}"));
        self.line(format!("bound anchors {room}: {anchors}"));
        self.line(format!("bound live {room}: {live}, free {free}"));
        self.ring(memory, room, room);
    }

    /// The cycle, and the ways beside it, each into its own room.
    fn ring(&mut self, memory: &Memory, room: usize, ways_room: usize) {
        let cycle = memory.cycle(7, 0, room, ways_room).says();
        self.line(format!("bound cycle {room} {ways_room}: {cycle}"));
    }
}

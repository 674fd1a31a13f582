//! What the runs share: questions to the library and to the second program,
//! and the map that memory tells.
#![allow(dead_code)] // each run uses a part

use std::sync::OnceLock;

use mengkiloh::{off_room, room, Cell, Half, Licence, Mark, Measure, Mesh, Records, Refusal};
use second::journal::Edit;
use second::map::LiveCell;
use second::positions::float;
use second::shapes::type_with_code;
use second::Memory;
pub use streams::chance::Chance;
use streams::lattice;

pub const SENTINEL: u32 = 0xdead_beef;

/// The number of a refusal, 0 for accepted, and the answer's numbers.
pub type Said = (u8, Vec<u32>);

pub fn ours<T>(answer: Result<T, Refusal>, numbers: impl FnOnce(T) -> Vec<u32>) -> Said {
    match answer {
        Ok(value) => (0, numbers(value)),
        Err(refusal) => (refusal.number(), Vec::new()),
    }
}

pub fn theirs<T>(answer: Result<T, second::Refusal>, numbers: impl FnOnce(T) -> Vec<u32>) -> Said {
    match answer {
        Ok(value) => (0, numbers(value)),
        Err(refusal) => (refusal.number(), Vec::new()),
    }
}

/// A number of any register.
pub trait Number: Copy + From<u32> {
    fn plain(self) -> u32;
}

impl Number for Mark {
    fn plain(self) -> u32 {
        self.0
    }
}

impl Number for Cell {
    fn plain(self) -> u32 {
        self.0
    }
}

impl Number for Half {
    fn plain(self) -> u32 {
        self.0
    }
}

pub fn plain<T: Number>(numbers: &[T]) -> Vec<u32> {
    numbers.iter().map(|number| number.plain()).collect()
}

pub fn marks(numbers: &[u32]) -> Vec<Mark> {
    numbers.iter().copied().map(Mark).collect()
}

/// A list from an output between sentinels: nothing is written but its first
/// places, and nothing at all by a refusal.
pub fn listed<T: Number>(
    room: usize,
    fill: impl FnOnce(&mut [T]) -> Result<usize, Refusal>,
) -> Said {
    const EDGE: usize = 8;
    let mut out = vec![T::from(SENTINEL); EDGE + room + EDGE];
    let answer = fill(&mut out[EDGE..EDGE + room]);
    let given = answer.unwrap_or(0);
    assert!(given <= room);
    let out = plain(&out);
    let rest = out[..EDGE].iter().chain(&out[EDGE + given..]);
    assert!(rest.into_iter().all(|&word| word == SENTINEL));
    ours(answer, |count| out[EDGE..EDGE + count].to_vec())
}

/// A licence: none, one that several cells have, one of the largest, or any.
pub fn draw_licence(chance: &mut Chance) -> u32 {
    match chance.below(4) {
        0 => 0,
        1 => 1 + chance.below(3),
        2 => u32::MAX - chance.below(2),
        _ => chance.bits() as u32,
    }
}

/// An edit of a map of these capacities, mostly one that is accepted.
pub fn draw_edit(chance: &mut Chance, of: (u32, u32), theirs: &Memory) -> Edit {
    let live = &theirs.mesh.as_ref().expect("a mesh").live;
    if chance.below(of.1) < live.len() as u32 {
        let cell = live[chance.below(live.len() as u32) as usize].number.0;
        return Edit::Remove { cell };
    }
    let (code, marks) = lattice::draw(chance, lattice::side(of.0));
    let cell = chance.below(of.1);
    let licence = draw_licence(chance);
    Edit::Insert {
        cell,
        code,
        licence,
        marks,
    }
}

/// A question to a map.
#[derive(Clone, Debug)]
pub enum Question {
    Edition,
    Capacities,
    Free,
    Live,
    Type(u32),
    Licence(u32),
    Marks(u32),
    Neighbours(u32),
    Sibling(u32, u32),
    Border(u32, u32),
    Cycle(u32, u32),
    Star(u32, u32),
    Anchors(u32, u32),
    FirstAnchor(u32, u32),
    Lookup(Vec<u32>),
    Cells(u32),
    Count(u32),
    Points(u32),
    Centre(u32),
    Measure(u32),
    Surface,
}

const PLENTY: usize = 70_000;

impl Question {
    /// One about numbers mostly below these, now and then above.
    pub fn draw(chance: &mut Chance, marks: u32, cells: u32) -> Question {
        let cell = chance.below(cells + 1 + cells / 16);
        let mark = chance.below(marks + 1 + marks / 16);
        let facet = chance.below(7);
        let dimension = chance.below(5);
        let code = chance.below(9);
        match chance.below(21) {
            0 => Question::Type(cell),
            1 => Question::Marks(cell),
            2 => Question::Neighbours(cell),
            3 => Question::Sibling(cell, facet),
            4 => Question::Border(cell, facet),
            5 => Question::Cycle(cell, facet),
            6 => Question::Star(dimension, mark),
            7 => Question::Anchors(dimension, mark),
            8 => Question::FirstAnchor(dimension, mark),
            9 => {
                let size = chance.below(6);
                Question::Lookup((0..size).map(|_| chance.below(marks + 1)).collect())
            }
            10 => Question::Cells(code),
            11 => Question::Edition,
            12 => Question::Points(cell),
            13 => Question::Centre(cell),
            14 => Question::Measure(cell),
            15 => Question::Capacities,
            16 => Question::Free,
            17 => Question::Live,
            18 => Question::Surface,
            19 => Question::Licence(cell),
            _ => Question::Count(code),
        }
    }

    /// The lookup of a facet that there is.
    pub fn of_facet(memory: &Memory, chance: &mut Chance) -> Option<Question> {
        let live = &memory.mesh.as_ref()?.live;
        let cell = live.get(chance.below(live.len() as u32) as usize)?;
        let facets = second::map::half_facets_of(cell);
        let facet = &facets[chance.below(facets.len() as u32) as usize];
        Some(Question::Lookup(
            facet.marks.iter().map(|mark| mark.0).collect(),
        ))
    }

    pub fn to_library<W: AsRef<[u32]>>(&self, mesh: &Mesh<W>) -> Said {
        let one = |number: u32| vec![number];
        let both = |numbers: (u32, u32)| vec![numbers.0, numbers.1];
        let perhaps = |half: Option<Half>| half.map(|half| half.0).into_iter().collect();
        let yes = |yes: bool| vec![u32::from(yes)];
        match *self {
            Question::Edition => ours(mesh.edition(), one),
            Question::Capacities => ours(mesh.capacities(), both),
            Question::Free => ours(mesh.free(), |cell| {
                cell.map(|cell| cell.0).into_iter().collect()
            }),
            // no mesh has more cells than its capacity, whatever its words are
            Question::Live => {
                let most = mesh.capacities().map_or(0, |capacities| capacities.1);
                listed(most as usize, |out| mesh.live_into(out))
            }
            Question::Type(c) => ours(mesh.type_of(Cell(c)), |kind| one(kind.into())),
            Question::Licence(c) => ours(mesh.licence(Cell(c)), |it| one(it.0)),
            Question::Marks(c) => ours(mesh.marks_of(Cell(c)), plain),
            Question::Neighbours(c) => listed(762, |out| mesh.neighbours_into(Cell(c), out)),
            Question::Sibling(c, facet) => ours(mesh.sibling(Cell(c), facet), |it| {
                vec![it.0 .0, it.1.into()]
            }),
            Question::Border(c, facet) => ours(mesh.border(Cell(c), facet), yes),
            Question::Cycle(c, facet) => cycled(mesh, Cell(c), facet),
            Question::Star(d, v) => listed(128, |out| mesh.star_into(d, Mark(v), out)),
            Question::Anchors(d, v) => listed(128, |out| mesh.anchors_into(d, Mark(v), out)),
            Question::FirstAnchor(d, v) => ours(mesh.first_anchor(d, Mark(v)), perhaps),
            Question::Lookup(ref set) => ours(mesh.lookup(&marks(set)), perhaps),
            Question::Cells(code) => {
                let most = mesh.count(code).unwrap_or(0).min(70_000) as usize;
                listed(most, |out| mesh.cells_into(code, out))
            }
            Question::Count(code) => ours(mesh.count(code), one),
            Question::Points(c) => pointed(24, |out| mesh.points_into(positions(), Cell(c), out)),
            Question::Centre(c) => ours(mesh.centre(positions(), Cell(c)), |point| {
                bits([point.x, point.y, point.z])
            }),
            Question::Measure(c) => ours(mesh.measure(positions(), Cell(c)), measured),
            Question::Surface => {
                let (marks, cells) = mesh.capacities().unwrap_or((0, 0));
                let room = off_room(marks, cells);
                written(room, |out| mesh.write_off_into(positions(), out))
            }
        }
    }

    pub fn to_second(&self, memory: &Memory) -> Said {
        let one = |number: u32| vec![number];
        let both = |numbers: (u32, u32)| vec![numbers.0, numbers.1];
        let perhaps = |number: Option<u32>| number.into_iter().collect();
        match *self {
            Question::Edition => theirs(memory.edition(), one),
            Question::Capacities => theirs(memory.capacities(), both),
            Question::Free => theirs(memory.free(), perhaps),
            Question::Live => theirs(memory.live(PLENTY), |list| list),
            Question::Type(cell) => theirs(memory.type_of(cell), one),
            Question::Licence(cell) => theirs(memory.licence(cell), one),
            // marks are refused where the type is
            Question::Marks(cell) => match memory.type_of(cell) {
                Ok(_) => (0, memory.marks_of(cell)),
                Err(refusal) => (refusal.number(), Vec::new()),
            },
            Question::Neighbours(cell) => theirs(memory.neighbours(cell, PLENTY), |list| list),
            Question::Sibling(cell, facet) => {
                theirs(memory.sibling(cell, facet), |it| vec![it.0, it.1.number()])
            }
            Question::Border(cell, facet) => {
                theirs(memory.border(cell, facet), |yes| vec![u32::from(yes)])
            }
            Question::Cycle(cell, facet) => {
                let cycle = memory.cycle(cell, facet, PLENTY, PLENTY);
                theirs(cycle, |list| {
                    let halves = list.iter().map(|it| it.0);
                    halves.chain(list.iter().map(|it| it.1.number())).collect()
                })
            }
            Question::Star(dimension, mark) => {
                theirs(memory.star(dimension, mark, PLENTY), |list| list)
            }
            Question::Anchors(dimension, mark) => {
                theirs(memory.anchors(dimension, mark, PLENTY), |list| list)
            }
            Question::FirstAnchor(dimension, mark) => {
                theirs(memory.first_anchor(dimension, mark), perhaps)
            }
            Question::Lookup(ref set) => theirs(memory.lookup(set), perhaps),
            Question::Cells(code) => theirs(memory.cells_of_type(code, PLENTY), |list| list),
            Question::Count(code) => theirs(memory.count_of_type(code), |count| vec![count as u32]),
            Question::Points(cell) => theirs(memory.points(positions(), cell, 24), |corners| {
                bits(corners.iter().flat_map(|at| [at.x, at.y, at.z].map(float)))
            }),
            Question::Centre(cell) => theirs(memory.centre(positions(), cell), |(sums, count)| {
                bits([sums.x, sums.y, sums.z].map(|sum| float(sum) / float(count)))
            }),
            Question::Measure(cell) => theirs(memory.measure(positions(), cell), |measure| {
                let mut numbers = vec![measure.kind()];
                numbers.extend(bits([float(measure.whole())]));
                numbers
            }),
            Question::Surface => match memory.write_off(positions(), usize::MAX) {
                Ok(text) => (0, text.into_iter().map(u32::from).collect()),
                Err(number) => (number, Vec::new()),
            },
        }
    }
}

/// A cycle and then its ways, which have an output between sentinels too.
fn cycled<W: AsRef<[u32]>>(mesh: &Mesh<W>, cell: Cell, facet: u32) -> Said {
    let mut ways = [SENTINEL; 130];
    let (number, mut numbers) = listed(128, |out| {
        mesh.cycle_into(cell, facet, out, &mut ways[1..129])
    });
    let count = numbers.len();
    let rest = ways[..1].iter().chain(&ways[1 + count..]);
    assert!(rest.into_iter().all(|&word| word == SENTINEL));
    numbers.extend(&ways[1..1 + count]);
    (number, numbers)
}

/// The exact bits of floats, two words each.
pub fn bits(floats: impl IntoIterator<Item = f64>) -> Vec<u32> {
    let halves = |float: f64| [(float.to_bits() >> 32) as u32, float.to_bits() as u32];
    floats.into_iter().flat_map(halves).collect()
}

/// The number of a measure's kind, and the bits of its float.
pub fn measured(measure: Measure) -> Vec<u32> {
    let (kind, size) = match measure {
        Measure::SquaredLength(size) => (1, size),
        Measure::DoubledArea(size) => (2, size),
        Measure::SixfoldVolume(size) => (3, size),
    };
    let mut numbers = vec![kind];
    numbers.extend(bits([size]));
    numbers
}

/// The bits of points from an output between sentinels: nothing is written but
/// three floats a corner, and nothing at all by a refusal.
pub fn pointed(room: usize, fill: impl FnOnce(&mut [f64]) -> Result<usize, Refusal>) -> Said {
    const EDGE: usize = 4;
    const LEFT: f64 = 12_345.678;
    let mut out = vec![LEFT; EDGE + room + EDGE];
    let answer = fill(&mut out[EDGE..EDGE + room]);
    let given = 3 * answer.unwrap_or(0);
    assert!(given <= room);
    let rest = out[..EDGE].iter().chain(&out[EDGE + given..]);
    assert!(rest
        .into_iter()
        .all(|float| float.to_bits() == LEFT.to_bits()));
    ours(answer, |_| bits(out[EDGE..EDGE + given].iter().copied()))
}

/// The bytes of a text from an output between sentinels: nothing is written but
/// the text, and nothing at all by a refusal.
pub fn written(room: usize, fill: impl FnOnce(&mut [u8]) -> Result<usize, Refusal>) -> Said {
    const EDGE: usize = 8;
    const LEFT: u8 = 0xa5;
    let mut out = vec![LEFT; EDGE + room + EDGE];
    let answer = fill(&mut out[EDGE..EDGE + room]);
    let given = answer.unwrap_or(0);
    assert!(given <= room);
    let rest = out[..EDGE].iter().chain(&out[EDGE + given..]);
    assert!(rest.into_iter().all(|&byte| byte == LEFT));
    let text = &out[EDGE..EDGE + given];
    ours(answer, |_| text.iter().copied().map(u32::from).collect())
}

/// Positions for as many marks as there can be, by chance, many at an extreme.
pub fn positions() -> &'static [i16] {
    static LIST: OnceLock<Vec<i16>> = OnceLock::new();
    LIST.get_or_init(|| {
        let mut chance = Chance::from_seed(4);
        (0..3 * 65_535).map(|_| metre(&mut chance)).collect()
    })
}

/// A whole metre by chance, often an extreme or none.
pub fn metre(chance: &mut Chance) -> i16 {
    match chance.below(8) {
        0 => i16::MIN,
        1 => i16::MAX,
        2 => 0,
        3 => -1,
        _ => (chance.below(65_536) as i32 - 32_768) as i16,
    }
}

/// The map that the records of well-formed memory tell (docs/LAYOUT.md).
pub fn told(words: &[u32]) -> Memory {
    let (marks, cells, edition) = (words[1], words[2], words[3]);
    let first = 16 + 8 * marks as usize;
    let second = first + 16 * cells as usize;
    let live = (0..cells)
        .filter_map(|number| {
            let part = |from: usize| &words[from + 16 * number as usize..][..16];
            let row = type_with_code(part(first)[0])?;
            // all marks of a cell with more than four stand in its second part
            let marks = match row.marks {
                0..=4 => &part(first)[1..],
                _ => part(second),
            };
            let marks = marks[..row.marks].iter().copied();
            Some(LiveCell {
                number: second::map::Cell(number),
                row,
                licence: part(first)[15],
                marks: marks.map(second::map::Mark).collect(),
            })
        })
        .collect();
    let mut mesh = second::Mesh::formatted(marks, cells, edition);
    mesh.live = live;
    Memory {
        words: words.len(),
        mesh: Some(mesh),
    }
}

/// The live cells as build records, in this order.
pub fn records<'a>(cells: impl IntoIterator<Item = &'a LiveCell>) -> Records {
    let mut records = Records::new();
    for cell in cells {
        let marks: Vec<Mark> = cell.marks.iter().map(|mark| Mark(mark.0)).collect();
        let licence = Licence(cell.licence);
        records.add(Cell(cell.number.0), cell.row.code, licence, &marks);
    }
    records
}

/// The words of the room are those of a fresh build of the second program's cells.
pub fn is_map(words: &[u32], theirs: &Memory) {
    let mesh = theirs.mesh.as_ref().expect("a mesh");
    let mut fresh = Mesh::over(vec![0; room(mesh.marks, mesh.cells)]);
    fresh
        .build_edition(mesh.marks, mesh.cells, mesh.edition, &records(&mesh.live))
        .expect("live cells can be built");
    assert!(words[..fresh.words().len()] == *fresh.words());
}

//! Every call of the outline: its checks in the listed order, one line each,
//! then the answer.
//!
//! "Checks run in this order: 14 first, save for format and build, then as
//! follows. Format: 1, 2. Insert: 3, 4, 6, 7, 8, 9, 10, 11. Remove: 3, 5.
//! Queries: 3, 5, 13, 6, 7, 8, 9, 12, those that apply." Request 8 adds "6 for
//! another edition, before 1 and like it; 19 for the third solid, after 10 and
//! before 11", request 4 "after 3 and 5, 6 for a solid without a measure, then
//! 16 for a position list shorter than three numbers per mark". A list of edits,
//! request 2's, has 14 first and then, at an edit's turn, 6 for its kind and 7 for
//! a missing number, type or licence. Numbers come in uncut, as whole 32-bit words.
//! A half-facet is answered as its number; with a sibling, a walker's step and each
//! entry of a cycle comes which way its sibling runs (request 6).

use crate::map::{self, Cell, HalfFacet, LiveCell, Mark, Way};
use crate::positions::{self, Measure, Metres, NUMBERS_A_MARK};
use crate::shapes::{type_with_code, Type, DIMENSIONS, HALF_FACETS_A_CELL, LOOKUP_MARKS, SOLID};
use crate::Refusal;
use std::collections::BTreeSet;
use std::ops::RangeInclusive;

/// "Capacities: 0 to 65,535 marks and 0 to 65,535 cells."
pub const LARGEST_CAPACITY: u32 = 65_535;

/// "A mark may stand in at most 128 live cells, all dimensions together."
pub const CELLS_AT_A_MARK: usize = 128;

/// "an edition number, 1 or 2"
pub const EDITIONS: RangeInclusive<u32> = FIRST_EDITION..=SECOND_EDITION;

/// "01's forms .. mean edition 1."
pub const FIRST_EDITION: u32 = 1;

/// "From next year a face may lie between two solids at most."
pub const SECOND_EDITION: u32 = 2;
pub const SOLIDS_AT_A_FACE: usize = 2;

/// "room = 16 + 8 × marks + 32 × cells"
pub const HEAD_WORDS: usize = 16;
pub const MARK_WORDS: usize = 8;
pub const CELL_WORDS: usize = 32;

/// The words a mesh of these capacities needs.
pub fn room(marks: u32, cells: u32) -> usize {
    HEAD_WORDS + MARK_WORDS * marks as usize + CELL_WORDS * cells as usize
}

/// A mesh: its two capacities, its edition and its live cells.
#[derive(Clone, Debug, PartialEq, Eq)]
pub struct Mesh {
    pub marks: u32,
    pub cells: u32,
    pub edition: u32,
    pub live: Vec<LiveCell>,
}

/// Lent memory: how many words there are, and the mesh in them once a format
/// or build has put one there.
#[derive(Clone, Debug, PartialEq, Eq)]
pub struct Memory {
    pub words: usize,
    pub mesh: Option<Mesh>,
}

/// "a tally of accepted and refused edits, one small record lent to each call and
/// updated in place"
#[derive(Clone, Copy, Debug, Default, PartialEq, Eq)]
pub struct Tally {
    pub accepted: u32,
    pub refused: u32,
}

/// The kinds of a listed edit: "1 and a build record to insert, 2 and a cell
/// number to remove".
pub const INSERT: u32 = 1;
pub const REMOVE: u32 = 2;

/// "A walker over one sibling cycle holds its place and hands back its next
/// place".
#[derive(Clone, Copy, Debug, PartialEq, Eq)]
pub struct Walker {
    /// The number of the half-facet it stands at.
    pub half: u32,
}

impl Mesh {
    /// A mesh of these capacities and this edition with no live cell.
    pub fn formatted(marks: u32, cells: u32, edition: u32) -> Mesh {
        let live = Vec::new();
        Mesh {
            marks,
            cells,
            edition,
            live,
        }
    }
}

impl Memory {
    /// Memory of so many words that is not a mesh.
    pub fn lent(words: usize) -> Memory {
        Memory { words, mesh: None }
    }

    /// Format under edition 1: 1, 2.
    pub fn format(&mut self, marks: u32, cells: u32) -> Result<(), Refusal> {
        self.format_edition(marks, cells, FIRST_EDITION)
    }

    /// Format: 6, 1, 2.
    pub fn format_edition(&mut self, marks: u32, cells: u32, edition: u32) -> Result<(), Refusal> {
        known_edition(edition)?;
        capacities_in_range(marks, cells)?;
        room_fits(self.words, marks, cells)?;
        self.mesh = Some(Mesh::formatted(marks, cells, edition));
        Ok(())
    }

    /// Build under edition 1.
    pub fn build(
        &mut self,
        marks: u32,
        cells: u32,
        records: &[u32],
    ) -> Result<(), (Refusal, usize)> {
        self.build_edition(marks, cells, FIRST_EDITION, records)
    }

    /// "Build does format, then inserts in order. At the first refused record
    /// it answers number and record place (from 0) and leaves a formatted mesh
    /// with no live cell. Refusals 1 and 2 come with place 0 and change
    /// nothing." "6 for another edition, before 1 and like it".
    pub fn build_edition(
        &mut self,
        marks: u32,
        cells: u32,
        edition: u32,
        records: &[u32],
    ) -> Result<(), (Refusal, usize)> {
        self.format_edition(marks, cells, edition)
            .map_err(|refusal| (refusal, 0))?;
        let mut left = records;
        let mut place = 0;
        while !left.is_empty() {
            match self.insert_record(left) {
                Ok(after) => left = after,
                Err(refusal) => {
                    self.change(Vec::clear);
                    return Err((refusal, place));
                }
            }
            place += 1;
        }
        Ok(())
    }

    /// "A build record is a cell number, a type code, then that type's marks.
    /// A record's checks run 7 for a missing number or code, then 3, 4, 6, 7, 8
    /// and so on." "build records and listed edits give it after the type, and
    /// missing it is 7 as there": the licence. Answers the words after the record.
    /// A record cut short is an insert with too few marks, and one of unknown type
    /// has none to count.
    fn insert_record<'a>(&mut self, words: &'a [u32]) -> Result<&'a [u32], Refusal> {
        let [cell, code, licence, left @ ..] = words else {
            return Err(Refusal::CountWrong);
        };
        let due = type_with_code(*code).map_or(0, |row| row.marks);
        let (marks, after) = left.split_at(due.min(left.len()));
        self.insert_licensed(*cell, *code, *licence, marks)?;
        Ok(after)
    }

    /// "Insert without one .. means 0."
    pub fn insert(&mut self, cell: u32, code: u32, marks: &[u32]) -> Result<(), Refusal> {
        self.insert_licensed(cell, code, 0, marks)
    }

    /// Insert: 14, 3, 4, 6, 7, 8, 9, 10, 19, 11. None of them looks at the licence.
    pub fn insert_licensed(
        &mut self,
        cell: u32,
        code: u32,
        licence: u32,
        marks: &[u32],
    ) -> Result<(), Refusal> {
        let mesh = self.held()?;
        let number = cell_below_capacity(mesh, cell)?;
        not_live(mesh, number)?;
        let row = known_type(code)?;
        count_for_type(row, marks)?;
        let marks = marks_below_capacity(mesh, marks)?;
        each_once(&marks)?;
        no_same_cell(mesh, row, &marks)?;
        no_third_solid(mesh, number, row, &marks)?;
        no_full_mark(mesh, &marks)?;
        self.change(|live| {
            live.push(LiveCell {
                number,
                row,
                licence,
                marks,
            })
        });
        Ok(())
    }

    /// Remove: 14, 3, 5.
    pub fn remove(&mut self, cell: u32) -> Result<(), Refusal> {
        let mesh = self.held()?;
        let number = cell_below_capacity(mesh, cell)?;
        is_live(mesh, number)?;
        self.change(|live| live.retain(|cell| cell.number != number));
        Ok(())
    }

    /// "In one call take a list of edits .., result and memory as if called one
    /// by one, stopping at the first refusal; the edits before it stay." Answers
    /// "the number made and, if it stopped, the refusal". 14 comes first, "for an
    /// empty list too".
    pub fn edits(&mut self, list: &[u32], tally: &mut Tally) -> Result<usize, (Refusal, usize)> {
        let answer = self.one_by_one(list);
        tally.count(&answer);
        answer
    }

    pub(crate) fn one_by_one(&mut self, list: &[u32]) -> Result<usize, (Refusal, usize)> {
        self.held().map_err(|refusal| (refusal, 0))?;
        let mut left = list;
        let mut made = 0;
        while !left.is_empty() {
            left = self.listed_edit(left).map_err(|refusal| (refusal, made))?;
            made += 1;
        }
        Ok(made)
    }

    /// "at an edit's turn, before its other checks, 6 for a kind neither insert
    /// nor remove, then 7 for a missing number or type; missing marks are 7 in
    /// its place", and a missing licence is 7 as a missing type. Answers the words
    /// after the edit.
    fn listed_edit<'a>(&mut self, words: &'a [u32]) -> Result<&'a [u32], Refusal> {
        match words {
            [INSERT, record @ ..] => self.insert_record(record),
            [REMOVE, cell, after @ ..] => {
                self.remove(*cell)?;
                Ok(after)
            }
            [REMOVE] => Err(Refusal::CountWrong),
            _ => Err(Refusal::TypeUnknown),
        }
    }

    /// The edition: 14.
    pub fn edition(&self) -> Result<u32, Refusal> {
        Ok(self.held()?.edition)
    }

    /// The capacities, of marks and of cells: 14.
    pub fn capacities(&self) -> Result<(u32, u32), Refusal> {
        let mesh = self.held()?;
        Ok((mesh.marks, mesh.cells))
    }

    /// The smallest cell number below the capacity that is not live, if there is
    /// one: 14.
    pub fn free(&self) -> Result<Option<u32>, Refusal> {
        let mesh = self.held()?;
        let live: BTreeSet<u32> = mesh.live.iter().map(|cell| cell.number.0).collect();
        Ok((0..mesh.cells).find(|number| !live.contains(number)))
    }

    /// All live cells: 14, 12.
    pub fn live(&self, room: usize) -> Result<Vec<u32>, Refusal> {
        let cells = map::live_cells(&self.held()?.live);
        list_fits(cell_numbers(&cells), room)
    }

    /// The type code of a cell: 14, 3, 5.
    pub fn type_of(&self, cell: u32) -> Result<u32, Refusal> {
        Ok(self.queried_cell(cell)?.row.code)
    }

    /// The licence of a cell, "read back with type and marks": 14, 3, 5.
    pub fn licence(&self, cell: u32) -> Result<u32, Refusal> {
        Ok(self.queried_cell(cell)?.licence)
    }

    /// The marks of a live cell, in the order given at insertion; "where the
    /// type query refuses, that part is empty".
    pub fn marks_of(&self, cell: u32) -> Vec<u32> {
        match self.queried_cell(cell) {
            Ok(cell) => cell.marks.iter().map(|mark| mark.0).collect(),
            Err(_) => Vec::new(),
        }
    }

    /// Sibling, and which way it runs: 14, 3, 5, 13.
    pub fn sibling(&self, cell: u32, facet: u32) -> Result<(u32, Way), Refusal> {
        let half = self.queried_half_facet(cell, facet)?;
        let live = &self.held()?.live;
        Ok((map::sibling(live, &half).number(), map::way(live, &half)))
    }

    /// Whole cycle from a half-facet, each entry with the way its own sibling,
    /// the next one, runs: 14, 3, 5, 13, 12. It is given as two lists, and 12 is
    /// for either.
    pub fn cycle(
        &self,
        cell: u32,
        facet: u32,
        room: usize,
        ways_room: usize,
    ) -> Result<Vec<(u32, Way)>, Refusal> {
        let half = self.queried_half_facet(cell, facet)?;
        let live = &self.held()?.live;
        let cycle = map::cycle(live, &half);
        let with_way = |half: &HalfFacet| (half.number(), map::way(live, half));
        list_fits(cycle.iter().map(with_way).collect(), room.min(ways_room))
    }

    /// Border or not: 14, 3, 5, 13.
    pub fn border(&self, cell: u32, facet: u32) -> Result<bool, Refusal> {
        let half = self.queried_half_facet(cell, facet)?;
        Ok(map::border(&self.held()?.live, &half))
    }

    /// Star: 14, 6, 8, 12.
    pub fn star(&self, dimension: u32, mark: u32, room: usize) -> Result<Vec<u32>, Refusal> {
        let mesh = self.held()?;
        known_dimension(dimension)?;
        let mark = mark_below_capacity(mesh, mark)?;
        let star = map::star(&mesh.live, dimension, mark);
        list_fits(cell_numbers(&star), room)
    }

    /// Anchors: 14, 6, 8, 12.
    pub fn anchors(&self, dimension: u32, mark: u32, room: usize) -> Result<Vec<u32>, Refusal> {
        let mesh = self.held()?;
        known_dimension(dimension)?;
        let mark = mark_below_capacity(mesh, mark)?;
        let anchors = map::anchors(&mesh.live, dimension, mark);
        list_fits(half_facet_numbers(&anchors), room)
    }

    /// First anchor: 14, 6, 8.
    pub fn first_anchor(&self, dimension: u32, mark: u32) -> Result<Option<u32>, Refusal> {
        let mesh = self.held()?;
        known_dimension(dimension)?;
        let mark = mark_below_capacity(mesh, mark)?;
        let first = map::first_anchor(&mesh.live, dimension, mark);
        Ok(first.map(|half| half.number()))
    }

    /// Neighbours: 14, 3, 5, 12.
    pub fn neighbours(&self, cell: u32, room: usize) -> Result<Vec<u32>, Refusal> {
        let cell = self.queried_cell(cell)?;
        let neighbours = map::neighbours(&self.held()?.live, cell);
        list_fits(cell_numbers(&neighbours), room)
    }

    /// Lookup by mark set: 14, 7, 8, 9.
    pub fn lookup(&self, set: &[u32]) -> Result<Option<u32>, Refusal> {
        let mesh = self.held()?;
        count_for_lookup(set)?;
        let set = marks_below_capacity(mesh, set)?;
        each_once(&set)?;
        Ok(map::lookup(&mesh.live, &set).map(|half| half.number()))
    }

    /// The live cells of a type: 14, 6, 12.
    pub fn cells_of_type(&self, code: u32, room: usize) -> Result<Vec<u32>, Refusal> {
        let mesh = self.held()?;
        let row = known_type(code)?;
        let cells = map::cells_of_type(&mesh.live, row);
        list_fits(cell_numbers(&cells), room)
    }

    /// The count of the live cells of a type: 14, 6.
    pub fn count_of_type(&self, code: u32) -> Result<usize, Refusal> {
        let mesh = self.held()?;
        let row = known_type(code)?;
        Ok(map::cells_of_type(&mesh.live, row).len())
    }

    /// The corners of a cell as points, three numbers each: 14, 3, 5, 16, 12.
    pub fn points(
        &self,
        positions: &[i16],
        cell: u32,
        room: usize,
    ) -> Result<Vec<Metres>, Refusal> {
        let cell = self.queried_cell(cell)?;
        positions_for_all(self.held()?, positions)?;
        let corners = positions::corners(positions, cell);
        refuse_if(room < 3 * corners.len(), Refusal::OutputShort)?;
        Ok(corners)
    }

    /// The centre of a cell, as the sums of its corners' coordinates and the
    /// count to divide them by: 14, 3, 5, 16.
    pub fn centre(&self, positions: &[i16], cell: u32) -> Result<(Metres, i64), Refusal> {
        let cell = self.queried_cell(cell)?;
        positions_for_all(self.held()?, positions)?;
        let corners = positions::corners(positions, cell);
        Ok((positions::sums(&corners), corners.len() as i64))
    }

    /// The measure of a cell: 14, 3, 5, 6, 16.
    pub fn measure(&self, positions: &[i16], cell: u32) -> Result<Measure, Refusal> {
        let cell = self.queried_cell(cell)?;
        has_measure(cell)?;
        positions_for_all(self.held()?, positions)?;
        let corners = positions::corners(positions, cell);
        positions::measure(cell.row.name, &corners).ok_or(Refusal::TypeUnknown)
    }

    /// "The whole check never refuses". Yes if memory holds a mesh, and a build
    /// from its own live cells under its edition is accepted.
    pub fn whole(&self) -> bool {
        let Ok(mesh) = self.held() else {
            return false;
        };
        let mut afresh = Memory::lent(self.words);
        let formatted = afresh.format_edition(mesh.marks, mesh.cells, mesh.edition);
        if formatted.is_err() {
            return false;
        }
        mesh.live.iter().all(|cell| {
            let marks: Vec<u32> = cell.marks.iter().map(|mark| mark.0).collect();
            afresh
                .insert_licensed(cell.number.0, cell.row.code, cell.licence, &marks)
                .is_ok()
        })
    }

    /// 14: "memory is under 16 words, or its head gives no capacities or gives
    /// ones whose room does not fit"; or gives an edition that there is not.
    pub(crate) fn held(&self) -> Result<&Mesh, Refusal> {
        self.mesh
            .as_ref()
            .filter(|mesh| room(mesh.marks, mesh.cells) <= self.words)
            .filter(|mesh| EDITIONS.contains(&mesh.edition))
            .ok_or(Refusal::NotMesh)
    }

    /// Makes an edit whose checks have all passed.
    fn change(&mut self, edit: impl FnOnce(&mut Vec<LiveCell>)) {
        if let Some(mesh) = self.mesh.as_mut() {
            edit(&mut mesh.live);
        }
    }

    /// The checks 14, 3, 5 of a query about a cell.
    fn queried_cell(&self, cell: u32) -> Result<&LiveCell, Refusal> {
        let mesh = self.held()?;
        let number = cell_below_capacity(mesh, cell)?;
        is_live(mesh, number)
    }

    /// The checks 14, 3, 5, 13 of a query about a half-facet.
    fn queried_half_facet(&self, cell: u32, facet: u32) -> Result<HalfFacet, Refusal> {
        let cell = self.queried_cell(cell)?;
        facet_below_count(cell, facet)
    }
}

impl Tally {
    /// "a stopped list adds one refused, and a count at its largest number stays
    /// there"
    fn count(&mut self, answer: &Result<usize, (Refusal, usize)>) {
        let (made, stopped) = match answer {
            Ok(made) => (*made, 0),
            Err((_, made)) => (*made, 1),
        };
        let made = u32::try_from(made).unwrap_or(u32::MAX);
        self.accepted = self.accepted.saturating_add(made);
        self.refused = self.refused.saturating_add(stopped);
    }
}

impl Walker {
    /// "After an edit a step gives the sibling as it is then, or the refusal
    /// for that half-facet": 14, 3, 5, 13. Beside it which way that runs.
    pub fn step(&self, memory: &Memory) -> Result<(Walker, Way), Refusal> {
        let cell = self.half / HALF_FACETS_A_CELL;
        let facet = self.half % HALF_FACETS_A_CELL;
        let (half, way) = memory.sibling(cell, facet)?;
        Ok((Walker { half }, way))
    }
}

/// 6: "for another edition"
fn known_edition(edition: u32) -> Result<(), Refusal> {
    refuse_if(!EDITIONS.contains(&edition), Refusal::TypeUnknown)
}

/// 1: "a capacity is above 65,535"
fn capacities_in_range(marks: u32, cells: u32) -> Result<(), Refusal> {
    let above = marks > LARGEST_CAPACITY || cells > LARGEST_CAPACITY;
    refuse_if(above, Refusal::CapacityAbove)
}

/// 2: "at format or build, memory is shorter than the room"
fn room_fits(words: usize, marks: u32, cells: u32) -> Result<(), Refusal> {
    refuse_if(words < room(marks, cells), Refusal::MemoryShort)
}

/// 3: "a cell number is not below the capacity"
fn cell_below_capacity(mesh: &Mesh, cell: u32) -> Result<Cell, Refusal> {
    refuse_if(cell >= mesh.cells, Refusal::CellOutside)?;
    Ok(Cell(cell))
}

/// 4: "insert: the number is live"
fn not_live(mesh: &Mesh, number: Cell) -> Result<(), Refusal> {
    let live = map::live_cell(&mesh.live, number).is_some();
    refuse_if(live, Refusal::CellLive)
}

/// 5: "the cell is not live"
fn is_live(mesh: &Mesh, number: Cell) -> Result<&LiveCell, Refusal> {
    map::live_cell(&mesh.live, number).ok_or(Refusal::CellNotLive)
}

/// 6: "type code not in the table"
fn known_type(code: u32) -> Result<&'static Type, Refusal> {
    type_with_code(code).ok_or(Refusal::TypeUnknown)
}

/// 6: "or dimension not 1 to 3"
fn known_dimension(dimension: u32) -> Result<(), Refusal> {
    refuse_if(!DIMENSIONS.contains(&dimension), Refusal::TypeUnknown)
}

/// 6: "for a solid without a measure"
fn has_measure(cell: &LiveCell) -> Result<(), Refusal> {
    let without = ["PYRA_5", "PENTA_6", "HEXA_8"].contains(&cell.row.name);
    refuse_if(without, Refusal::TypeUnknown)
}

/// 16: "for a position list shorter than three numbers per mark"
fn positions_for_all(mesh: &Mesh, positions: &[i16]) -> Result<(), Refusal> {
    let due = NUMBERS_A_MARK * mesh.marks as usize;
    refuse_if(positions.len() < due, Refusal::PositionsShort)
}

/// 7: "wrong count of marks for the type"
fn count_for_type(row: &Type, marks: &[u32]) -> Result<(), Refusal> {
    refuse_if(marks.len() != row.marks, Refusal::CountWrong)
}

/// 7: "or the lookup"
fn count_for_lookup(set: &[u32]) -> Result<(), Refusal> {
    refuse_if(!LOOKUP_MARKS.contains(&set.len()), Refusal::CountWrong)
}

/// 8: "a mark is not below the capacity"
fn mark_below_capacity(mesh: &Mesh, mark: u32) -> Result<Mark, Refusal> {
    refuse_if(mark >= mesh.marks, Refusal::MarkOutside)?;
    Ok(Mark(mark))
}

/// 8 over a list: "each check looks at all marks before the next check starts"
fn marks_below_capacity(mesh: &Mesh, marks: &[u32]) -> Result<Vec<Mark>, Refusal> {
    marks
        .iter()
        .map(|&mark| mark_below_capacity(mesh, mark))
        .collect()
}

/// 9: "a mark occurs twice"
fn each_once(marks: &[Mark]) -> Result<(), Refusal> {
    let twice = (1..marks.len()).any(|place| marks[..place].contains(&marks[place]));
    refuse_if(twice, Refusal::MarkTwice)
}

/// 10: "a live cell of that type has the same set of marks"
fn no_same_cell(mesh: &Mesh, row: &Type, marks: &[Mark]) -> Result<(), Refusal> {
    let of_type = map::cells_of_type(&mesh.live, row);
    let same = of_type.iter().any(|cell| map::same_set(&cell.marks, marks));
    refuse_if(same, Refusal::CellSame)
}

/// 19: "Under edition 2, an insert that would put a third solid on a face is
/// refused."
fn no_third_solid(
    mesh: &Mesh,
    number: Cell,
    row: &'static Type,
    marks: &[Mark],
) -> Result<(), Refusal> {
    let marks = marks.to_vec();
    let licence = 0;
    let faces = map::half_facets_of(&LiveCell {
        number,
        row,
        licence,
        marks,
    });
    let third = faces
        .iter()
        .any(|face| map::solids_on(&mesh.live, &face.marks).len() >= SOLIDS_AT_A_FACE);
    let limited = mesh.edition == SECOND_EDITION && row.dimension == SOLID;
    refuse_if(limited && third, Refusal::FaceFull)
}

/// 11: "one of the marks stands in 128 live cells already"
fn no_full_mark(mesh: &Mesh, marks: &[Mark]) -> Result<(), Refusal> {
    let full = marks
        .iter()
        .any(|&mark| map::cells_at(&mesh.live, mark) >= CELLS_AT_A_MARK);
    refuse_if(full, Refusal::MarkFull)
}

/// 12: "output buffer shorter than the list"
fn list_fits<T>(list: Vec<T>, room: usize) -> Result<Vec<T>, Refusal> {
    refuse_if(room < list.len(), Refusal::OutputShort)?;
    Ok(list)
}

/// 13: "local facet not below the type's count"
fn facet_below_count(cell: &LiveCell, facet: u32) -> Result<HalfFacet, Refusal> {
    map::half_facets_of(cell)
        .into_iter()
        .find(|half| half.facet == facet)
        .ok_or(Refusal::FacetOutside)
}

fn refuse_if(condition: bool, refusal: Refusal) -> Result<(), Refusal> {
    if condition {
        Err(refusal)
    } else {
        Ok(())
    }
}

fn cell_numbers(cells: &[&LiveCell]) -> Vec<u32> {
    cells.iter().map(|cell| cell.number.0).collect()
}

fn half_facet_numbers(half_facets: &[HalfFacet]) -> Vec<u32> {
    half_facets.iter().map(HalfFacet::number).collect()
}

//! The complaint matcher's map for Rust.
//!
//! A [`Mesh`] holds survey marks joined by bars, triangles, quads, tetrahedra,
//! pyramids, wedges and bricks in words that you own or lend. The
//! [star](Mesh::star) of a mark lists every cell around it: none missing, none
//! extra. A complaint names a mark and a day; a [`Journal`] names the
//! [licences](Journal::licences) of the cells that were around the mark then.
//!
//! ```
//! use mengkiloh::{Cell, Mark, Mesh, Type};
//!
//! # fn main() -> Result<(), mengkiloh::Refusal> {
//! let mut map = Mesh::with_room(6, 4)?;
//! map.insert(Cell(0), Type::Triangle, &[0, 1, 2].map(Mark))?;
//! map.insert(Cell(1), Type::Triangle, &[2, 1, 3].map(Mark))?;
//! assert_eq!(map.star(2, Mark(1))?, [0, 1].map(Cell));
//! map.remove(Cell(0))?;
//! assert_eq!(map.star(2, Mark(1))?, [Cell(1)]);
//! # Ok(())
//! # }
//! ```
//!
//! A [`Mark`], a [`Cell`], a [`Half`] (a half-facet) and a [`Licence`] are numbers
//! of four registers: a cell's number where a mark's is due does not compile.
//!
//! ```compile_fail,E0308
//! # use mengkiloh::{Cell, Mark, Mesh};
//! # let map = Mesh::with_room(6, 4).unwrap();
//! let (mark, cell) = (Mark(1), Cell(0));
//! let around = map.star(2, cell);
//! ```
//!
//! ```
//! # use mengkiloh::{Cell, Mark, Mesh};
//! # let map = Mesh::with_room(6, 4).unwrap();
//! let (mark, cell) = (Mark(1), Cell(0));
//! let around = map.star(2, mark);
//! ```
//!
//! Every call is one of the proved library's, which this crate links; it adds
//! no rule of its own. A call that is refused changes nothing and gives the
//! [`Refusal`] with its number; a build refused at a record leaves a mesh with no
//! cell, a list of [`Edits`] that is stopped leaves those before, and licences
//! that the list has no room for leave that day's mesh. A [`Journal`] keeps each
//! edit with its day and gives the map on any of them. A [`Surface`] is read from
//! OFF text and written as such. A list of [`Edits`] is [checked](Mesh::check_plan)
//! against a wanted list of cells before it is made, and [planned](Mesh::plan).

#![warn(clippy::missing_errors_doc)]

mod calls;
mod journal;
mod lines;
mod lists;
mod numbers;
mod plan;
mod records;
mod refusal;
mod surfaces;

/// What the repository's README shows of Rust is run.
#[cfg(doctest)]
#[doc = include_str!("../../README.md")]
struct Readme;

use std::fmt;

pub use journal::{journal_words, Journal};
pub use lines::Lines;
pub use lists::{Live, Walk};
use numbers::Register;
pub use numbers::{Cell, Half, Licence, Mark, Way};
pub use plan::PlanRefused;
pub use records::{Edits, Records, Tally};
pub use refusal::Refusal;
pub use surfaces::{off_room, OffError, OffRefused, Surface};

/// "Capacities: 0 to 65,535 marks and 0 to 65,535 cells."
const MOST_CAPACITY: u32 = 65_535;

/// "A mark may stand in at most 128 live cells": no star, no anchors and no
/// cycle are longer.
const MOST_AROUND: usize = 128;

/// A cell has at most so many neighbours: 127 across each of 6 facets.
const MOST_NEIGHBOURS: usize = 6 * (MOST_AROUND - 1);

/// No cell has more corners.
const MOST_CORNERS: usize = 8;

/// The words that a mesh of these capacities needs.
pub const fn room(marks: u32, cells: u32) -> usize {
    16 + 8 * marks as usize + 32 * cells as usize
}

/// The version of the proved library: major, minor and patch, a byte each.
pub fn version() -> u32 {
    // SAFETY: nothing is lent
    unsafe { calls::mk_version() }
}

/// The types of cells, with their codes.
#[derive(Clone, Copy, Debug, PartialEq, Eq, PartialOrd, Ord, Hash)]
pub enum Type {
    Bar = 1,
    Triangle = 2,
    Quad = 3,
    Tetrahedron = 4,
    Pyramid = 5,
    Wedge = 6,
    Brick = 7,
}

impl From<Type> for u32 {
    fn from(kind: Type) -> u32 {
        kind as u32
    }
}

impl TryFrom<u32> for Type {
    type Error = u32;

    /// The type of a code; the code itself where there is none.
    fn try_from(code: u32) -> Result<Type, u32> {
        match code {
            1 => Ok(Type::Bar),
            2 => Ok(Type::Triangle),
            3 => Ok(Type::Quad),
            4 => Ok(Type::Tetrahedron),
            5 => Ok(Type::Pyramid),
            6 => Ok(Type::Wedge),
            7 => Ok(Type::Brick),
            _ => Err(code),
        }
    }
}

/// The editions of the sheet rules. Under the second a face lies between two
/// solids at most.
///
/// ```
/// # use mengkiloh::{Cell, Edition, Mark, Mesh, Refusal, Type};
/// # fn main() -> Result<(), mengkiloh::Refusal> {
/// let mut map = Mesh::with_room_edition(6, 4, Edition::Second)?;
/// map.insert(Cell(0), Type::Tetrahedron, &[0, 1, 2, 3].map(Mark))?;
/// map.insert(Cell(1), Type::Tetrahedron, &[0, 2, 1, 4].map(Mark))?;
/// let third = map.insert(Cell(2), Type::Tetrahedron, &[0, 1, 2, 5].map(Mark));
/// assert_eq!(third, Err(Refusal::FaceFull));
/// assert_eq!(Edition::try_from(map.edition()?), Ok(Edition::Second));
/// # Ok(())
/// # }
/// ```
#[derive(Clone, Copy, Debug, PartialEq, Eq, PartialOrd, Ord, Hash)]
pub enum Edition {
    First = 1,
    Second = 2,
}

impl From<Edition> for u32 {
    fn from(edition: Edition) -> u32 {
        edition as u32
    }
}

impl TryFrom<u32> for Edition {
    type Error = u32;

    /// The edition of a number; the number itself where there is none.
    fn try_from(number: u32) -> Result<Edition, u32> {
        match number {
            1 => Ok(Edition::First),
            2 => Ok(Edition::Second),
            _ => Err(number),
        }
    }
}

/// A point of three floats.
#[derive(Clone, Copy, Debug, Default, PartialEq)]
pub struct Point {
    pub x: f64,
    pub y: f64,
    pub z: f64,
}

/// A cell's measure, whose kind follows its type: the float equal to the
/// whole-number formula, without rounding.
///
/// ```
/// # use mengkiloh::{Cell, Mark, Measure, Mesh, Point, Refusal, Type};
/// # fn main() -> Result<(), mengkiloh::Refusal> {
/// let mut map = Mesh::with_room(4, 2)?;
/// map.insert(Cell(0), Type::Triangle, &[0, 1, 2].map(Mark))?;
/// let positions = [0, 0, 0, 4, 0, 0, 0, 3, 1, 9, 9, 9];
/// assert_eq!(map.measure(&positions, Cell(0))?, Measure::DoubledArea(12.0));
/// assert_eq!(map.points(&positions, Cell(0))?[1], Point { x: 4.0, y: 0.0, z: 0.0 });
/// assert_eq!(map.centre(&positions, Cell(0))?.y, 1.0);
/// let short = map.centre(&positions[..11], Cell(0));
/// assert_eq!(short, Err(Refusal::PositionsShort));
/// # Ok(())
/// # }
/// ```
#[derive(Clone, Copy, Debug, PartialEq)]
pub enum Measure {
    /// Of a bar.
    SquaredLength(f64),
    /// Of a triangle or a quad: signed, in the plan.
    DoubledArea(f64),
    /// Of a tetrahedron: signed.
    SixfoldVolume(f64),
}

/// A walker over one sibling cycle: its place.
///
/// ```
/// # use mengkiloh::{Cell, Half, Mark, Mesh, Type, Walker, Way};
/// # fn main() -> Result<(), mengkiloh::Refusal> {
/// let mut map = Mesh::with_room(6, 4)?;
/// map.insert(Cell(0), Type::Triangle, &[0, 1, 2].map(Mark))?;
/// map.insert(Cell(1), Type::Triangle, &[2, 1, 3].map(Mark))?;
/// let start = Walker(Half::of(Cell(0), 1));
/// let (next, way) = start.step(&map)?;
/// assert_eq!(next, Walker(Half::of(Cell(1), 0)));
/// assert_eq!(way, Way::Opposite);
/// assert_eq!(next.step(&map)?, (start, Way::Opposite));
/// # Ok(())
/// # }
/// ```
#[derive(Clone, Copy, Debug, PartialEq, Eq)]
pub struct Walker(pub Half);

impl Walker {
    /// The next place of the cycle as it is now, and which way it runs; or the
    /// refusal for the walker's half-facet.
    ///
    /// # Errors
    ///
    /// [`Refusal::NotMesh`], [`Refusal::CellOutside`],
    /// [`Refusal::CellNotLive`], [`Refusal::FacetOutside`]. The first that
    /// fits, in this order.
    pub fn step<W: AsRef<[u32]>>(self, mesh: &Mesh<W>) -> Result<(Walker, Way), Refusal> {
        let Walker(half) = self;
        let (half, way) = mesh.sibling(half.cell(), half.facet())?;
        Ok((Walker(half), way))
    }
}

/// A build that was refused: why, and at which record (from 0).
#[derive(Clone, Copy, Debug, PartialEq, Eq)]
pub struct BuildRefused {
    pub refusal: Refusal,
    pub record: u32,
}

impl fmt::Display for BuildRefused {
    fn fmt(&self, to: &mut fmt::Formatter<'_>) -> fmt::Result {
        write!(to, "record {}: {}", self.record, self.refusal)
    }
}

impl std::error::Error for BuildRefused {}

/// A list of edits that was stopped: why, and how many were made before.
#[derive(Clone, Copy, Debug, PartialEq, Eq)]
pub struct EditsStopped {
    pub refusal: Refusal,
    pub made: usize,
}

impl fmt::Display for EditsStopped {
    fn fmt(&self, to: &mut fmt::Formatter<'_>) -> fmt::Result {
        write!(to, "after {} edits: {}", self.made, self.refusal)
    }
}

impl std::error::Error for EditsStopped {}

/// A mesh over words: a `Vec<u32>` or [`Lines`] of its own, or `&mut [u32]` or
/// `&[u32]` that are lent to it.
#[derive(Clone, Debug)]
pub struct Mesh<W> {
    words: W,
}

impl Mesh<Vec<u32>> {
    /// A mesh of these capacities with no cell, in words of its own, under
    /// edition 1.
    ///
    /// # Errors
    ///
    /// [`Refusal::CapacityAbove`].
    pub fn with_room(marks: u32, cells: u32) -> Result<Mesh<Vec<u32>>, Refusal> {
        Mesh::with_room_edition(marks, cells, Edition::First)
    }

    /// The same under an edition.
    ///
    /// # Errors
    ///
    /// [`Refusal::TypeUnknown`] for an edition that is none,
    /// [`Refusal::CapacityAbove`]. The first that fits, in this order.
    pub fn with_room_edition(
        marks: u32,
        cells: u32,
        edition: impl Into<u32>,
    ) -> Result<Mesh<Vec<u32>>, Refusal> {
        let mut mesh = Mesh::over(Vec::new());
        if marks <= MOST_CAPACITY && cells <= MOST_CAPACITY {
            mesh.words.resize(room(marks, cells), 0);
        }
        mesh.format_edition(marks, cells, edition)?;
        Ok(mesh)
    }
}

impl<W> Mesh<W> {
    /// The mesh in these words, whatever stands in them: words that are no mesh
    /// are refused with 14 by each call but formats and builds.
    pub fn over(words: W) -> Mesh<W> {
        Mesh { words }
    }

    /// The words back.
    pub fn into_words(self) -> W {
        self.words
    }
}

impl<W: AsMut<[u32]>> Mesh<W> {
    /// Makes the words a mesh of these capacities with no cell, under edition 1.
    ///
    /// # Errors
    ///
    /// [`Refusal::CapacityAbove`], [`Refusal::MemoryShort`]. The first that
    /// fits, in this order.
    pub fn format(&mut self, marks: u32, cells: u32) -> Result<(), Refusal> {
        let words = self.words.as_mut();
        // SAFETY: the pointer and the count are those of one slice, which is
        // lent to this call alone.
        Refusal::from_number(unsafe {
            calls::mk_format(words.as_mut_ptr(), words.len(), marks, cells)
        })
    }

    /// The same under an edition, which the mesh keeps.
    ///
    /// # Errors
    ///
    /// [`Refusal::TypeUnknown`] for an edition that is none,
    /// [`Refusal::CapacityAbove`], [`Refusal::MemoryShort`]. The first that
    /// fits, in this order.
    pub fn format_edition(
        &mut self,
        marks: u32,
        cells: u32,
        edition: impl Into<u32>,
    ) -> Result<(), Refusal> {
        let edition = edition.into();
        let words = self.words.as_mut();
        // SAFETY: as in `format`.
        Refusal::from_number(unsafe {
            calls::mk_format_edition(words.as_mut_ptr(), words.len(), marks, cells, edition)
        })
    }

    /// Formats under edition 1 and inserts each record in order. A build refused
    /// at a record leaves a mesh with no cell.
    ///
    /// # Errors
    ///
    /// As [`format`](Mesh::format), with record 0, and at a record as
    /// [`insert`](Mesh::insert), or [`Refusal::CountWrong`] where it is cut short.
    pub fn build(&mut self, marks: u32, cells: u32, records: &Records) -> Result<(), BuildRefused> {
        let records = records.words();
        let words = self.words.as_mut();
        let mut record = 0;
        // SAFETY: each pointer and count are those of one slice; the words and
        // the place are lent to this call alone.
        Refusal::from_number(unsafe {
            calls::mk_build(
                words.as_mut_ptr(),
                words.len(),
                marks,
                cells,
                records.as_ptr(),
                records.len(),
                &mut record,
            )
        })
        .map_err(|refusal| BuildRefused { refusal, record })
    }

    /// The same under an edition, which the mesh keeps.
    ///
    /// # Errors
    ///
    /// As [`format_edition`](Mesh::format_edition), with record 0, and at a record
    /// as [`insert`](Mesh::insert), or [`Refusal::CountWrong`] where it is cut short.
    pub fn build_edition(
        &mut self,
        marks: u32,
        cells: u32,
        edition: impl Into<u32>,
        records: &Records,
    ) -> Result<(), BuildRefused> {
        let edition = edition.into();
        let records = records.words();
        let words = self.words.as_mut();
        let mut record = 0;
        // SAFETY: as in `build`.
        Refusal::from_number(unsafe {
            calls::mk_build_edition(
                words.as_mut_ptr(),
                words.len(),
                marks,
                cells,
                edition,
                records.as_ptr(),
                records.len(),
                &mut record,
            )
        })
        .map_err(|refusal| BuildRefused { refusal, record })
    }

    /// Inserts a cell under a number of the caller's, without a licence: it is 0.
    ///
    /// # Errors
    ///
    /// [`Refusal::NotMesh`], [`Refusal::CellOutside`], [`Refusal::CellLive`],
    /// [`Refusal::TypeUnknown`], [`Refusal::CountWrong`],
    /// [`Refusal::MarkOutside`], [`Refusal::MarkTwice`], [`Refusal::CellSame`],
    /// [`Refusal::FaceFull`] under edition 2, [`Refusal::MarkFull`]. The first
    /// that fits, in this order.
    pub fn insert(
        &mut self,
        cell: Cell,
        code: impl Into<u32>,
        marks: &[Mark],
    ) -> Result<(), Refusal> {
        let code = code.into();
        let marks = numbers::words(marks);
        let words = self.words.as_mut();
        // SAFETY: as in `build`.
        Refusal::from_number(unsafe {
            calls::mk_insert(
                words.as_mut_ptr(),
                words.len(),
                cell.0,
                code,
                marks.as_ptr(),
                marks.len(),
            )
        })
    }

    /// Inserts a cell with a licence, any number; no check looks at it.
    ///
    /// # Errors
    ///
    /// As [`insert`](Mesh::insert).
    pub fn insert_licensed(
        &mut self,
        cell: Cell,
        code: impl Into<u32>,
        licence: Licence,
        marks: &[Mark],
    ) -> Result<(), Refusal> {
        let code = code.into();
        let marks = numbers::words(marks);
        let words = self.words.as_mut();
        // SAFETY: as in `build`.
        Refusal::from_number(unsafe {
            calls::mk_insert_licensed(
                words.as_mut_ptr(),
                words.len(),
                cell.0,
                code,
                licence.0,
                marks.as_ptr(),
                marks.len(),
            )
        })
    }

    /// Removes a cell.
    ///
    /// # Errors
    ///
    /// [`Refusal::NotMesh`], [`Refusal::CellOutside`],
    /// [`Refusal::CellNotLive`]. The first that fits, in this order.
    pub fn remove(&mut self, cell: Cell) -> Result<(), Refusal> {
        let words = self.words.as_mut();
        // SAFETY: as in `format`.
        Refusal::from_number(unsafe { calls::mk_remove(words.as_mut_ptr(), words.len(), cell.0) })
    }

    /// Makes the edits in order up to the first that is refused; those before it
    /// stay. How many were made; the tally counts them, and one refused where
    /// the list was stopped.
    ///
    /// # Errors
    ///
    /// [`Refusal::NotMesh`] with none made. At an edit's turn as
    /// [`insert`](Mesh::insert) or [`remove`](Mesh::remove), or
    /// [`Refusal::TypeUnknown`] for another kind and [`Refusal::CountWrong`] where it
    /// is cut short.
    pub fn edits(&mut self, edits: &Edits, tally: &mut Tally) -> Result<usize, EditsStopped> {
        let edits = edits.words();
        let words = self.words.as_mut();
        let mut counts = [tally.accepted, tally.refused];
        let mut made = 0;
        // SAFETY: each pointer and count are those of one slice, the tally's of
        // two words; what is written is lent to this call alone.
        let answer = Refusal::from_number(unsafe {
            calls::mk_edits(
                words.as_mut_ptr(),
                words.len(),
                edits.as_ptr(),
                edits.len(),
                counts.as_mut_ptr(),
                &mut made,
            )
        });
        [tally.accepted, tally.refused] = counts;
        match answer {
            Ok(()) => Ok(made),
            Err(refusal) => Err(EditsStopped { refusal, made }),
        }
    }
}

impl<W: AsRef<[u32]>> Mesh<W> {
    /// The words as they stand.
    pub fn words(&self) -> &[u32] {
        self.words.as_ref()
    }

    /// The number of the edition that the mesh was formatted or built under.
    ///
    /// # Errors
    ///
    /// [`Refusal::NotMesh`].
    pub fn edition(&self) -> Result<u32, Refusal> {
        // SAFETY: here and in the other queries, each pointer and count are
        // those of one slice, and what is written is lent to the call alone.
        one_number(self.words(), |words, n, edition| unsafe {
            calls::mk_edition(words, n, edition)
        })
    }

    /// The capacities that the mesh was formatted or built for: marks, cells.
    ///
    /// # Errors
    ///
    /// [`Refusal::NotMesh`].
    pub fn capacities(&self) -> Result<(u32, u32), Refusal> {
        let mut cells = 0;
        let marks = one_number(self.words(), |words, n, marks| unsafe {
            calls::mk_capacities(words, n, marks, &mut cells)
        })?;
        Ok((marks, cells))
    }

    /// The smallest cell number that is not live, if there is one: what an
    /// insert may take.
    ///
    /// ```
    /// # use mengkiloh::{Cell, Mark, Mesh, Type};
    /// # fn main() -> Result<(), mengkiloh::Refusal> {
    /// let mut map = Mesh::with_room(6, 2)?;
    /// map.insert(Cell(0), Type::Bar, &[0, 1].map(Mark))?;
    /// assert_eq!(map.free()?, Some(Cell(1)));
    /// map.insert(Cell(1), Type::Bar, &[1, 2].map(Mark))?;
    /// assert_eq!(map.free()?, None);
    /// assert_eq!(map.live()?, [0, 1].map(Cell));
    /// # Ok(())
    /// # }
    /// ```
    ///
    /// # Errors
    ///
    /// [`Refusal::NotMesh`].
    pub fn free(&self) -> Result<Option<Cell>, Refusal> {
        let mut cell = 0;
        let found = one_number(self.words(), |words, n, found| unsafe {
            calls::mk_free(words, n, found, &mut cell)
        })?;
        Ok((found == 1).then_some(Cell(cell)))
    }

    /// The type of a cell. Words that are no well-formed mesh may have another
    /// code there: 14 too.
    ///
    /// # Errors
    ///
    /// [`Refusal::NotMesh`], [`Refusal::CellOutside`],
    /// [`Refusal::CellNotLive`]. The first that fits, in this order.
    pub fn type_of(&self, cell: Cell) -> Result<Type, Refusal> {
        let code = one_number(self.words(), |words, n, code| unsafe {
            calls::mk_type(words, n, cell.0, code)
        })?;
        Type::try_from(code).map_err(|_| Refusal::NotMesh)
    }

    /// A cell's licence, as it was given; 0 if it was inserted without one.
    ///
    /// # Errors
    ///
    /// [`Refusal::NotMesh`], [`Refusal::CellOutside`], [`Refusal::CellNotLive`]. The
    /// first that fits, in this order.
    pub fn licence(&self, cell: Cell) -> Result<Licence, Refusal> {
        one_number(self.words(), |words, n, licence| unsafe {
            calls::mk_licence(words, n, cell.0, licence)
        })
        .map(Licence)
    }

    /// The marks of a cell: the very words of the mesh that store them.
    ///
    /// # Errors
    ///
    /// [`Refusal::NotMesh`], [`Refusal::CellOutside`],
    /// [`Refusal::CellNotLive`]. The first that fits, in this order.
    pub fn marks_of(&self, cell: Cell) -> Result<&[Mark], Refusal> {
        marks_in(self.words(), cell)
    }

    /// The next half-facet with the same set of marks, and which way it runs.
    ///
    /// # Errors
    ///
    /// [`Refusal::NotMesh`], [`Refusal::CellOutside`],
    /// [`Refusal::CellNotLive`], [`Refusal::FacetOutside`]. The first that
    /// fits, in this order.
    pub fn sibling(&self, cell: Cell, facet: u32) -> Result<(Half, Way), Refusal> {
        let mut way = 0;
        let half = one_number(self.words(), |words, n, half| unsafe {
            calls::mk_sibling(words, n, cell.0, facet, half, &mut way)
        })?;
        Ok((Half(half), Way::of_word(way)))
    }

    /// Whether a half-facet is alone in its set.
    ///
    /// # Errors
    ///
    /// [`Refusal::NotMesh`], [`Refusal::CellOutside`],
    /// [`Refusal::CellNotLive`], [`Refusal::FacetOutside`]. The first that
    /// fits, in this order.
    pub fn border(&self, cell: Cell, facet: u32) -> Result<bool, Refusal> {
        one_number(self.words(), |words, n, yes| unsafe {
            calls::mk_border(words, n, cell.0, facet, yes)
        })
        .map(|yes| yes == 1)
    }

    /// The first anchor of a mark in a dimension, if there is one.
    ///
    /// # Errors
    ///
    /// [`Refusal::NotMesh`], [`Refusal::TypeUnknown`] for a dimension that is
    /// not 1 to 3, [`Refusal::MarkOutside`]. The first that fits, in this
    /// order.
    pub fn first_anchor(&self, dimension: u32, mark: Mark) -> Result<Option<Half>, Refusal> {
        let mut half = 0;
        let found = one_number(self.words(), |words, n, found| unsafe {
            calls::mk_first_anchor(words, n, dimension, mark.0, found, &mut half)
        })?;
        Ok((found == 1).then_some(Half(half)))
    }

    /// The smallest half-facet with this set of 1 to 4 marks, if there is one.
    ///
    /// # Errors
    ///
    /// [`Refusal::NotMesh`], [`Refusal::CountWrong`], [`Refusal::MarkOutside`],
    /// [`Refusal::MarkTwice`]. The first that fits, in this order.
    pub fn lookup(&self, set: &[Mark]) -> Result<Option<Half>, Refusal> {
        let set = numbers::words(set);
        let mut half = 0;
        let found = one_number(self.words(), |words, n, found| unsafe {
            calls::mk_lookup(words, n, set.as_ptr(), set.len(), found, &mut half)
        })?;
        Ok((found == 1).then_some(Half(half)))
    }

    /// How many live cells a type has, as the head says it.
    ///
    /// # Errors
    ///
    /// [`Refusal::NotMesh`], [`Refusal::TypeUnknown`]. The first that fits, in
    /// this order.
    pub fn count(&self, code: impl Into<u32>) -> Result<u32, Refusal> {
        let code = code.into();
        one_number(self.words(), |words, n, count| unsafe {
            calls::mk_count(words, n, code, count)
        })
    }

    /// The corners of a cell as points. Positions are three whole metres for
    /// each mark of the capacity.
    ///
    /// # Errors
    ///
    /// [`Refusal::NotMesh`], [`Refusal::CellOutside`],
    /// [`Refusal::CellNotLive`], [`Refusal::PositionsShort`]. The first that
    /// fits, in this order.
    pub fn points(&self, positions: &[i16], cell: Cell) -> Result<Vec<Point>, Refusal> {
        let mut floats = [0.0; 3 * MOST_CORNERS];
        let count = self.points_into(positions, cell, &mut floats)?;
        let point = |at: &[f64]| Point {
            x: at[0],
            y: at[1],
            z: at[2],
        };
        Ok(floats[..3 * count].chunks(3).map(point).collect())
    }

    /// The corners in the first places of `out`, three floats each; how many
    /// corners they are.
    ///
    /// # Errors
    ///
    /// [`Refusal::NotMesh`], [`Refusal::CellOutside`],
    /// [`Refusal::CellNotLive`], [`Refusal::PositionsShort`],
    /// [`Refusal::OutputShort`]. The first that fits, in this order.
    pub fn points_into(
        &self,
        positions: &[i16],
        cell: Cell,
        out: &mut [f64],
    ) -> Result<usize, Refusal> {
        let (at, numbers) = (positions.as_ptr(), positions.len());
        let (out, room) = (out.as_mut_ptr(), out.len());
        one_number(self.words(), |words, n, corners| unsafe {
            calls::mk_points(words, n, at, numbers, cell.0, out, room, corners)
        })
        .map(|corners| corners as usize)
    }

    /// The centre of a cell: each coordinate's exact sum, divided once by the
    /// count of corners.
    ///
    /// # Errors
    ///
    /// [`Refusal::NotMesh`], [`Refusal::CellOutside`],
    /// [`Refusal::CellNotLive`], [`Refusal::PositionsShort`]. The first that
    /// fits, in this order.
    pub fn centre(&self, positions: &[i16], cell: Cell) -> Result<Point, Refusal> {
        let (at, numbers) = (positions.as_ptr(), positions.len());
        let words = self.words();
        let mut point = Point::default();
        let Point { x, y, z } = &mut point;
        Refusal::from_number(unsafe {
            calls::mk_centre(words.as_ptr(), words.len(), at, numbers, cell.0, x, y, z)
        })?;
        Ok(point)
    }

    /// The measure of a cell; a pyramid, a wedge and a brick have none.
    ///
    /// # Errors
    ///
    /// [`Refusal::NotMesh`], [`Refusal::CellOutside`],
    /// [`Refusal::CellNotLive`], [`Refusal::TypeUnknown`] for a pyramid, a
    /// wedge or a brick, [`Refusal::PositionsShort`]. The first that fits, in
    /// this order.
    pub fn measure(&self, positions: &[i16], cell: Cell) -> Result<Measure, Refusal> {
        let (at, numbers) = (positions.as_ptr(), positions.len());
        let mut size = 0.0;
        let kind = one_number(self.words(), |words, n, kind| unsafe {
            calls::mk_measure(words, n, at, numbers, cell.0, kind, &mut size)
        })?;
        Ok(match kind {
            1 => Measure::SquaredLength(size),
            2 => Measure::DoubledArea(size),
            _ => Measure::SixfoldVolume(size),
        })
    }

    /// Whether the words are a well-formed mesh.
    pub fn whole(&self) -> bool {
        let words = self.words();
        unsafe { calls::mk_whole(words.as_ptr(), words.len()) == 1 }
    }

    /// The cells of a dimension that hold a mark, ascending.
    ///
    /// # Errors
    ///
    /// [`Refusal::NotMesh`], [`Refusal::TypeUnknown`] for a dimension that is
    /// not 1 to 3, [`Refusal::MarkOutside`]. The first that fits, in this
    /// order.
    pub fn star(&self, dimension: u32, mark: Mark) -> Result<Vec<Cell>, Refusal> {
        listed(MOST_AROUND, |out| self.star_into(dimension, mark, out))
    }

    /// The star in the first places of `out`; how many they are.
    ///
    /// # Errors
    ///
    /// [`Refusal::NotMesh`], [`Refusal::TypeUnknown`] for a dimension that is
    /// not 1 to 3, [`Refusal::MarkOutside`], [`Refusal::OutputShort`]. The
    /// first that fits, in this order.
    pub fn star_into(
        &self,
        dimension: u32,
        mark: Mark,
        out: &mut [Cell],
    ) -> Result<usize, Refusal> {
        one_list(self.words(), out, |words, n, out, room, count| unsafe {
            calls::mk_star(words, n, dimension, mark.0, out, room, count)
        })
    }

    /// The anchors of a mark in a dimension, ascending.
    ///
    /// # Errors
    ///
    /// [`Refusal::NotMesh`], [`Refusal::TypeUnknown`] for a dimension that is
    /// not 1 to 3, [`Refusal::MarkOutside`]. The first that fits, in this
    /// order.
    pub fn anchors(&self, dimension: u32, mark: Mark) -> Result<Vec<Half>, Refusal> {
        listed(MOST_AROUND, |out| self.anchors_into(dimension, mark, out))
    }

    /// The anchors in the first places of `out`; how many they are.
    ///
    /// # Errors
    ///
    /// [`Refusal::NotMesh`], [`Refusal::TypeUnknown`] for a dimension that is
    /// not 1 to 3, [`Refusal::MarkOutside`], [`Refusal::OutputShort`]. The
    /// first that fits, in this order.
    pub fn anchors_into(
        &self,
        dimension: u32,
        mark: Mark,
        out: &mut [Half],
    ) -> Result<usize, Refusal> {
        one_list(self.words(), out, |words, n, out, room, count| unsafe {
            calls::mk_anchors(words, n, dimension, mark.0, out, room, count)
        })
    }

    /// The whole cycle of a half-facet, itself first, each with the way in which
    /// its own sibling, the next one, runs.
    ///
    /// # Errors
    ///
    /// [`Refusal::NotMesh`], [`Refusal::CellOutside`],
    /// [`Refusal::CellNotLive`], [`Refusal::FacetOutside`]. The first that
    /// fits, in this order.
    pub fn cycle(&self, cell: Cell, facet: u32) -> Result<Vec<(Half, Way)>, Refusal> {
        let mut ways = [0; MOST_AROUND];
        let halves = listed(MOST_AROUND, |out| {
            self.cycle_into(cell, facet, out, &mut ways)
        })?;
        let ways = ways.into_iter().map(Way::of_word);
        Ok(halves.into_iter().zip(ways).collect())
    }

    /// The cycle in the first places of `out` and the words of its ways in those
    /// of `ways`; how many they are.
    ///
    /// # Errors
    ///
    /// [`Refusal::NotMesh`], [`Refusal::CellOutside`],
    /// [`Refusal::CellNotLive`], [`Refusal::FacetOutside`],
    /// [`Refusal::OutputShort`]. The first that fits, in this order.
    pub fn cycle_into(
        &self,
        cell: Cell,
        facet: u32,
        out: &mut [Half],
        ways: &mut [u32],
    ) -> Result<usize, Refusal> {
        let (at, ways_room) = (ways.as_mut_ptr(), ways.len());
        one_list(self.words(), out, |words, n, out, room, count| unsafe {
            calls::mk_cycle(words, n, cell.0, facet, out, room, at, ways_room, count)
        })
    }

    /// The other cells that share a facet with a cell, ascending.
    ///
    /// # Errors
    ///
    /// [`Refusal::NotMesh`], [`Refusal::CellOutside`],
    /// [`Refusal::CellNotLive`]. The first that fits, in this order.
    pub fn neighbours(&self, cell: Cell) -> Result<Vec<Cell>, Refusal> {
        listed(MOST_NEIGHBOURS, |out| self.neighbours_into(cell, out))
    }

    /// The neighbours in the first places of `out`; how many they are.
    ///
    /// # Errors
    ///
    /// [`Refusal::NotMesh`], [`Refusal::CellOutside`],
    /// [`Refusal::CellNotLive`], [`Refusal::OutputShort`]. The first that fits,
    /// in this order.
    pub fn neighbours_into(&self, cell: Cell, out: &mut [Cell]) -> Result<usize, Refusal> {
        one_list(self.words(), out, |words, n, out, room, count| unsafe {
            calls::mk_neighbours(words, n, cell.0, out, room, count)
        })
    }

    /// All live cells, ascending.
    ///
    /// # Errors
    ///
    /// [`Refusal::NotMesh`].
    pub fn live(&self) -> Result<Vec<Cell>, Refusal> {
        let (_, cells) = self.capacities()?;
        listed(cells as usize, |out| self.live_into(out))
    }

    /// The live cells in the first places of `out`; how many they are.
    ///
    /// # Errors
    ///
    /// [`Refusal::NotMesh`], [`Refusal::OutputShort`]. The first that fits, in this
    /// order.
    pub fn live_into(&self, out: &mut [Cell]) -> Result<usize, Refusal> {
        one_list(self.words(), out, |words, n, out, room, count| unsafe {
            calls::mk_live(words, n, out, room, count)
        })
    }

    /// The live cells of a type, ascending. Memory whose head counts more of
    /// them than it has room for is no well-formed mesh; the refusal is then
    /// [`Refusal::OutputShort`].
    ///
    /// # Errors
    ///
    /// [`Refusal::NotMesh`], [`Refusal::TypeUnknown`]. The first that fits, in
    /// this order.
    pub fn cells(&self, code: impl Into<u32>) -> Result<Vec<Cell>, Refusal> {
        let code = code.into();
        let words = self.words();
        let count = one_number(words, |words, n, count| unsafe {
            calls::mk_count(words, n, code, count)
        })?;
        // the count is a number that stands in memory, and may be any
        listed(most_cells(words).min(count as usize), |out| {
            cells_into(words, code, out)
        })
    }

    /// The cells of a type in the first places of `out`; how many they are.
    ///
    /// # Errors
    ///
    /// [`Refusal::NotMesh`], [`Refusal::TypeUnknown`],
    /// [`Refusal::OutputShort`]. The first that fits, in this order.
    pub fn cells_into(&self, code: impl Into<u32>, out: &mut [Cell]) -> Result<usize, Refusal> {
        let code = code.into();
        cells_into(self.words(), code, out)
    }
}

fn marks_in(words: &[u32], cell: Cell) -> Result<&[Mark], Refusal> {
    let mut count = 0;
    let at = one_number(words, |words, n, at| unsafe {
        calls::mk_marks(words, n, cell.0, at, &mut count)
    })?;
    Ok(numbers::numbers(&words[at as usize..][..count as usize]))
}

fn cells_into(words: &[u32], code: u32, out: &mut [Cell]) -> Result<usize, Refusal> {
    one_list(words, out, |words, n, out, room, count| unsafe {
        calls::mk_cells(words, n, code, out, room, count)
    })
}

/// A mesh in these words has at most so many cells: the capacity that its head
/// gives, and never more than 65,535.
fn most_cells(words: &[u32]) -> usize {
    words
        .get(2)
        .map_or(0, |&cells| cells.min(MOST_CAPACITY) as usize)
}

/// A call that gives one number.
fn one_number(
    words: &[u32],
    call: impl FnOnce(*const u32, usize, &mut u32) -> u8,
) -> Result<u32, Refusal> {
    let mut given = 0;
    Refusal::from_number(call(words.as_ptr(), words.len(), &mut given))?;
    Ok(given)
}

/// A call that gives a list in the first places of `out`.
fn one_list<T: Register>(
    words: &[u32],
    out: &mut [T],
    call: impl FnOnce(*const u32, usize, *mut u32, usize, &mut u32) -> u8,
) -> Result<usize, Refusal> {
    let out = numbers::words_mut(out);
    one_number(words, |words, n, count| {
        call(words, n, out.as_mut_ptr(), out.len(), count)
    })
    .map(|count| count as usize)
}

/// A list of at most so many numbers.
fn listed<T: Register>(
    most: usize,
    fill: impl FnOnce(&mut [T]) -> Result<usize, Refusal>,
) -> Result<Vec<T>, Refusal> {
    let mut list = vec![T::default(); most];
    let count = fill(&mut list)?;
    list.truncate(count);
    Ok(list)
}

//! What a build is made from, and a list of edits.

use crate::{numbers, Cell, Licence, Mark};

/// Build records in one list of words: for each cell its number, its type's
/// code, its licence and its marks.
///
/// ```
/// use mengkiloh::{room, Cell, Licence, Mark, Mesh, Records, Type};
///
/// let mut records = Records::new();
/// records.add(Cell(0), Type::Triangle, Licence(7), &[0, 1, 2].map(Mark));
/// records.add(Cell(1), Type::Bar, Licence(0), &[2, 3].map(Mark));
/// let mut map = Mesh::over(vec![0; room(6, 4)]);
/// map.build(6, 4, &records)?;
/// assert_eq!(map.count(Type::Bar), Ok(1));
/// assert_eq!(map.licence(Cell(0)), Ok(Licence(7)));
/// # Ok::<(), mengkiloh::BuildRefused>(())
/// ```
#[derive(Clone, Debug, Default, PartialEq, Eq)]
pub struct Records(Vec<u32>);

impl Records {
    pub fn new() -> Records {
        Records::default()
    }

    /// One record more. It is checked at the build, as it stands.
    pub fn add(&mut self, cell: Cell, code: impl Into<u32>, licence: Licence, marks: &[Mark]) {
        self.0.extend([cell.0, code.into(), licence.0]);
        self.0.extend(numbers::words(marks));
    }

    pub fn words(&self) -> &[u32] {
        &self.0
    }
}

impl From<Vec<u32>> for Records {
    /// Records as they were stored or sent.
    fn from(words: Vec<u32>) -> Records {
        Records(words)
    }
}

/// A list of edits in words: 1 and a build record to insert, 2 and a cell's
/// number to remove.
///
/// ```
/// use mengkiloh::{Cell, Edits, Licence, Mark, Mesh, Tally, Type};
///
/// # fn main() -> Result<(), Box<dyn std::error::Error>> {
/// let mut map = Mesh::with_room(6, 4)?;
/// let mut edits = Edits::new();
/// edits.insert(Cell(0), Type::Triangle, Licence(7), &[0, 1, 2].map(Mark));
/// edits.insert(Cell(1), Type::Bar, Licence(0), &[2, 3].map(Mark));
/// edits.remove(Cell(0));
/// let mut tally = Tally::default();
/// assert_eq!(map.edits(&edits, &mut tally)?, 3);
/// assert_eq!(tally.accepted, 3);
/// # Ok(())
/// # }
/// ```
#[derive(Clone, Debug, Default, PartialEq, Eq)]
pub struct Edits(Vec<u32>);

impl Edits {
    const INSERT: u32 = 1;
    const REMOVE: u32 = 2;

    pub fn new() -> Edits {
        Edits::default()
    }

    /// An insert more. It is checked at its turn, as it stands.
    pub fn insert(&mut self, cell: Cell, code: impl Into<u32>, licence: Licence, marks: &[Mark]) {
        self.0
            .extend([Edits::INSERT, cell.0, code.into(), licence.0]);
        self.0.extend(numbers::words(marks));
    }

    /// A removal more.
    pub fn remove(&mut self, cell: Cell) {
        self.0.extend([Edits::REMOVE, cell.0]);
    }

    pub fn words(&self) -> &[u32] {
        &self.0
    }
}

impl From<Vec<u32>> for Edits {
    /// Edits as they were stored or sent.
    fn from(words: Vec<u32>) -> Edits {
        Edits(words)
    }
}

/// How many listed edits were accepted and how many refused. A count at its
/// largest number stays there.
#[derive(Clone, Copy, Debug, Default, PartialEq, Eq)]
pub struct Tally {
    pub accepted: u32,
    pub refused: u32,
}

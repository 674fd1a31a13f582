//! The registers of numbers, each a type of its own, and the ways of a sibling.
//!
//! A plain number becomes one of them by `into`; the way back is `.0` alone, so
//! that none of them is taken for a type's code, which may be a plain number.

use std::fmt;

/// A number of a register: a `u32` in a type of its own, laid out as the `u32`
/// is.
///
/// # Safety
///
/// The type is `repr(transparent)` over `u32`, and every `u32` is a value of it.
pub(crate) unsafe trait Register: Copy + Default {}

macro_rules! register {
    ($(#[$said:meta])* $name:ident) => {
        $(#[$said])*
        #[derive(Clone, Copy, Debug, Default, PartialEq, Eq, PartialOrd, Ord, Hash)]
        #[repr(transparent)]
        pub struct $name(pub u32);

        // SAFETY: transparent, and its one field is any `u32`.
        unsafe impl Register for $name {}

        impl From<u32> for $name {
            fn from(number: u32) -> $name {
                $name(number)
            }
        }

        impl fmt::Display for $name {
            fn fmt(&self, to: &mut fmt::Formatter<'_>) -> fmt::Result {
                self.0.fmt(to)
            }
        }
    };
}

register! {
    /// A mark's number.
    Mark
}

register! {
    /// A cell's number.
    Cell
}

register! {
    /// A half-facet's number, 8 × cell + facet.
    Half
}

register! {
    /// A licence's number; 0 is none.
    Licence
}

impl Half {
    /// The half-facet of a cell's local facet. Cells run below 65,536 and
    /// facets below 8; the rest is cut off.
    pub const fn of(cell: Cell, facet: u32) -> Half {
        Half(8 * (cell.0 % 65_536) + facet % 8)
    }

    pub const fn cell(self) -> Cell {
        Cell(self.0 / 8)
    }

    pub const fn facet(self) -> u32 {
        self.0 % 8
    }
}

/// Which way a half-facet's sibling runs.
///
/// Bar ends are the same if their places in their bars are equal, and opposite
/// else. An edge is the same if its lists of marks are equal, opposite if one is
/// the other reversed. A face is the same if one list is a rotation of the
/// other, opposite if it is a rotation of the other reversed, and neither else.
///
/// ```
/// # use mengkiloh::{Cell, Half, Mark, Mesh, Type, Way};
/// # fn main() -> Result<(), mengkiloh::Refusal> {
/// let mut map = Mesh::with_room(6, 4)?;
/// map.insert(Cell(0), Type::Triangle, &[0, 1, 2].map(Mark))?;
/// map.insert(Cell(1), Type::Triangle, &[2, 1, 3].map(Mark))?;
/// let (there, way) = map.sibling(Cell(0), 1)?;
/// assert_eq!(there, Half::of(Cell(1), 0));
/// assert_eq!(way, Way::Opposite);
/// assert_eq!(map.sibling(Cell(0), 0)?.1, Way::Lone);
/// # Ok(())
/// # }
/// ```
#[derive(Clone, Copy, Debug, PartialEq, Eq, PartialOrd, Ord, Hash)]
pub enum Way {
    /// No other half-facet has its set of marks.
    Lone = 0,
    Same = 1,
    Opposite = 2,
    Neither = 3,
}

impl Way {
    /// The way of a word that a call gave: 0 to 3.
    pub(crate) fn of_word(word: u32) -> Way {
        Way::try_from(word).unwrap_or(Way::Neither)
    }
}

impl From<Way> for u32 {
    fn from(way: Way) -> u32 {
        way as u32
    }
}

impl TryFrom<u32> for Way {
    type Error = u32;

    /// The way of a word; the word itself where there is none.
    fn try_from(word: u32) -> Result<Way, u32> {
        match word {
            0 => Ok(Way::Lone),
            1 => Ok(Way::Same),
            2 => Ok(Way::Opposite),
            3 => Ok(Way::Neither),
            _ => Err(word),
        }
    }
}

/// Words as numbers of a register.
pub(crate) fn numbers<T: Register>(words: &[u32]) -> &[T] {
    // SAFETY: `Register` says that the layouts are equal; the lifetime is the
    // words' own.
    unsafe { std::slice::from_raw_parts(words.as_ptr().cast(), words.len()) }
}

/// Numbers of a register as words.
pub(crate) fn words<T: Register>(numbers: &[T]) -> &[u32] {
    // SAFETY: as in `numbers`.
    unsafe { std::slice::from_raw_parts(numbers.as_ptr().cast(), numbers.len()) }
}

/// The same, to be written.
pub(crate) fn words_mut<T: Register>(numbers: &mut [T]) -> &mut [u32] {
    // SAFETY: as in `numbers`; every `u32` that is written is a `T`.
    unsafe { std::slice::from_raw_parts_mut(numbers.as_mut_ptr().cast(), numbers.len()) }
}

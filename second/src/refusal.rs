//! The refusal numbers, as the outline's table and the requests after it give
//! them, with the names of `map::Refusal`.

use std::fmt;

/// Why a call was refused. The values are the numbers of the table.
#[derive(Clone, Copy, Debug, PartialEq, Eq, PartialOrd, Ord)]
pub enum Refusal {
    CapacityAbove = 1,
    MemoryShort = 2,
    CellOutside = 3,
    CellLive = 4,
    CellNotLive = 5,
    TypeUnknown = 6,
    CountWrong = 7,
    MarkOutside = 8,
    MarkTwice = 9,
    CellSame = 10,
    MarkFull = 11,
    OutputShort = 12,
    FacetOutside = 13,
    NotMesh = 14,
    BadFrame = 15,
    PositionsShort = 16,
    OffBroken = 17,
    NotSurface = 18,
    FaceFull = 19,
    DayBefore = 20,
    DayFolded = 21,
    FoldNotAllowed = 22,
    JournalFull = 23,
    PlanWrong = 24,
}

impl Refusal {
    /// All of them, by number.
    pub const ALL: [Refusal; 24] = [
        Refusal::CapacityAbove,
        Refusal::MemoryShort,
        Refusal::CellOutside,
        Refusal::CellLive,
        Refusal::CellNotLive,
        Refusal::TypeUnknown,
        Refusal::CountWrong,
        Refusal::MarkOutside,
        Refusal::MarkTwice,
        Refusal::CellSame,
        Refusal::MarkFull,
        Refusal::OutputShort,
        Refusal::FacetOutside,
        Refusal::NotMesh,
        Refusal::BadFrame,
        Refusal::PositionsShort,
        Refusal::OffBroken,
        Refusal::NotSurface,
        Refusal::FaceFull,
        Refusal::DayBefore,
        Refusal::DayFolded,
        Refusal::FoldNotAllowed,
        Refusal::JournalFull,
        Refusal::PlanWrong,
    ];

    /// The number of the table.
    pub fn number(self) -> u8 {
        self as u8
    }

    /// When it is given, in the table's words.
    pub fn meaning(self) -> &'static str {
        match self {
            Refusal::CapacityAbove => "a capacity, or the day of an entry, is above 65,535",
            Refusal::MemoryShort => "memory is shorter than the room, or a journal than its head",
            Refusal::CellOutside => "a cell number is not below the capacity",
            Refusal::CellLive => "insert: the number is live",
            Refusal::CellNotLive => "the cell is not live",
            Refusal::TypeUnknown => {
                "type code not in the table, dimension not 1 to 3, edition not 1 or 2, a listed \
                 edit's kind not 1 or 2, or a solid without a measure"
            }
            Refusal::CountWrong => {
                "wrong count of marks for the type or the lookup, or a build record or listed edit \
                 cut short"
            }
            Refusal::MarkOutside => "a mark is not below the capacity",
            Refusal::MarkTwice => "a mark occurs twice",
            Refusal::CellSame => "a live cell of that type has the same set of marks",
            Refusal::MarkFull => "one of the marks stands in 128 live cells already",
            Refusal::OutputShort => "output buffer shorter than the list",
            Refusal::FacetOutside => "local facet not below the type's count",
            Refusal::NotMesh => "memory is not a mesh",
            Refusal::BadFrame => "bad frame (program only)",
            Refusal::PositionsShort => "position list shorter than three numbers per mark",
            Refusal::OffBroken => {
                "a word that breaks the plain OFF form, or a text that ends early"
            }
            Refusal::NotSurface => "a live cell not triangle or quad",
            Refusal::FaceFull => "insert under edition 2: a third solid on a face",
            Refusal::DayBefore => "entry: a day before the last",
            Refusal::DayFolded => "query: a day before the last fold",
            Refusal::FoldNotAllowed => "fold: not allowed, or no edit was ever entered",
            Refusal::JournalFull => "entry: the journal is full",
            Refusal::PlanWrong => "plan: the first wrong edit, or an end that is not as wanted",
        }
    }
}

impl fmt::Display for Refusal {
    fn fmt(&self, to: &mut fmt::Formatter<'_>) -> fmt::Result {
        write!(to, "{}: {}", self.number(), self.meaning())
    }
}

impl std::error::Error for Refusal {}

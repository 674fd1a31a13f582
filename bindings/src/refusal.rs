//! The refusals, with the outline's numbers and the names of `map::Refusal`;
//! those of a surface, 17 and 18, and of a plan, 24, are answers of three calls alone.

use std::fmt;

/// Why a call was refused. A refused call changes nothing, save a build refused
/// at a record, a surface refused at a face, a list of edits that is stopped,
/// licences that the list has no room for, which leave that day's mesh, and a wrong
/// plan, which leaves the mesh after the edits before.
#[derive(Clone, Copy, Debug, PartialEq, Eq, PartialOrd, Ord, Hash)]
#[repr(u8)]
pub enum Refusal {
    CapacityAbove = 1,
    MemoryShort = 2,
    CellOutside = 3,
    CellLive = 4,
    CellNotLive = 5,
    TypeUnknown = 6,
    CountWrong = 7,
    MarkOutside = 8,
    MarkTwice = 9,
    CellSame = 10,
    MarkFull = 11,
    OutputShort = 12,
    FacetOutside = 13,
    NotMesh = 14,
    PositionsShort = 16,
    OffBroken = 17,
    NotSurface = 18,
    FaceFull = 19,
    DayBefore = 20,
    DayFolded = 21,
    FoldNotAllowed = 22,
    JournalFull = 23,
    PlanWrong = 24,
}

impl Refusal {
    /// All of them, by number.
    pub const ALL: [Refusal; 23] = [
        Refusal::CapacityAbove,
        Refusal::MemoryShort,
        Refusal::CellOutside,
        Refusal::CellLive,
        Refusal::CellNotLive,
        Refusal::TypeUnknown,
        Refusal::CountWrong,
        Refusal::MarkOutside,
        Refusal::MarkTwice,
        Refusal::CellSame,
        Refusal::MarkFull,
        Refusal::OutputShort,
        Refusal::FacetOutside,
        Refusal::NotMesh,
        Refusal::PositionsShort,
        Refusal::OffBroken,
        Refusal::NotSurface,
        Refusal::FaceFull,
        Refusal::DayBefore,
        Refusal::DayFolded,
        Refusal::FoldNotAllowed,
        Refusal::JournalFull,
        Refusal::PlanWrong,
    ];

    /// The outline's number.
    pub fn number(self) -> u8 {
        self as u8
    }

    /// What it means.
    pub fn meaning(self) -> &'static str {
        match self {
            Refusal::CapacityAbove => "a capacity, or the day of an entry, is above 65,535",
            Refusal::MemoryShort => "memory is shorter than the room, or a journal than its head",
            Refusal::CellOutside => "the cell number is not below the capacity",
            Refusal::CellLive => "the cell number is live already",
            Refusal::CellNotLive => "the cell is not live",
            Refusal::TypeUnknown => {
                "no such type, a dimension that is not 1 to 3, an edition that is not 1 or 2, a \
                 listed edit's kind that is not 1 or 2, or a solid without a measure"
            }
            Refusal::CountWrong => {
                "wrong count of marks, or a build record or a listed edit cut short"
            }
            Refusal::MarkOutside => "a mark is not below the capacity",
            Refusal::MarkTwice => "a mark occurs twice",
            Refusal::CellSame => "a live cell of that type has the same marks",
            Refusal::MarkFull => "one of the marks stands in 128 live cells already",
            Refusal::OutputShort => "the output is shorter than the list",
            Refusal::FacetOutside => "the cell has no such facet",
            Refusal::NotMesh => "the memory is not a mesh, or not a journal of it",
            Refusal::PositionsShort => {
                "the list of positions is shorter than three numbers for each mark"
            }
            Refusal::OffBroken => "the text is not of OFF's plain form",
            Refusal::NotSurface => "a live cell is neither triangle nor quad",
            Refusal::FaceFull => "under edition 2, a third solid on a face",
            Refusal::DayBefore => "the day of an entry is before the last",
            Refusal::DayFolded => "the day that is asked for is before the last fold",
            Refusal::FoldNotAllowed => "the fold is not allowed, or no edit was ever entered",
            Refusal::JournalFull => "the journal is full",
            Refusal::PlanWrong => "an edit of the plan is wrong, or its end is not as wanted",
        }
    }

    /// What a call of the library answered: 0 for accepted.
    pub(crate) fn from_number(number: u8) -> Result<(), Refusal> {
        if number == 0 {
            return Ok(());
        }
        let named = Refusal::ALL
            .into_iter()
            .find(|refusal| refusal.number() == number);
        Err(named.expect("the library's numbers have names"))
    }
}

impl fmt::Display for Refusal {
    fn fmt(&self, to: &mut fmt::Formatter<'_>) -> fmt::Result {
        write!(to, "refused with {}: {}", self.number(), self.meaning())
    }
}

impl std::error::Error for Refusal {}

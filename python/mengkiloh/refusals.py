"""The refusals: one exception class each, with its number and its meaning.

A refused call changes nothing, save a build that is refused at a record, a surface at a face, and a list of edits that is stopped; a wrong plan leaves
the second memory with the mesh after the edits before.
"""

from __future__ import annotations

from typing import ClassVar


class Refused(Exception):
    """A call was refused. `number` says why, `meaning` says it in words.

    `record` is the place of a build's refused record, `made` how many edits of a list were made before, and `place` where a surface's text or face
    is refused or a plan is wrong; None for other calls.
    """

    number: ClassVar[int] = 0
    meaning: ClassVar[str] = ""

    def __init__(self, record: int | None = None, made: int | None = None, place: int | None = None) -> None:
        super().__init__()
        self.record, self.made, self.place = record, made, place

    def __str__(self) -> str:
        return f"refused with {self.number}: {self.meaning}"


class CapacityAbove(Refused):
    number = 1
    meaning = "a capacity, or the day of an entry, is above 65,535"


class MemoryShort(Refused):
    number = 2
    meaning = "memory is shorter than the room, or a journal than its head"


class CellOutside(Refused):
    number = 3
    meaning = "the cell number is not below the capacity"


class CellLive(Refused):
    number = 4
    meaning = "the cell number is live already"


class CellNotLive(Refused):
    number = 5
    meaning = "the cell is not live"


class TypeUnknown(Refused):
    number = 6
    meaning = (
        "no such type, a dimension that is not 1 to 3, an edition that is not 1 or 2, a listed "
        "edit's kind that is not 1 or 2, or a solid without a measure"
    )


class CountWrong(Refused):
    number = 7
    meaning = "wrong count of marks, or a build record or a listed edit cut short"


class MarkOutside(Refused):
    number = 8
    meaning = "a mark is not below the capacity"


class MarkTwice(Refused):
    number = 9
    meaning = "a mark occurs twice"


class CellSame(Refused):
    number = 10
    meaning = "a live cell of that type has the same marks"


class MarkFull(Refused):
    number = 11
    meaning = "one of the marks stands in 128 live cells already"


class OutputShort(Refused):
    number = 12
    meaning = "the output is shorter than the list"


class FacetOutside(Refused):
    number = 13
    meaning = "the cell has no such facet"


class NotMesh(Refused):
    number = 14
    meaning = "the memory is not a mesh, or not a journal of it"


class PositionsShort(Refused):
    number = 16
    meaning = "the list of positions is shorter than three numbers for each mark"


class OffBroken(Refused):
    number = 17
    meaning = "the text is not of OFF's plain form"


class NotSurface(Refused):
    number = 18
    meaning = "a live cell is neither triangle nor quad"


class FaceFull(Refused):
    number = 19
    meaning = "under edition 2, a third solid on a face"


class DayBefore(Refused):
    number = 20
    meaning = "the day of an entry is before the last"


class DayFolded(Refused):
    number = 21
    meaning = "the day that is asked for is before the last fold"


class FoldNotAllowed(Refused):
    number = 22
    meaning = "the fold is not allowed, or no edit was ever entered"


class JournalFull(Refused):
    number = 23
    meaning = "the journal is full"


class PlanWrong(Refused):
    number = 24
    meaning = "an edit of the plan is wrong, or its end is not as wanted"


REFUSALS: dict[int, type[Refused]] = {
    1: CapacityAbove,
    2: MemoryShort,
    3: CellOutside,
    4: CellLive,
    5: CellNotLive,
    6: TypeUnknown,
    7: CountWrong,
    8: MarkOutside,
    9: MarkTwice,
    10: CellSame,
    11: MarkFull,
    12: OutputShort,
    13: FacetOutside,
    14: NotMesh,
    16: PositionsShort,
    17: OffBroken,
    18: NotSurface,
    19: FaceFull,
    20: DayBefore,
    21: DayFolded,
    22: FoldNotAllowed,
    23: JournalFull,
    24: PlanWrong,
}
"""The class of each number."""

MEANINGS: dict[int, str] = {number: refusal.meaning for number, refusal in REFUSALS.items()}
"""What each number means."""

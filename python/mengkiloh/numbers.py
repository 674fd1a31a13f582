"""Types, ways, half-facets and the other small things that calls take and give."""

from __future__ import annotations

from collections.abc import Sequence
from dataclasses import dataclass
from enum import IntEnum
from typing import NamedTuple


class Type(IntEnum):
    """The types of cells, with their codes."""

    BAR = 1
    TRIANGLE = 2
    QUAD = 3
    TETRAHEDRON = 4
    PYRAMID = 5
    WEDGE = 6
    BRICK = 7

    @property
    def marks(self) -> int:
        """How many marks a cell of the type has."""
        return (2, 3, 4, 4, 5, 6, 8)[self - 1]


class Edition(IntEnum):
    """The editions of the sheet rules. Under the second a face lies between two solids at most."""

    FIRST = 1
    SECOND = 2


class Way(IntEnum):
    """Which way a half-facet's sibling runs."""

    LONE = 0
    """no other half-facet has its set of marks"""
    SAME = 1
    OPPOSITE = 2
    NEITHER = 3


class Half(NamedTuple):
    """A half-facet: a cell's local facet."""

    cell: int
    facet: int

    @property
    def number(self) -> int:
        """8 × cell + facet"""
        return 8 * self.cell + self.facet

    @classmethod
    def of(cls, number: int) -> Half:
        """the half-facet of a number"""
        return cls(number // 8, number % 8)


class Step(NamedTuple):
    """A half-facet and a way: of a sibling, how it runs; in a cycle, how the next one runs."""

    half: Half
    way: Way


class Point(NamedTuple):
    """A point of three floats."""

    x: float
    y: float
    z: float


class MeasureKind(IntEnum):
    """The kinds of measures."""

    SQUARED_LENGTH = 1
    """of a bar"""
    DOUBLED_AREA = 2
    """signed, in the plan: of a triangle or a quad"""
    SIXFOLD_VOLUME = 3
    """signed, of a tetrahedron"""


class Measure(NamedTuple):
    """A cell's measure: its kind, and the float equal to the whole-number formula."""

    kind: MeasureKind
    size: float


class Insert(NamedTuple):
    """A listed edit, or a build record: a cell of a type on its marks, with its licence; 0 is none."""

    cell: int
    kind: int
    marks: Sequence[int]
    licence: int = 0


class Remove(NamedTuple):
    """A listed edit: a cell taken out."""

    cell: int


@dataclass
class Tally:
    """How many listed edits were accepted and how many refused. A count at 4,294,967,295 stays there."""

    accepted: int = 0
    refused: int = 0

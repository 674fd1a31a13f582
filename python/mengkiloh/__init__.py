"""Mengkiloh: the map of survey marks and cells, over memory that you lend.

>>> from mengkiloh import Mesh, Type
>>> mesh = Mesh.with_room(marks=6, cells=4)
>>> mesh.insert(0, Type.TRIANGLE, [0, 1, 2])
>>> mesh.insert(1, Type.TRIANGLE, [2, 1, 3])
>>> mesh.star(2, 1)
[0, 1]
>>> mesh.sibling(0, 1)
Step(half=Half(cell=1, facet=0), way=<Way.OPPOSITE: 2>)
>>> mesh.insert(2, Type.TRIANGLE, [3, 2, 1])
Traceback (most recent call last):
mengkiloh.refusals.CellSame: refused with 10: a live cell of that type has the same marks

Every call is one of the proved library's, which is looked for when the first call is made (`library.load`).
"""

from .journal import Journal, journal_words
from .library import LibraryMissing, version
from .mesh import Capacities, Mesh, off_room, room
from .numbers import Edition, Half, Insert, Measure, MeasureKind, Point, Remove, Step, Tally, Type, Way
from .refusals import *  # noqa: F403: one class for each refusal
from .refusals import MEANINGS, REFUSALS, Refused

__version__ = "5.1.0"

"""The journal: the map on any day, and the licences to ask for a complaint."""

from __future__ import annotations

import ctypes
from collections.abc import Iterable
from ctypes import byref, c_uint32

from .library import load
from .mesh import MOST_AROUND, Memory, Mesh, apart, judge, lent, number, numbers, room

HEAD = 16
AN_EDIT = 16


def journal_words(edits: int) -> int:
    """The 32-bit words of a journal that holds so many edits."""
    return HEAD + AN_EDIT * number("a count of edits", edits)


class Journal:
    """Beside a mesh, each accepted edit with its day, 0 to 65,535, and the starting map.

    From `begin` on the mesh is edited through its journal alone: `insert` and `remove` here, and not the mesh's own.

    >>> mesh = Mesh.with_room(6, 4)
    >>> journal = Journal.begin(mesh, edits=1000)
    >>> journal.insert(100, 0, 2, [0, 1, 2], licence=7)
    >>> journal.on(99).star(2, 1), journal.on(100).star(2, 1)
    ([], [0])
    >>> journal.remove(130, 0)
    >>> journal.licences(129, 1), journal.licences(130, 1)
    ([7], [])
    """

    def __init__(self, mesh: Mesh, memory: Memory, start: Memory) -> None:
        """A journal that was begun before, in memory that is lent: the mesh, the journal, the starting map."""
        self.mesh, self.memory, self.start = mesh, memory, start
        self._words, self._start = lent(memory), lent(start)
        apart(mesh._words, self._words, self._start)

    @classmethod
    def begin(cls, mesh: Mesh, edits: int = 1000, memory: Memory | None = None, start: Memory | None = None) -> Journal:
        """A new journal of a mesh, which is copied to the starting map. Memory that is not lent is made: for so many edits, and as large as the mesh.

        Refused with 14, 2.
        """
        if memory is None:
            memory = bytearray(4 * journal_words(edits))
        if start is None:
            start = bytearray(4 * room(*mesh.capacities()))
        journal = cls(mesh, memory, start)
        judge(load().mk_journal_begin(*pair(mesh._words), *pair(journal._words), *pair(journal._start)))
        return journal

    def insert(self, day: int, cell: int, kind: int, marks: Iterable[int], licence: int = 0) -> None:
        """Inserts a cell on a day, with a licence; 0 is none.

        Refused with 14, 1 for a day above 65,535, 20 for a day before the last, as `Mesh.insert`, 23 where the journal is full.
        """
        list_ = numbers("a mark", marks)
        edit = number("a day", day), number("a cell", cell), number("a type", kind), number("a licence", licence)
        judge(load().mk_journal_insert(*pair(self.mesh._words), *pair(self._words), *edit, *pair(list_)))

    def remove(self, day: int, cell: int) -> None:
        """Removes a cell on a day.

        Refused with 14, 1 for a day above 65,535, 20 for a day before the last, as `Mesh.remove`, 23 where the journal is full.
        """
        edit = number("a day", day), number("a cell", cell)
        judge(load().mk_journal_remove(*pair(self.mesh._words), *pair(self._words), *edit))

    def on(self, day: int, memory: Memory | None = None) -> Mesh:
        """The map of a day, as a mesh in memory that is lent, or in its own: that of all edits of that day and earlier ones.

        Refused with 14, 21 for a day before the last fold, 2.
        """
        second = self._second(memory)
        judge(load().mk_journal_on(*pair(self._words), *pair(self._start), number("a day", day), *pair(second._words)))
        return second

    def licences(self, day: int, mark: int, memory: Memory | None = None) -> list[int]:
        """The licences to ask for a complaint: of all cells that are around the mark on that day, of every dimension, ascending, each once,
        0 left out. Memory that is lent becomes that day's mesh, as by `on`.

        Refused with 14, 21 for a day before the last fold, 2, 8.
        """
        second, out, count = self._second(memory), (c_uint32 * MOST_AROUND)(), c_uint32()
        asked = number("a day", day), number("a mark", mark)
        kept = *pair(self._words), *pair(self._start)
        judge(load().mk_licences(*kept, *asked, *pair(second._words), *pair(out), byref(count)))
        return out[: count.value]

    def _second(self, memory: Memory | None) -> Mesh:
        """Second memory, lent or its own, apart from the journal and the starting map."""
        second = Mesh(bytearray(4 * len(self._start)) if memory is None else memory)
        apart(second._words, self._words, self._start)
        return second

    def fold(self, day: int) -> None:
        """Moves the edits up to a day into the starting map, and frees their room. 366 days always stay.

        Refused with 14, 22.
        """
        judge(load().mk_journal_fold(*pair(self._words), *pair(self._start), number("a day", day)))

    def whole(self) -> bool:
        """Whether the memory is a well-formed journal and starting map. It never refuses."""
        return load().mk_journal_whole(*pair(self._words), *pair(self._start)) == 1


def pair(words: ctypes.Array) -> tuple[ctypes.Array, int]:
    return words, len(words)

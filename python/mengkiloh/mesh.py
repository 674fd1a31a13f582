"""The mesh."""

from __future__ import annotations

import ctypes
import operator
from collections.abc import Iterable, Iterator, Sequence
from ctypes import byref, c_double, c_int16, c_size_t, c_uint8, c_uint32
from typing import Any, NamedTuple, Union

from .library import load
from .numbers import Edition, Half, Insert, Measure, MeasureKind, Point, Remove, Step, Tally, Type, Way
from .refusals import REFUSALS, NotMesh, PlanWrong, Refused

MOST_CAPACITY = 65_535
MOST_AROUND = 128
"""a mark stands in at most so many cells: no star, no anchors and no cycle are longer"""
MOST_NEIGHBOURS = 6 * (MOST_AROUND - 1)
MOST_CORNERS = 8
LARGEST = 0xFFFF_FFFF

Memory = Any
"""A bytearray, an array of 32-bit words, a numpy array of uint32: writable memory in one piece."""
Positions = Union[Sequence[int], Any]
"""Three whole metres a mark: an array of signed 16-bit numbers, or a list of numbers."""


class Capacities(NamedTuple):
    """How many marks and cells a mesh was formatted for."""

    marks: int
    cells: int


def room(marks: int, cells: int) -> int:
    """The 32-bit words that a mesh of these capacities needs."""
    return 16 + 8 * number("a capacity", marks) + 32 * number("a capacity", cells)


def number(what: str, value: Any) -> int:
    """A number that fits 32 bits, or ValueError: nothing is cut off on the way to the library."""
    whole = operator.index(value)
    if not 0 <= whole <= LARGEST:
        raise ValueError(f"{what} is 0 to {LARGEST}, not {whole}")
    return whole


def numbers(what: str, values: Iterable[int]) -> ctypes.Array:
    """A list of them, as words."""
    list_ = [number(what, value) for value in values]
    return (c_uint32 * len(list_))(*list_)


def lent(memory: Memory) -> ctypes.Array:
    """Memory as 32-bit words, without a copy."""
    with memoryview(memory) as view:
        if view.readonly:
            raise TypeError("the memory of a mesh is lent to be written: a bytearray, an array or a numpy array")
        if not view.c_contiguous:
            raise TypeError("the memory of a mesh is one piece")
        if view.itemsize not in (1, 4) or view.format.strip("@=<>!")[-1:] not in ("B", "b", "c", "I", "i", "L", "l"):
            raise TypeError(f"the memory of a mesh is of bytes or 32-bit words, not of {view.format!r}")
        size = view.nbytes
    if size % 4:
        raise ValueError(f"{size} bytes are no whole count of 32-bit words")
    words = (c_uint32 * (size // 4)).from_buffer(memory)
    if ctypes.addressof(words) % 4:
        raise ValueError("the memory of a mesh begins at an address that 4 divides")
    return words


def placed(positions: Positions) -> ctypes.Array:
    """Positions as signed 16-bit numbers; memory of such numbers is not copied where it may be written."""
    try:
        view = memoryview(positions)
    except TypeError:
        list_ = [operator.index(value) for value in positions]
        for value in list_:
            if not -32_768 <= value <= 32_767:
                raise ValueError(f"a position is -32768 to 32767, not {value}") from None
        return (c_int16 * len(list_))(*list_)
    with view:
        if view.format.strip("@=<>!") != "h" or not view.c_contiguous:
            raise TypeError(f"positions are signed 16-bit numbers in one piece, not {view.format!r}")
        kind = c_int16 * (view.nbytes // 2)
        return kind.from_buffer_copy(view) if view.readonly else kind.from_buffer(positions)


def written(positions: Any) -> ctypes.Array:
    """Positions that a call writes: an array or a numpy array of signed 16-bit numbers, without a copy."""
    with memoryview(positions) as view:
        if view.readonly:
            raise TypeError("positions are lent to be written: an array or a numpy array of signed 16-bit numbers")
    return placed(positions)


def off_room(marks: int, faces: int) -> int:
    """The bytes that the longest OFF text of so many marks and faces takes."""
    return 18 + 21 * number("a count", marks) + 26 * number("a count", faces)


def judge(refusal: int, **place: int) -> None:
    """Raises the refusal of a number that is not 0."""
    if refusal:
        raise REFUSALS[refusal](**place)


class Mesh:
    """A mesh over memory that is lent to it, or in memory of its own (`with_room`).

    Memory that is no mesh is refused with 14, `NotMesh`, by each call but `format` and `build`.

    Marks and cells are numbers from 0, a type is a `Type` or its code. A number that does not fit 32 bits raises ValueError; one that fits and
    is not allowed is refused by the library, and its refusal is raised. Iterating over a mesh gives its live cells, ascending.
    """

    def __init__(self, memory: Memory) -> None:
        self.memory = memory
        self._words = lent(memory)

    @classmethod
    def with_room(cls, marks: int, cells: int, edition: int = Edition.FIRST) -> Mesh:
        """A mesh of these capacities with no cell, in memory of its own.

        Refused with 6, 1.
        """
        fits = number("a capacity", marks) <= MOST_CAPACITY and number("a capacity", cells) <= MOST_CAPACITY
        mesh = cls(bytearray(4 * room(marks, cells) if fits else 0))
        mesh.format(marks, cells, edition)
        return mesh

    def _call(self, name: str, *taken: Any) -> int:
        return getattr(load(), name)(self._words, len(self._words), *taken)

    def _ask(self, name: str, *taken: Any) -> None:
        judge(self._call(name, *taken))

    def _one(self, name: str, *taken: Any) -> int:
        given = c_uint32()
        self._ask(name, *taken, byref(given))
        return given.value

    def _list(self, name: str, most: int, *taken: Any) -> list[int]:
        out, count = (c_uint32 * most)(), c_uint32()
        self._ask(name, *taken, out, most, byref(count))
        return out[: count.value]

    # ---- what writes

    def format(self, marks: int, cells: int, edition: int = Edition.FIRST) -> None:
        """Makes the memory a mesh of these capacities with no cell.

        Refused with 6 for an edition that is none, 1, 2.
        """
        capacities = [number("a capacity", value) for value in (marks, cells)]
        self._ask("mk_format_edition", *capacities, number("an edition", edition))

    def build(self, marks: int, cells: int, records: Iterable[Insert | tuple[int, int, Sequence[int]]], edition: int = Edition.FIRST) -> None:
        """Formats, and inserts each record in order: an `Insert`, or a tuple of its parts, of which the licence may be left out.

        Refused with 6 for an edition that is none, 1, 2, and at a record as `insert`; the exception's `record` is its place, from 0, and the
        mesh then has no cell.
        """
        capacities = [number("a capacity", value) for value in (marks, cells)]
        words = numbers("a word of a record", (word for record in records for word in record_words(Insert(*record))))
        place = c_uint32()
        refusal = self._call("mk_build_edition", *capacities, number("an edition", edition), words, len(words), byref(place))
        judge(refusal, record=place.value)

    def insert(self, cell: int, kind: int, marks: Iterable[int], licence: int = 0) -> None:
        """Inserts a cell under a number of the caller's, with a licence, any number of 32 bits; 0 is none.

        Refused with 14, 3, 4, 6, 7, 8, 9, 10, under edition 2 with 19, 11. No check looks at the licence.
        """
        list_ = numbers("a mark", marks)
        given = number("a cell", cell), number("a type", kind), number("a licence", licence)
        self._ask("mk_insert_licensed", *given, list_, len(list_))

    def remove(self, cell: int) -> None:
        """Removes a cell.

        Refused with 14, 3, 5.
        """
        self._ask("mk_remove", number("a cell", cell))

    def edits(self, edits: Iterable[Insert | Remove], tally: Tally | None = None) -> int:
        """Makes the edits in order, up to the first that is refused; those before it stay. How many were made.

        The tally counts as many accepted, and one refused where the list is stopped. A refusal's `made` is how many were made before:
        14 with none, else as `insert` or `remove`.
        """
        words = numbers("a word of an edit", (word for edit in edits for word in edit_words(edit)))
        tally = Tally() if tally is None else tally
        counts, made = numbers("a tally's count", (tally.accepted, tally.refused)), c_size_t()
        refusal = self._call("mk_edits", words, len(words), counts, byref(made))
        tally.accepted, tally.refused = counts
        judge(refusal, made=made.value)
        return made.value

    # ---- planned changes

    def check_plan(self, edits: Iterable[Insert | Remove], wanted: Iterable[Insert | tuple[int, int, Sequence[int]]], memory: Memory | None = None) -> Mesh:
        """Whether the edits take this mesh to the wanted cells, records as `build` takes them: the mesh after them, in memory that is lent, or in its own.

        They do if every edit in order would be accepted, and the live cells afterwards, with type, marks in their order and licence, are the wanted
        ones, each once. This mesh is only read.

        Refused with 14, 2, 6 for an unknown type in the wanted list, 7 for too few marks at its end; then with 24, `PlanWrong`, whose `place` is that of
        the first wrong edit, from 0, or the number of edits where only the end differs. 24 leaves in memory that is lent the mesh after the edits before.
        """
        second = Mesh(bytearray(4 * len(self._words)) if memory is None else memory)
        apart(self._words, second._words)
        plan = numbers("a word of an edit", (word for edit in edits for word in edit_words(edit)))
        list_, place = wanted_words(wanted), c_size_t()
        refusal = self._call("mk_plan_check", plan, len(plan), list_, len(list_), second._words, len(second._words), byref(place))
        judge(refusal, **({"place": place.value} if refusal == PlanWrong.number else {}))
        return second

    def plan(self, wanted: Iterable[Insert | tuple[int, int, Sequence[int]]]) -> list[Insert | Remove]:
        """A plan that takes this mesh to the wanted cells: each cell removed that is not wanted as it stands, ascending, then each inserted that is
        missing, in the list's order. `check_plan` says yes to it whenever the wanted list can be built under the same capacities and edition.

        Refused with 14, 6 for an unknown type in the wanted list, 7 for too few marks at its end.
        """
        list_, count = wanted_words(wanted), c_size_t()
        # a removal for each cell, and for each record, of which none has under 5 words, an insert of one word more
        most = 2 * self.capacities().cells + len(list_) + len(list_) // 5
        out = (c_uint32 * most)()
        self._ask("mk_plan", list_, len(list_), out, most, byref(count))
        return edits_of(out[: count.value])

    # ---- what reads

    def edition(self) -> Edition:
        """The edition that the mesh was formatted or built under. Refused with 14."""
        return Edition(self._one("mk_edition"))

    def capacities(self) -> Capacities:
        """How many marks and cells the mesh has room for. Refused with 14."""
        marks, cells = c_uint32(), c_uint32()
        self._ask("mk_capacities", byref(marks), byref(cells))
        return Capacities(marks.value, cells.value)

    def free(self) -> int | None:
        """The smallest cell number that is not live, or None where all are. Refused with 14."""
        found, cell = c_uint32(), c_uint32()
        self._ask("mk_free", byref(found), byref(cell))
        return cell.value if found.value else None

    def live(self) -> list[int]:
        """All live cells, ascending. Refused with 14."""
        return self._list("mk_live", self.capacities().cells)

    def type_of(self, cell: int) -> Type:
        """The type of a cell. Refused with 14, 3, 5."""
        code = self._one("mk_type", number("a cell", cell))
        try:
            return Type(code)
        except ValueError:  # on memory that is no well-formed mesh
            raise NotMesh from None

    def licence_of(self, cell: int) -> int:
        """The licence of a cell, 0 if it was inserted without one. Refused with 14, 3, 5."""
        return self._one("mk_licence", number("a cell", cell))

    def marks_of(self, cell: int) -> list[int]:
        """The marks of a cell, in the order given at insertion. Refused with 14, 3, 5."""
        return self.marks_in_place(cell).tolist()

    def marks_in_place(self, cell: int) -> memoryview:
        """The very part of the mesh's memory that stores the marks of a cell, read-only. Refused with 14, 3, 5."""
        at, count = c_uint32(), c_uint32()
        self._ask("mk_marks", number("a cell", cell), byref(at), byref(count))
        return memoryview(self._words).cast("B").cast("I")[at.value : at.value + count.value].toreadonly()

    def sibling(self, cell: int, facet: int) -> Step:
        """The next half-facet with the same set of marks, and which way it runs; a border is its own. Refused with 14, 3, 5, 13."""
        half, way = c_uint32(), c_uint32()
        self._ask("mk_sibling", number("a cell", cell), number("a facet", facet), byref(half), byref(way))
        return Step(Half.of(half.value), Way(way.value))

    def walk(self, cell: int, facet: int) -> Iterator[Step]:
        """Once round the cycle of a half-facet, itself first, each with the way in which the next one runs, as the mesh is at each step.

        A step is refused as `sibling`.
        """
        start = place = Half(cell, facet)
        for _ in range(MOST_AROUND):
            there, way = self.sibling(*place)
            yield Step(place, way)
            if there == start:
                return
            place = there

    def cycle(self, cell: int, facet: int) -> list[Step]:
        """All half-facets with this one's set of marks, this one first, each with the way in which the next one runs. Refused with 14, 3, 5, 13."""
        halves, ways = (c_uint32 * MOST_AROUND)(), (c_uint32 * MOST_AROUND)()
        count = c_uint32()
        given = number("a cell", cell), number("a facet", facet)
        self._ask("mk_cycle", *given, halves, MOST_AROUND, ways, MOST_AROUND, byref(count))
        return [Step(Half.of(half), Way(way)) for half, way in zip(halves[: count.value], ways)]

    def border(self, cell: int, facet: int) -> bool:
        """Whether a half-facet is alone in its set. Refused with 14, 3, 5, 13."""
        return self._one("mk_border", number("a cell", cell), number("a facet", facet)) == 1

    def star(self, dimension: int, mark: int) -> list[int]:
        """The live cells of a dimension that hold a mark, ascending. Refused with 14, 6, 8."""
        return self._list("mk_star", MOST_AROUND, number("a dimension", dimension), number("a mark", mark))

    def around(self, mark: int) -> Iterator[int]:
        """The live cells of every dimension that hold a mark: bars, then triangles and quads, then solids, each ascending. Refused with 14, 8."""
        return iter([cell for dimension in (1, 2, 3) for cell in self.star(dimension, mark)])

    def anchors(self, dimension: int, mark: int) -> list[Half]:
        """One half-facet for each group of a star, ascending. Refused with 14, 6, 8."""
        list_ = self._list("mk_anchors", MOST_AROUND, number("a dimension", dimension), number("a mark", mark))
        return [Half.of(half) for half in list_]

    def first_anchor(self, dimension: int, mark: int) -> Half | None:
        """The first of the anchors, or None where there are none. Refused with 14, 6, 8."""
        return self._perhaps("mk_first_anchor", number("a dimension", dimension), number("a mark", mark))

    def neighbours(self, cell: int) -> list[int]:
        """The other live cells that share a facet with a cell, ascending. Refused with 14, 3, 5."""
        return self._list("mk_neighbours", MOST_NEIGHBOURS, number("a cell", cell))

    def lookup(self, marks: Iterable[int]) -> Half | None:
        """The smallest half-facet with this set of 1 to 4 marks, or None. Refused with 14, 7, 8, 9."""
        set_ = numbers("a mark", marks)
        return self._perhaps("mk_lookup", set_, len(set_))

    def _perhaps(self, name: str, *taken: Any) -> Half | None:
        found, half = c_uint32(), c_uint32()
        self._ask(name, *taken, byref(found), byref(half))
        return Half.of(half.value) if found.value else None

    def cells(self, kind: int) -> list[int]:
        """The live cells of a type, ascending. Refused with 14, 6."""
        code = number("a type", kind)
        # the count stands in memory, and may be any number
        most = min(self.count(code), self.capacities().cells)
        return self._list("mk_cells", most, code)

    def count(self, kind: int) -> int:
        """How many live cells of a type there are. Refused with 14, 6."""
        return self._one("mk_count", number("a type", kind))

    # ---- cells with positions: three whole metres for each mark of the capacity

    def points(self, positions: Positions, cell: int) -> list[Point]:
        """The corners of a cell. Refused with 14, 3, 5, 16."""
        out, corners = (c_double * (3 * MOST_CORNERS))(), c_uint32()
        self._placed("mk_points", positions, cell, out, len(out), byref(corners))
        return [Point(*out[3 * k : 3 * k + 3]) for k in range(corners.value)]

    def centre(self, positions: Positions, cell: int) -> Point:
        """Each coordinate's exact sum over the corners, divided once by their count. Refused with 14, 3, 5, 16."""
        point = [c_double() for _ in range(3)]
        self._placed("mk_centre", positions, cell, *map(byref, point))
        return Point(*(axis.value for axis in point))

    def measure(self, positions: Positions, cell: int) -> Measure:
        """The measure of a cell, whose kind follows its type. Refused with 14, 3, 5, 6 for a pyramid, a wedge or a brick, 16."""
        kind, size = c_uint32(), c_double()
        self._placed("mk_measure", positions, cell, byref(kind), byref(size))
        return Measure(MeasureKind(kind.value), size.value)

    def _placed(self, name: str, positions: Positions, cell: int, *given: Any) -> None:
        list_ = placed(positions)
        self._ask(name, list_, len(list_), number("a cell", cell), *given)

    # ---- surfaces as plain Geomview OFF text

    def read_off(self, positions: Any, text: bytes) -> None:
        """Makes the memory the mesh of a text's surface, under edition 1, and writes its metres to the first numbers of positions.

        The first two counts of the text become the capacities, its faces cells 0, 1, 2 in their order. Refused with 17, 1, 2, 16, and at a face as
        `insert`; the exception's `place` is that of the byte, or of the face, from 0, or 0. A refused face leaves a mesh with no cell, and the
        positions as they were.
        """
        list_, place, bytes_ = written(positions), c_size_t(), bytes(text)
        refusal = self._call("mk_off_read", list_, len(list_), bytes_, len(bytes_), byref(place))
        judge(refusal, place=place.value)

    def write_off(self, positions: Positions) -> bytes:
        """The surface as OFF text: a line for the word, the counts, each mark of the capacity and each live face, ascending.

        Refused with 14, 16, 18 for a live cell that is neither triangle nor quad.
        """
        list_, length = placed(positions), c_size_t()
        room_ = off_room(self.capacities().marks, len(self))
        out = (c_uint8 * room_)()
        self._ask("mk_off_write", list_, len(list_), out, room_, byref(length))
        return bytes(out[: length.value])

    def whole(self) -> bool:
        """Whether the memory is a well-formed mesh. It never refuses."""
        return self._call("mk_whole") == 1

    # ---- as a collection of its live cells

    def __iter__(self) -> Iterator[int]:
        return iter(self.live())

    def __len__(self) -> int:
        return len(self.live())

    def __bool__(self) -> bool:
        return True

    def __contains__(self, cell: int) -> bool:
        try:
            self._one("mk_type", number("a cell", cell))
        except (Refused, ValueError):
            return False
        return True

    def __repr__(self) -> str:
        try:
            marks, cells = self.capacities()
            return f"<Mesh for {marks} marks and {cells} cells, {len(self)} of them live>"
        except Refused:
            return f"<{len(self._words)} words that are no mesh>"


def record_words(record: Insert) -> tuple[int, ...]:
    """A build record: the cell's number, its type, its licence, its marks."""
    return (record.cell, record.kind, record.licence, *record.marks)


def edit_words(edit: Insert | Remove) -> tuple[int, ...]:
    """1 and a build record, or 2 and a cell's number."""
    if isinstance(edit, Insert):
        return (1, *record_words(edit))
    if isinstance(edit, Remove):
        return (2, edit.cell)
    raise TypeError(f"an edit is an Insert or a Remove, not {edit!r}")


def wanted_words(wanted: Iterable[Insert | tuple[int, int, Sequence[int]]]) -> ctypes.Array:
    """Wanted cells as the words of build records."""
    return numbers("a word of a record", (word for record in wanted for word in record_words(Insert(*record))))


def edits_of(words: Sequence[int]) -> list[Insert | Remove]:
    """The edits that the words of a plan say."""
    edits: list[Insert | Remove] = []
    at = 0
    while at < len(words):
        if words[at] == 2:
            edits.append(Remove(words[at + 1]))
            at += 2
        else:
            cell, kind, licence = words[at + 1], Type(words[at + 2]), words[at + 3]
            end = at + 4 + kind.marks
            edits.append(Insert(cell, kind, list(words[at + 4 : end]), licence))
            at = end
    return edits


def apart(*lists: ctypes.Array) -> None:
    """What a call writes must not overlap anything else that is lent to it."""
    ranges = sorted((ctypes.addressof(words), ctypes.sizeof(words)) for words in lists if len(words))
    for (at, size), (then, _) in zip(ranges, ranges[1:]):
        if at + size > then:
            raise ValueError("a mesh, a journal, a starting map and second memory must not overlap")

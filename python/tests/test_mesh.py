"""The module over the proved library: the outline's cases, refusals, lent memory, iterators, licences, days and complaints."""

import doctest
import re
import unittest
from array import array
from pathlib import Path

import mengkiloh
from mengkiloh import Edition, Half, Insert, Journal, Measure, MeasureKind, Mesh, Point, Remove, Tally, Type, Way, journal, library, refusals, room

ROOT = Path(__file__).resolve().parent.parent.parent


def triangles(*cells, marks=6, count=8):
    """a mesh of triangles under the numbers 0, 1, 2 .."""
    mesh = Mesh.with_room(marks, count)
    for cell, list_ in enumerate(cells):
        mesh.insert(cell, Type.TRIANGLE, list_)
    return mesh


class Cases(unittest.TestCase):
    """The outline's twelve, by its sentences."""

    def test_p1_no_cells(self):
        mesh = Mesh.with_room(3, 1)
        for dimension in (1, 2, 3):
            for mark in range(3):
                self.assertEqual((mesh.star(dimension, mark), mesh.anchors(dimension, mark)), ([], []))
                self.assertIsNone(mesh.first_anchor(dimension, mark))

    def test_p2_one_triangle(self):
        mesh = triangles([0, 1, 2])
        self.assertTrue(all(mesh.border(0, facet) for facet in range(3)))
        self.assertEqual(mesh.anchors(2, 2), [Half(0, 1)])
        self.assertEqual(mesh.sibling(0, 0), (Half(0, 0), Way.LONE))

    def test_p3_siblings(self):
        mesh = triangles([0, 1, 2], [2, 1, 3])
        self.assertEqual(mesh.sibling(0, 1), (Half(1, 0), Way.OPPOSITE))
        self.assertEqual(mesh.sibling(1, 0).half.number, 1)
        self.assertEqual(mesh.neighbours(0), [1])

    def test_p4_and_p9_three_on_an_edge(self):
        mesh = triangles([0, 1, 2], [0, 1, 3], [0, 1, 4])
        self.assertEqual([step.half.number for step in mesh.cycle(1, 0)], [8, 16, 0])
        self.assertEqual(list(mesh.walk(1, 0)), mesh.cycle(1, 0))
        mesh.remove(1)
        self.assertEqual([step.half.number for step in mesh.walk(0, 0)], [0, 16])
        with self.assertRaises(mengkiloh.CellNotLive) as caught:
            mesh.sibling(1, 0)
        self.assertEqual(caught.exception.number, 5)

    def test_p5_sheets_that_touch(self):
        mesh = triangles([0, 1, 2], [0, 3, 4])
        self.assertEqual([half.number for half in mesh.anchors(2, 0)], [0, 8])

    def test_p6_tetrahedra(self):
        mesh = Mesh.with_room(5, 2)
        mesh.insert(0, Type.TETRAHEDRON, [0, 1, 2, 3])
        mesh.insert(1, Type.TETRAHEDRON, [0, 2, 1, 4])
        self.assertEqual(mesh.sibling(0, 0).half, Half(1, 0))
        self.assertEqual(mesh.first_anchor(3, 0), Half(0, 1))

    def test_p7_closed(self):
        mesh = triangles([0, 2, 1], [0, 1, 3], [1, 2, 3], [2, 0, 3])
        self.assertFalse(any(mesh.border(cell, facet) for cell in mesh for facet in range(3)))
        self.assertEqual([half.number for half in mesh.anchors(2, 3)], [9])

    def test_p8_bars(self):
        mesh = Mesh.with_room(3, 2)
        mesh.insert(0, Type.BAR, [0, 1])
        mesh.insert(1, Type.BAR, [1, 2])
        self.assertEqual(mesh.sibling(0, 1), (Half(1, 0), Way.OPPOSITE))
        self.assertEqual(mesh.anchors(1, 1), [Half(0, 1)])

    def test_p10_to_p12(self):
        mesh = triangles([0, 1, 2])
        with self.assertRaises(mengkiloh.CellSame):
            mesh.insert(1, Type.TRIANGLE, [2, 0, 1])
        with self.assertRaises(mengkiloh.MarkTwice):
            mesh.insert(1, Type.TRIANGLE, [0, 1, 1])
        mesh.insert(1, Type.TETRAHEDRON, [0, 1, 2, 3])
        self.assertTrue(all(mesh.border(0, facet) for facet in range(3)))


class Refusals(unittest.TestCase):
    def test_they_are_those_of_the_header(self):
        header = (ROOT / "include" / "mengkiloh.h").read_text()
        inside = header.split("enum mk_refusal {")[1].split("}")[0]
        upper = {number: re.sub(r"(?<!^)(?=[A-Z])", "_", kind.__name__).upper() for number, kind in refusals.REFUSALS.items()}
        named = {int(number): name for name, number in re.findall(r"MK_(\w+) = (\d+)", inside) if number != "0"}
        self.assertEqual(upper, named)
        cases = re.findall(r"case MK_(\w+):\s*return ((?:\"[^\"]*\"\s*)+);", header)
        meanings = {name: "".join(re.findall(r'"([^"]*)"', text)) for name, text in cases if name != "ACCEPTED"}
        self.assertEqual({upper[number]: meaning for number, meaning in refusals.MEANINGS.items()}, meanings)

    def test_each_has_its_number(self):
        for number, kind in refusals.REFUSALS.items():
            self.assertEqual(kind.number, number)
            self.assertTrue(issubclass(kind, mengkiloh.Refused))
            self.assertEqual(str(kind()), f"refused with {number}: {kind.meaning}")
            self.assertIs(getattr(mengkiloh, kind.__name__), kind)

    def test_calls_give_them(self):
        mesh = triangles([0, 1, 2], marks=6, count=4)
        for number, call in {
            1: lambda: Mesh.with_room(65_536, 0),
            2: lambda: Mesh(bytearray(4 * (room(6, 4) - 1))).format(6, 4),
            3: lambda: mesh.remove(4),
            4: lambda: mesh.insert(0, Type.BAR, [0, 1]),
            5: lambda: mesh.marks_of(1),
            6: lambda: mesh.insert(1, 8, [0, 1]),
            7: lambda: mesh.insert(1, Type.BAR, [0, 1, 2]),
            8: lambda: mesh.star(2, 6),
            9: lambda: mesh.lookup([1, 1]),
            13: lambda: mesh.sibling(0, 3),
            14: lambda: Mesh(bytearray(60)).star(2, 0),
            16: lambda: mesh.centre([0] * 17, 0),
        }.items():
            with self.assertRaises(refusals.REFUSALS[number]):
                call()
        with self.assertRaises(mengkiloh.TypeUnknown):
            mesh.star(4, 0)
        with self.assertRaises(mengkiloh.TypeUnknown):
            Mesh.with_room(1, 1, edition=3)

    def test_128_cells_at_a_mark_and_no_more(self):
        mesh = Mesh.with_room(200, 200)
        for cell in range(128):
            mesh.insert(cell, Type.BAR, [0, cell + 1])
        with self.assertRaises(mengkiloh.MarkFull):
            mesh.insert(128, Type.BAR, [199, 0])
        self.assertEqual(mesh.star(1, 0), list(range(128)))
        self.assertEqual(len(list(mesh.walk(5, 0))), 128)

    def test_a_third_solid_under_the_second_edition(self):
        mesh = Mesh.with_room(6, 4, Edition.SECOND)
        self.assertIs(mesh.edition(), Edition.SECOND)
        mesh.insert(0, Type.TETRAHEDRON, [0, 1, 2, 3])
        mesh.insert(1, Type.TETRAHEDRON, [0, 2, 1, 4])
        with self.assertRaises(mengkiloh.FaceFull):
            mesh.insert(2, Type.TETRAHEDRON, [0, 1, 2, 5])

    def test_a_build_says_at_which_record(self):
        mesh = Mesh(bytearray(4 * room(6, 4)))
        with self.assertRaises(mengkiloh.CellLive) as caught:
            mesh.build(6, 4, [(0, Type.TRIANGLE, [0, 1, 2]), (0, Type.BAR, [0, 1])])
        self.assertEqual(caught.exception.record, 1)
        self.assertEqual(mesh.live(), [])
        mesh.build(6, 4, [Insert(2, Type.TRIANGLE, [0, 1, 2]), Insert(0, Type.BAR, [0, 1])])
        self.assertEqual(mesh.live(), [0, 2])

    def test_edits_up_to_the_first_that_is_refused(self):
        mesh, tally = triangles([0, 1, 2]), Tally(accepted=2**32 - 2)
        with self.assertRaises(mengkiloh.CellNotLive) as caught:
            mesh.edits([Insert(1, Type.BAR, [4, 5]), Remove(0), Remove(0), Remove(1)], tally)
        self.assertEqual((caught.exception.made, mesh.live()), (2, [1]))
        self.assertEqual(tally, Tally(2**32 - 1, 1))
        self.assertEqual(mesh.edits([]), 0)
        with self.assertRaises(TypeError):
            mesh.edits([(2, 1)])


class Numbers(unittest.TestCase):
    """Nothing is cut off on the way to the library."""

    def test_numbers_beyond_32_bits_raise(self):
        mesh = triangles([0, 1, 2])
        for bad in (2**32, -1, 2**64):
            for call in (
                lambda: mesh.star(2, bad),
                lambda: mesh.star(bad, 0),
                lambda: mesh.remove(bad),
                lambda: mesh.insert(bad, Type.BAR, [0, 1]),
                lambda: mesh.insert(1, bad, [0, 1]),
                lambda: mesh.insert(1, Type.BAR, [0, bad]),
                lambda: mesh.insert(1, Type.BAR, [0, 1], licence=bad),
                lambda: mesh.licence_of(bad),
                lambda: Mesh(bytearray(4 * room(6, 8))).build(6, 8, [(1, Type.BAR, [0, 1], bad)]),
                lambda: mesh.edits([Insert(1, Type.BAR, [0, 1], bad)]),
                lambda: mesh.sibling(0, bad),
                lambda: mesh.lookup([bad]),
                lambda: Mesh.with_room(bad, 1),
                lambda: mesh.edits([Remove(bad)]),
                lambda: mesh.format(1, 1, edition=bad),
            ):
                with self.assertRaises(ValueError):
                    call()
        self.assertEqual(mesh.live(), [0])
        self.assertNotIn(2**32, mesh)
        self.assertIn(0, mesh)

    def test_what_is_no_number_raises(self):
        mesh = triangles([0, 1, 2])
        for bad in ("1", 1.0, None):
            with self.assertRaises(TypeError):
                mesh.star(2, bad)

    def test_positions_are_16_bits(self):
        mesh = triangles([0, 1, 2], marks=3)
        with self.assertRaises(ValueError):
            mesh.centre([32_768] + [0] * 8, 0)
        with self.assertRaises(TypeError):
            mesh.centre(array("i", [0] * 9), 0)


class Memory(unittest.TestCase):
    def test_lent_memory_is_not_copied(self):
        memories = [bytearray(4 * room(6, 4)), array("I", [0] * room(6, 4)), memoryview(bytearray(4 * room(6, 4)))]
        try:
            import numpy

            memories.append(numpy.zeros(room(6, 4), dtype=numpy.uint32))
        except ImportError:
            pass
        for memory in memories:
            mesh = Mesh(memory)
            mesh.format(6, 4)
            mesh.insert(2, Type.TRIANGLE, [3, 1, 5])
            again = Mesh(memory)
            self.assertEqual((again.live(), again.marks_of(2), again.type_of(2)), ([2], [3, 1, 5], Type.TRIANGLE))
            self.assertTrue(again.whole())
            part = mesh.marks_in_place(2)
            self.assertTrue(part.readonly)
            mesh.remove(2)
            self.assertEqual(part.tolist(), [0, 0, 0])

    def test_memory_that_cannot_be_lent(self):
        with self.assertRaises(TypeError):
            Mesh(bytes(64))
        with self.assertRaises(TypeError):
            Mesh(array("d", [0.0] * 16))
        with self.assertRaises(TypeError):
            Mesh(memoryview(bytearray(128))[::2])
        with self.assertRaises(ValueError):
            Mesh(bytearray(63))
        with self.assertRaises(ValueError):
            Mesh(memoryview(bytearray(68))[1:65])
        with self.assertRaises(TypeError):
            Mesh("words")

    def test_memory_stays_while_it_is_lent(self):
        memory = bytearray(4 * room(1, 1))
        mesh = Mesh(memory)
        with self.assertRaises(BufferError):
            memory.extend(b"more")
        self.assertFalse(mesh.whole())

    def test_no_words(self):
        mesh = Mesh(bytearray())
        self.assertFalse(mesh.whole())
        with self.assertRaises(mengkiloh.MemoryShort):
            mesh.format(0, 0)

    def test_a_code_that_is_no_type(self):
        # cell 0's record begins behind the head and the marks; some word of it is its type
        mesh = triangles([0, 1, 2], marks=6, count=1)
        words = memoryview(mesh.memory).cast("I")
        found = []
        for place in range(16 + 8 * 6, room(6, 1)):
            kept, words[place] = words[place], 200
            try:
                mesh.type_of(0)
            except mengkiloh.NotMesh:
                found.append(place)
            words[place] = kept
        self.assertEqual(len(found), 1)


class Lists(unittest.TestCase):
    def test_live_free_and_capacities(self):
        mesh = Mesh.with_room(7, 3)
        self.assertEqual((mesh.capacities(), mesh.free(), list(mesh), len(mesh)), ((7, 3), 0, [], 0))
        self.assertTrue(mesh)
        mesh.insert(0, Type.BAR, [0, 1])
        mesh.insert(2, Type.BAR, [1, 2])
        self.assertEqual((mesh.free(), list(mesh), mesh.cells(Type.BAR), mesh.count(Type.BAR)), (1, [0, 2], [0, 2], 2))
        mesh.insert(1, Type.TRIANGLE, [0, 1, 2])
        self.assertEqual((mesh.free(), mesh.live()), (None, [0, 1, 2]))
        self.assertEqual(list(mesh.around(1)), [0, 2, 1])
        self.assertEqual(repr(mesh), "<Mesh for 7 marks and 3 cells, 3 of them live>")

    def test_lookup(self):
        mesh = triangles([0, 1, 2], [2, 1, 3])
        self.assertEqual(mesh.lookup([2, 1]), Half(0, 1))
        self.assertIsNone(mesh.lookup([0, 3]))

    def test_a_walk_after_an_edit(self):
        mesh = triangles([0, 1, 2], [0, 1, 3], [0, 1, 4])
        walk = mesh.walk(0, 0)
        self.assertEqual(next(walk).half, Half(0, 0))
        mesh.remove(1)
        with self.assertRaises(mengkiloh.CellNotLive):
            next(walk)

    def test_points_and_measures(self):
        mesh = triangles([0, 1, 2], marks=3)
        for positions in ([0, 0, 0, 4, 0, 0, 0, 3, 1], array("h", [0, 0, 0, 4, 0, 0, 0, 3, 1])):
            self.assertEqual(mesh.measure(positions, 0), Measure(MeasureKind.DOUBLED_AREA, 12.0))
            self.assertEqual(mesh.points(positions, 0), [Point(0, 0, 0), Point(4, 0, 0), Point(0, 3, 1)])
            self.assertEqual(mesh.centre(positions, 0), Point(4 / 3, 1.0, 1 / 3))


class Surfaces(unittest.TestCase):
    def test_read_and_written(self):
        mesh, positions = Mesh(bytearray(4 * room(4, 2))), array("h", [99] * 14)
        mesh.read_off(positions, b"OFF 4 2 9\n0 0 0 1 0 -0 -32768 32767 0\n007 1 5\n\n3 0 1 2 4 0 1 2 3")
        self.assertEqual(positions.tolist(), [0, 0, 0, 1, 0, 0, -32768, 32767, 0, 7, 1, 5, 99, 99])
        self.assertEqual([mesh.marks_of(cell) for cell in mesh], [[0, 1, 2], [0, 1, 2, 3]])
        self.assertEqual(mesh.write_off(positions), b"OFF\n4 2 0\n0 0 0\n1 0 0\n-32768 32767 0\n7 1 5\n3 0 1 2\n4 0 1 2 3\n")
        mesh.remove(0)
        self.assertEqual(mesh.write_off(positions), b"OFF\n4 1 0\n0 0 0\n1 0 0\n-32768 32767 0\n7 1 5\n4 0 1 2 3\n")

    def test_refused(self):
        mesh, positions = Mesh(bytearray(4 * room(4, 2))), array("h", [99] * 12)
        vertices = b"0 0 0 1 0 0 2 0 0 3 0 0 "
        for number, place, text in (
            (17, 4, b"OFF +1 0 0"),
            (17, 9, b"OFF 0 1 0"),
            (1, 0, b"OFF 0 65536 0" + b" 3 0 1 2" * 65_536),
            (2, 0, b"OFF 4 3 0 " + vertices + b"3 0 1 2 3 0 1 2 3 0 1 2"),
            (16, 0, b"OFF 5 0 0 " + vertices + b"0 0 0"),
            (9, 1, b"OFF 4 2 0 " + vertices + b"3 0 1 2 4 0 1 2 2"),
        ):
            with self.assertRaises(refusals.REFUSALS[number]) as caught:
                mesh.read_off(positions, text)
            self.assertEqual(caught.exception.place, place)
            self.assertEqual(positions.tolist(), [99] * 12)
        self.assertEqual(len(mesh), 0)
        mesh.insert(1, Type.TETRAHEDRON, [0, 1, 2, 3])
        with self.assertRaises(mengkiloh.NotSurface):
            mesh.write_off(positions)
        with self.assertRaises(mengkiloh.PositionsShort):
            mesh.write_off(positions[:11])
        with self.assertRaises(mengkiloh.NotMesh):
            Mesh(bytearray(60)).write_off(positions)
        with self.assertRaises(TypeError):
            mesh.read_off([0] * 12, b"OFF 0 0 0")


class Licences(unittest.TestCase):
    LARGEST = 2**32 - 1

    def test_given_at_insertion_and_read_back(self):
        mesh = Mesh.with_room(6, 4)
        for cell, licence in enumerate((7, 0, self.LARGEST)):
            mesh.insert(cell, Type.TRIANGLE, [cell, 4, 5], licence)
            self.assertEqual((mesh.licence_of(cell), mesh.type_of(cell), mesh.marks_of(cell)), (licence, Type.TRIANGLE, [cell, 4, 5]))
        mesh.insert(3, Type.TRIANGLE, [3, 4, 5])
        self.assertEqual(mesh.licence_of(3), 0)
        self.assertTrue(mesh.whole())
        with self.assertRaises(mengkiloh.CellOutside):
            mesh.licence_of(4)
        mesh.remove(2)
        with self.assertRaises(mengkiloh.CellNotLive):
            mesh.licence_of(2)
        with self.assertRaises(mengkiloh.NotMesh):
            Mesh(bytearray(60)).licence_of(0)

    def test_no_check_looks_at_them(self):
        mesh = triangles([0, 1, 2])
        for licence in (0, 7, self.LARGEST):
            with self.assertRaises(mengkiloh.CellSame):
                mesh.insert(1, Type.TRIANGLE, [2, 0, 1], licence)
        self.assertEqual((mesh.live(), mesh.licence_of(0)), ([0], 0))

    def test_records_and_edits_have_them(self):
        records = [Insert(0, Type.TRIANGLE, [0, 1, 2], 7), Insert(1, Type.BAR, [0, 1], self.LARGEST), Insert(3, Type.BAR, [1, 2])]
        built, listed = Mesh(bytearray(4 * room(6, 4))), Mesh.with_room(6, 4)
        built.build(6, 4, records)
        self.assertEqual([built.licence_of(cell) for cell in built], [7, self.LARGEST, 0])
        self.assertEqual(listed.edits(records), 3)
        self.assertEqual(listed.memory, built.memory)
        one_by_one, plain = Mesh.with_room(6, 4), Mesh(bytearray(4 * room(6, 4)))
        for record in records:
            one_by_one.insert(*record)
        self.assertEqual(one_by_one.memory, built.memory)
        # tuples of the same parts, the licence there or left out
        plain.build(6, 4, [tuple(records[0]), tuple(records[1]), records[2][:3]])
        self.assertEqual(plain.memory, built.memory)
        with self.assertRaises(TypeError):
            plain.build(6, 4, [(0, Type.BAR)])

    def test_complaints(self):
        mesh = triangles([0, 1, 2], marks=7, count=6)
        kept = Journal.begin(mesh, edits=8)
        kept.insert(10, 1, Type.TRIANGLE, [2, 1, 3], 9)
        kept.insert(10, 2, Type.BAR, [1, 4], self.LARGEST)
        kept.insert(20, 3, Type.TETRAHEDRON, [1, 4, 5, 6], 3)
        kept.insert(20, 4, Type.BAR, [1, 5], 9)
        kept.remove(30, 3)
        rows = {9: [], 10: [9, self.LARGEST], 19: [9, self.LARGEST], 20: [3, 9, self.LARGEST], 29: [3, 9, self.LARGEST], 30: [9, self.LARGEST]}
        self.assertEqual({day: kept.licences(day, 1) for day in rows}, rows)
        self.assertEqual((kept.licences(29, 6), kept.licences(2**32 - 1, 6), kept.licences(29, 0)), ([3], [], []))
        self.assertEqual([kept.on(day).licence_of(1) for day in (10, 30)], [9, 9])

    def test_refused(self):
        mesh = triangles([0, 1, 2], marks=6, count=4)
        kept = Journal.begin(mesh, edits=4)
        kept.remove(100, 0)
        kept.insert(500, 0, Type.BAR, [0, 1], 5)
        kept.fold(110)
        short, exact = bytearray(4 * room(6, 4) - 4), bytearray(4 * room(6, 4))
        for refused, day, mark, memory in (
            (mengkiloh.DayFolded, 109, 6, short),
            (mengkiloh.MemoryShort, 110, 6, short),
            (mengkiloh.MarkOutside, 110, 6, exact),
        ):
            with self.assertRaises(refused):
                kept.licences(day, mark, memory)
            self.assertFalse(any(memory))
        self.assertEqual(kept.licences(500, 1, exact), [5])
        self.assertEqual(exact, mesh.memory)
        with self.assertRaises(ValueError):
            kept.licences(500, 1, kept.start)
        for bad in (2**32, -1):
            for call in (lambda: kept.licences(bad, 0), lambda: kept.licences(0, bad), lambda: kept.insert(500, 1, Type.BAR, [1, 2], bad)):
                with self.assertRaises(ValueError):
                    call()
        kept.memory[0] ^= 1
        with self.assertRaises(mengkiloh.NotMesh):
            kept.licences(500, 1)

    def test_as_many_as_a_mark_has(self):
        mesh = Mesh.with_room(140, 140)
        for cell in range(128):
            mesh.insert(cell, Type.BAR, [0, cell + 1], self.LARGEST - cell)
        kept = Journal.begin(mesh, edits=1)
        self.assertEqual(kept.licences(0, 0), list(range(self.LARGEST - 127, self.LARGEST + 1)))


class Plans(unittest.TestCase):
    """Planned changes: the check and the planner."""

    STANDS = (1, Type.TRIANGLE, [2, 1, 3], 7)
    TURNED = Insert(0, Type.TRIANGLE, [0, 2, 1])
    BAR = Insert(2, Type.BAR, [3, 4], 9)

    def today(self):
        mesh = Mesh.with_room(6, 4)
        mesh.insert(0, Type.TRIANGLE, [0, 1, 2])
        mesh.insert(*self.STANDS)
        return mesh

    def test_a_plan_passes(self):
        today, wanted = self.today(), [self.BAR, self.STANDS, self.TURNED]
        before = bytes(today.memory)
        plan = today.plan(wanted)
        self.assertEqual(plan, [Remove(0), self.BAR, self.TURNED])
        second = bytearray(4 * room(6, 4))
        after = today.check_plan(plan, wanted, second)
        self.assertIs(after.memory, second)
        self.assertEqual(([after.marks_of(cell) for cell in after], after.licence_of(1)), ([[0, 2, 1], [2, 1, 3], [3, 4]], 7))
        built = Mesh(bytearray(4 * room(6, 4)))
        built.build(6, 4, wanted)
        self.assertEqual((second, bytes(today.memory)), (built.memory, before))
        self.assertEqual(today.check_plan(plan, wanted).memory, second)
        self.assertEqual((today.plan([]), Mesh.with_room(6, 4).plan([])), ([Remove(0), Remove(1)], []))
        # every type there and back, with a licence
        empty = Mesh.with_room(8, 7)
        all_ = [Insert(kind - 1, kind, list(range(kind.marks)), 2**32 - kind) for kind in Type]
        self.assertEqual(empty.plan(all_), all_)
        self.assertEqual(empty.check_plan(all_, all_).live(), list(range(7)))

    def test_a_wrong_plan_says_where(self):
        today, wanted = self.today(), [self.BAR, self.STANDS, self.TURNED]
        for edits, place, left in (
            ([Remove(0), Remove(0), self.BAR], 1, [1]),
            ([self.BAR, self.TURNED], 1, [0, 1, 2]),
            ([Remove(0), self.BAR, self.TURNED._replace(kind=Type.QUAD)], 2, [1, 2]),
            ([Remove(0), self.BAR], 2, [1, 2]),
            ([Remove(0), self.BAR, self.TURNED._replace(licence=1)], 3, [0, 1, 2]),
            ([], 0, [0, 1]),
        ):
            second = bytearray(4 * room(6, 4))
            with self.assertRaises(mengkiloh.PlanWrong) as caught:
                today.check_plan(edits, wanted, second)
            self.assertEqual((caught.exception.place, Mesh(second).live()), (place, left))
        with self.assertRaises(mengkiloh.PlanWrong):
            today.check_plan([], [*(Insert(cell, today.type_of(cell), today.marks_of(cell), today.licence_of(cell)) for cell in today), self.STANDS])

    def test_refused(self):
        today, short = self.today(), bytearray(4 * room(6, 4) - 4)
        unknown, cut = [(0, 8, [])], [(0, Type.QUAD, [0, 1, 2])]
        for refused, mesh, wanted, second in (
            (mengkiloh.NotMesh, Mesh(bytearray(60)), unknown, short),
            (mengkiloh.MemoryShort, today, unknown, short),
            (mengkiloh.TypeUnknown, today, unknown + cut, None),
            (mengkiloh.CountWrong, today, cut, None),
        ):
            with self.assertRaises(refused) as caught:
                mesh.check_plan([Remove(9)], wanted, second)
            self.assertIsNone(caught.exception.place)
            if refused is not mengkiloh.MemoryShort:
                with self.assertRaises(refused):
                    mesh.plan(wanted)
        self.assertFalse(any(short))
        with self.assertRaises(ValueError):
            today.check_plan([], [], today.memory)
        with self.assertRaises(ValueError):
            today.plan([(2**32, Type.BAR, [0, 1])])
        with self.assertRaises(TypeError):
            today.check_plan([(2, 0)], [])


class Days(unittest.TestCase):
    def test_the_map_on_any_day(self):
        mesh = triangles([0, 1, 2])
        kept = Journal.begin(mesh, edits=2)
        kept.insert(100, 1, Type.TRIANGLE, [2, 1, 3])
        kept.remove(130, 0)
        self.assertEqual([kept.on(day).star(2, 1) for day in (99, 100, 129, 130, 999)], [[0], [0, 1], [0, 1], [1], [1]])
        self.assertTrue(kept.whole())
        with self.assertRaises(mengkiloh.DayBefore):
            kept.remove(129, 1)
        with self.assertRaises(mengkiloh.JournalFull):
            kept.remove(130, 1)
        with self.assertRaises(mengkiloh.CapacityAbove):
            kept.remove(65_536, 1)
        with self.assertRaises(mengkiloh.FoldNotAllowed):
            kept.fold(100)
        with self.assertRaises(ValueError):
            kept.on(2**32)
        self.assertEqual(Journal(mesh, kept.memory, kept.start).on(99).live(), [0])

    def test_folds(self):
        mesh = triangles([0, 1, 2])
        kept = Journal.begin(mesh, edits=2)
        kept.remove(10, 0)
        kept.insert(376, 0, Type.BAR, [0, 1])
        kept.fold(10)
        with self.assertRaises(mengkiloh.DayFolded):
            kept.on(9)
        self.assertEqual((kept.on(10).live(), kept.on(376).live()), ([], [0]))
        with self.assertRaises(mengkiloh.MemoryShort):
            kept.on(376, bytearray(64))

    def test_lent_memory(self):
        mesh = triangles([0, 1, 2], marks=6, count=4)
        memory, start = array("I", [7] * mengkiloh.journal_words(3)), bytearray(4 * room(6, 4))
        kept = Journal.begin(mesh, memory=memory, start=start)
        second = bytearray(4 * room(6, 4))
        self.assertEqual(kept.on(5, second).live(), [0])
        self.assertEqual(bytes(second), bytes(start))
        with self.assertRaises(ValueError):
            Journal.begin(mesh, start=mesh.memory)
        with self.assertRaises(ValueError):
            kept.on(5, start)


class Module(unittest.TestCase):
    def test_versions_are_one(self):
        said = re.search(r"^#define MK_VERSION (0x[0-9a-f]+)", (ROOT / "include" / "mengkiloh.h").read_text(), re.M)
        version = ".".join(map(str, mengkiloh.version()))
        number = int(said[1], 16)
        self.assertEqual(version, f"{number >> 16}.{number >> 8 & 255}.{number & 255}")
        self.assertEqual(mengkiloh.__version__, version)
        for file in ("python/pyproject.toml", "bindings/Cargo.toml"):
            self.assertIn(f'version = "{version}"', (ROOT / file).read_text())

    def test_every_call_of_the_header_is_here(self):
        header = (ROOT / "include" / "mengkiloh.h").read_text()
        calls = set(re.findall(r"^uint(?:8|32)_t (mk_\w+)\(", header, re.M))
        # those of an edition, and that with a licence, stand for both
        self.assertEqual(calls, {*library.CALLS, "mk_version", "mk_format", "mk_build", "mk_insert"})

    def test_what_the_docstrings_show(self):
        for module in (mengkiloh, journal):
            failed, tried = doctest.testmod(module)
            self.assertEqual(failed, 0)
            self.assertGreater(tried, 0)


if __name__ == "__main__":
    unittest.main()

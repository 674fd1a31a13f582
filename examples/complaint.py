#!/usr/bin/env python3
"""A complaint, start to end, from Python: a viaduct over a hillside, the cells
around a mark, one removed, the cells again; their measures; a morning's edits in
one call; solids under the second edition; the same mark on earlier days; and the
licences to ask, of the day before a cell was removed and of the day after.

    PYTHONPATH=python python3 examples/complaint.py
"""
from array import array

from mengkiloh import Edition, Insert, Journal, Mesh, Refused, Remove, Tally, Type

# three whole metres a mark
POSITIONS = array(
    "h",
    [
        *(0, 0, 0, 40, 0, 2, 0, 30, 4, 40, 30, 5, -20, 30, 6),
        *(-20, 60, 8, 0, 90, 9, 40, 90, 9, 0, 30, 50),
    ],
)


def tell(mesh, mark):
    for dimension in (1, 2, 3):
        cells = mesh.star(dimension, mark)
        licences = [mesh.licence_of(cell) for cell in cells]
        print(f"mark {mark}, dimension {dimension}: cells {cells}, licences {licences}")
    for cell, facet in mesh.anchors(2, mark):
        print(f"a sheet begins at cell {cell}, facet {facet}")
    # round the edge of marks 1 and 2, and whether each two agree in direction
    for (cell, facet), way in mesh.walk(0, 1):
        print(f"cell {cell}, facet {facet}: the next runs {way.name.capitalize()}")


def main():
    # a hillside of two sheets that touch in mark 2, and over it a viaduct: a
    # deck on the edge of marks 1 and 2, which then has three cells
    mesh = Mesh.with_room(9, 8)
    hill, far_side, bridge = 12, 31, 77
    mesh.insert(0, Type.TRIANGLE, [0, 1, 2], hill)
    mesh.insert(1, Type.TRIANGLE, [1, 3, 2], hill)
    mesh.insert(2, Type.TRIANGLE, [2, 4, 5], far_side)
    mesh.insert(3, Type.QUAD, [1, 2, 6, 7], bridge)
    mesh.insert(4, Type.BAR, [2, 8])

    tell(mesh, 2)
    print("cell 1 is taken down")
    mesh.remove(1)
    tell(mesh, 2)

    try:
        mesh.insert(5, Type.TRIANGLE, [2, 0, 1])
        print("cell 5 stands")
    except Refused as refused:
        print(f"cell 5 is refused with {refused.number}")

    for cell in (0, 3, 4):
        kind, size = mesh.measure(POSITIONS, cell)
        x, y, z = mesh.centre(POSITIONS, cell)
        print(f"cell {cell}: kind {kind:d}, measure {size:.0f}, centre {x:.2f} {y:.2f} {z:.2f}")

    # a morning's edits; the third is refused, and the fourth not made
    tally = Tally()
    morning = [Remove(2), Insert(6, Type.BAR, [0, 8]), Remove(2), Remove(0)]
    try:
        print(f"{mesh.edits(morning, tally)} edits made")
    except Refused as refused:
        print(f"{refused.made} edits made, then {refused.number}")
    print(f"{tally.accepted} accepted, {tally.refused} refused")

    # under the second edition a face lies between two solids at most
    harbour = Mesh.with_room(6, 4, Edition.SECOND)
    harbour.insert(0, Type.TETRAHEDRON, [0, 1, 2, 3])
    harbour.insert(1, Type.TETRAHEDRON, [0, 2, 1, 4])
    print(f"edition {harbour.edition():d}: ", end="")
    try:
        harbour.insert(2, Type.TETRAHEDRON, [0, 1, 2, 5])
        print("three solids on a face")
    except Refused as refused:
        print(f"a third solid is refused with {refused.number}")

    # from here on the map is edited through a journal: the same mark on earlier days
    journal = Journal.begin(mesh, edits=1000)
    journal.insert(100, 1, Type.TRIANGLE, [1, 3, 2], hill)
    journal.remove(130, 3)
    for day in (99, 129, 130):
        print(f"on day {day}")
        tell(journal.on(day), 2)
    try:
        journal.fold(100)
        print("day 100 is folded")
    except Refused as refused:
        print(f"a fold is refused with {refused.number}")

    # whom to ask for a complaint at mark 2: the day before the deck was taken down, and the day after
    for day in (129, 131):
        print(f"mark 2 on day {day}: ask the licences {journal.licences(day, 2)}")


if __name__ == "__main__":
    main()

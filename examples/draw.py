#!/usr/bin/env python3
"""Draws the hillside and the viaduct as SVG, with the cells around a mark marked, and says in plain text what is drawn.

    PYTHONPATH=python python3 examples/draw.py [FOLDER [MARK]]

FOLDER gets hillside.svg and viaduct.svg, and facets.svg, the hillside with its half-facets; where matplotlib is installed, hillside.png and viaduct.png
too. Read it from top to bottom: first the maps, then the question, then the drawings.
"""
import sys
from pathlib import Path

from mengkiloh import Mesh, Type

# %% The maps. Positions are three whole metres a mark: x to the east, y to the north, z up.


def hillside():
    """Two sheets of triangles that only touch, in mark 2."""
    positions = [0, 0, 0, 40, 0, 2, 20, 30, 8, 60, 32, 5, 0, 58, 6, 38, 64, 9]
    mesh = Mesh.with_room(marks=6, cells=8)
    mesh.insert(0, Type.TRIANGLE, [0, 1, 2])
    mesh.insert(1, Type.TRIANGLE, [1, 3, 2])
    mesh.insert(2, Type.TRIANGLE, [2, 5, 4])
    return mesh, positions


def viaduct():
    """Over the hillside a deck of two pieces, the first on the edge of marks 1 and 2, which then has three cells, and a mast."""
    below, positions = hillside()
    positions = positions + [96, 46, 14, 112, 14, 14, 20, 44, 30, 124, 40, 14]
    mesh = Mesh.with_room(marks=10, cells=8)
    for cell in below:
        mesh.insert(cell, below.type_of(cell), below.marks_of(cell))
    mesh.insert(3, Type.QUAD, [2, 1, 7, 6])
    mesh.insert(4, Type.BAR, [2, 8])
    mesh.insert(5, Type.TRIANGLE, [6, 7, 9])
    return mesh, positions


# %% The question: a complaint names a mark; which cells are around it, and in how many groups?


def told(name, mesh, mark):
    """The map, the cells around the mark and where each sheet begins, in plain text."""
    yield f"{name}: " + ", ".join(f"cell {cell} {mesh.type_of(cell).name.lower()} {mesh.marks_of(cell)}" for cell in mesh)
    yield f"  around mark {mark}: cells " + (", ".join(map(str, sorted(mesh.around(mark)))) or "none")
    for cell, facet in mesh.anchors(2, mark):
        yield f"  a sheet begins at cell {cell}, facet {facet}"


# %% The drawings: in the plan, the cells around the mark in colour.

SCALE, MARGIN = 5, 30
STYLE = """
  .cell { fill: #e8e8e4; stroke: #555; stroke-width: 1.5; stroke-linejoin: round; fill-opacity: 0.6 }
  .around { fill: #f6c667 }
  .bar { fill: none; stroke-width: 4 }
  .bar.around { stroke: #d08700 }
  .mark { fill: #222 }
  .asked { fill: #c0262d }
  text { font: 14px sans-serif; text-anchor: middle; dominant-baseline: central; fill: #222 }
  .name { font-weight: bold }
  .number { fill: #fff; font-size: 11px }
  .border { stroke: #222; stroke-width: 4 }
  .shared { stroke: #2a6fb0; stroke-width: 4 }
  .sibling { fill: none; stroke: #2a6fb0; stroke-width: 2; stroke-dasharray: 4 3 }
  .anchor { fill: none; stroke: #c0262d; stroke-width: 2 }
  .half { font-size: 12px }
"""


class Plan:
    """The plan on paper: a picture's size, and where a point of the map lies."""

    def __init__(self, positions, scale=SCALE):
        self.scale = scale
        self.width = MARGIN * 2 + scale * max(positions[0::3])
        self.height = MARGIN * 2 + scale * max(positions[1::3])

    def at(self, x, y):
        return round(MARGIN + self.scale * x, 1), round(self.height - MARGIN - self.scale * y, 1)

    def framed(self, title, lines):
        yield f'<svg xmlns="http://www.w3.org/2000/svg" viewBox="0 0 {self.width} {self.height}" width="{self.width}" height="{self.height}">'
        yield f"<title>{title}</title>\n<style>{STYLE}</style>"
        yield '<rect width="100%" height="100%" fill="#fff"/>'
        yield from lines
        yield "</svg>\n"

    def marks(self, mesh, positions, mark):
        for number in range(mesh.capacities().marks):
            x, y = self.at(*positions[3 * number : 3 * number + 2])
            kind = "asked" if number == mark else "mark"
            yield f'<circle class="{kind}" cx="{x}" cy="{y}" r="9"/><text class="number" x="{x}" y="{y}">{number}</text>'


def around_svg(name, mesh, positions, mark):
    """The map as SVG, by the standard library alone."""
    plan = Plan(positions)
    around = set(mesh.around(mark))

    def lines():
        for cell in mesh:
            corners = [plan.at(point.x, point.y) for point in mesh.points(positions, cell)]
            kinds = ["cell", *["around"] * (cell in around), *["bar"] * (len(corners) == 2)]
            path = " ".join(f"{x},{y}" for x, y in corners)
            yield f'<polygon class="{" ".join(kinds)}" points="{path}"/>'
        for cell in mesh:
            centre = mesh.centre(positions, cell)
            x, y = plan.at(centre.x, centre.y)
            yield f'<text class="name" x="{x}" y="{y}">{cell}</text>'
        yield from plan.marks(mesh, positions, mark)

    return plan.framed(f"{name}: the cells around mark {mark}", lines())


def facets_svg(name, mesh, positions, mark):
    """Triangles and quads drawn apart from each other, each facet with its half-facet's number, siblings joined, the mark's anchors ringed."""
    plan = Plan(positions, scale=9)
    anchors = mesh.anchors(2, mark)

    def toward(point, centre, part):
        return tuple(a + (b - a) * part for a, b in zip(point[:2], centre[:2]))

    def facets():
        for cell in mesh:
            centre, corners = mesh.centre(positions, cell), mesh.points(positions, cell)
            apart = [toward(corner, centre, 0.2) for corner in corners]
            for facet, begin in enumerate(apart):
                end = apart[(facet + 1) % len(apart)]
                middle = toward(begin, end, 0.5)
                yield (cell, facet), begin, end, middle, toward(middle, centre, 0.3)

    def lines():
        places = {half: middle for half, _, _, middle, _ in facets()}
        for half, begin, end, _, label in facets():
            kind = "border" if mesh.border(*half) else "shared"
            (x1, y1), (x2, y2), (x, y) = plan.at(*begin), plan.at(*end), plan.at(*label)
            yield f'<line class="{kind}" x1="{x1}" y1="{y1}" x2="{x2}" y2="{y2}"/>'
            yield f'<text class="half" x="{x}" y="{y}">{8 * half[0] + half[1]}</text>'
            if half in anchors:
                yield f'<circle class="anchor" cx="{x}" cy="{y}" r="11"/>'
            there = mesh.sibling(*half).half
            if there > half:
                (x1, y1), (x2, y2) = plan.at(*places[half]), plan.at(*places[there])
                yield f'<line class="sibling" x1="{x1}" y1="{y1}" x2="{x2}" y2="{y2}"/>'
        for cell in mesh:
            x, y = plan.at(*mesh.centre(positions, cell)[:2])
            yield f'<text class="name" x="{x}" y="{y}">cell {cell}</text>'
        yield from plan.marks(mesh, positions, mark)

    return plan.framed(f"{name}: half-facets, siblings, and the anchors of mark {mark}", lines())


def png(file, mesh, positions, mark):
    """The same by matplotlib, where it is installed."""
    import matplotlib

    matplotlib.use("Agg")
    from matplotlib import pyplot

    figure, axes = pyplot.subplots()
    around = set(mesh.around(mark))
    for cell in mesh:
        corners = [(point.x, point.y) for point in mesh.points(positions, cell)]
        colour = "#f6c667" if cell in around else "#e8e8e4"
        axes.fill(*zip(*corners), facecolor=colour, edgecolor="#555555")
        axes.annotate(str(cell), mesh.centre(positions, cell)[:2])
    axes.plot(positions[0::3], positions[1::3], "o", color="#222222")
    axes.plot(*positions[3 * mark : 3 * mark + 2], "o", color="#c0262d")
    axes.set_aspect("equal")
    figure.savefig(file)
    pyplot.close(figure)


def main():
    folder = Path(sys.argv[1] if len(sys.argv) > 1 else ".")
    mark = int(sys.argv[2]) if len(sys.argv) > 2 else 2
    folder.mkdir(parents=True, exist_ok=True)
    for name, make in (("hillside", hillside), ("viaduct", viaduct)):
        mesh, positions = make()
        print("\n".join(told(name, mesh, mark)))
        (folder / f"{name}.svg").write_text("\n".join(around_svg(name, mesh, positions, mark)))
        try:
            png(folder / f"{name}.png", mesh, positions, mark)
        except ImportError:
            pass
    mesh, positions = hillside()
    (folder / "facets.svg").write_text("\n".join(facets_svg("hillside", mesh, positions, mark)))


if __name__ == "__main__":
    main()

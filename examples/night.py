#!/usr/bin/env python3
"""A planned night from Python: what stands today, the cells that are wanted
tomorrow, a plan between them, the plan checked before the night, and made.

    PYTHONPATH=python python3 examples/night.py
"""
from mengkiloh import Insert, Mesh, PlanWrong, Type
from mengkiloh.mesh import edit_words

HILL = [Insert(0, Type.TRIANGLE, [0, 1, 2], 12), Insert(1, Type.TRIANGLE, [1, 3, 2], 12)]


def main():
    # a hillside and a deck over it
    today = Mesh.with_room(9, 8)
    today.edits([*HILL, Insert(3, Type.QUAD, [1, 2, 6, 7], 77)])

    # the deck under another licence, and a mast
    wanted = [Insert(3, Type.QUAD, [1, 2, 6, 7], 78), *HILL, Insert(4, Type.BAR, [2, 8])]

    def check(what, edits):
        try:
            print(f"{what} passes: {len(today.check_plan(edits, wanted))} cells tomorrow")
        except PlanWrong as wrong:
            print(f"{what} is wrong at edit {wrong.place}")

    plan = today.plan(wanted)
    print("the plan:", *(int(word) for edit in plan for word in edit_words(edit)))
    check("the plan", plan)
    check("the plan without its first edit", plan[1:])
    check("the plan without its last edit", plan[:-1])
    print(f"{today.edits(plan)} edits made")
    check("no edit more", [])


if __name__ == "__main__":
    main()

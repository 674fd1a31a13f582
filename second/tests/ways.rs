//! Request 6: which way the sibling runs, by hand and by another description.

mod common;

use common::answers::answers;
use common::maps::*;
use common::random::{map_by_chance, Random};
use second::map::{self, HalfFacet, LiveCell, Mark};
use second::Way::{Lone, Neither, Opposite, Same};
use second::{Memory, Way};

/// The way from each of a set to the next, from a half-facet on.
fn ways(memory: &Memory, cell: u32, facet: u32) -> Vec<(u32, Way)> {
    memory.cycle(cell, facet, PLENTY, PLENTY).unwrap()
}

/// Two cells whose sets are one at these facets: the way from either.
fn between(one: (u32, &[u32], u32), other: (u32, &[u32], u32)) -> Way {
    let memory = mesh(20, 2, &[(0, one.0, one.1), (1, other.0, other.1)]);
    let (there, way) = memory.sibling(0, one.2).unwrap();
    assert_eq!(there, 8 + other.2, "the facets have two sets of marks");
    assert_eq!(memory.sibling(1, other.2), Ok((one.2, way)));
    way
}

#[test]
fn the_words_are_0_to_3() {
    let words = [Lone, Same, Opposite, Neither].map(Way::number);
    assert_eq!(words, [0, 1, 2, 3]);
}

/// "lone (no other)": every facet of a cell by itself.
#[test]
fn a_border_is_lone() {
    let all: [u32; 8] = [0, 1, 2, 3, 4, 5, 6, 7];
    for (code, marks, facets) in [
        (BAR, 2, 2),
        (TRI, 3, 3),
        (QUAD, 4, 4),
        (TETRA, 4, 4),
        (PYRA, 5, 5),
        (PENTA, 6, 5),
        (HEXA, 8, 6),
    ] {
        let memory = mesh(20, 2, &[(1, code, &all[..marks])]);
        for facet in 0..facets {
            assert_eq!(memory.sibling(1, facet), Ok((8 + facet, Lone)));
            assert_eq!(ways(&memory, 1, facet), [(8 + facet, Lone)]);
        }
    }
}

/// "Bar ends are opposite if their places differ, otherwise same."
#[test]
fn bar_ends_go_by_their_places() {
    assert_eq!(between((BAR, &[0, 1], 0), (BAR, &[0, 2], 0)), Same);
    assert_eq!(between((BAR, &[0, 1], 1), (BAR, &[2, 1], 1)), Same);
    assert_eq!(between((BAR, &[0, 1], 1), (BAR, &[1, 2], 0)), Opposite);
    assert_eq!(between((BAR, &[0, 1], 0), (BAR, &[2, 0], 1)), Opposite);
}

/// "An edge is same if its mark lists are equal, opposite if reversed."
#[test]
fn edges_go_by_their_lists() {
    for (marks, facet, due) in [
        ([0, 1, 3], 0, Same),
        ([3, 0, 1], 1, Same),
        ([1, 3, 0], 2, Same),
        ([1, 0, 3], 0, Opposite),
        ([3, 1, 0], 1, Opposite),
        ([0, 3, 1], 2, Opposite),
    ] {
        let way = between((TRI, &[0, 1, 2], 0), (TRI, &marks, facet));
        assert_eq!(way, due, "{marks:?}");
        let [a, b, c] = marks;
        let way = between((QUAD, &[5, 0, 1, 4], 1), (TRI, &[a, b, c], facet));
        assert_eq!(way, due, "{marks:?}");
    }
    let way = between((QUAD, &[0, 1, 2, 3], 3), (QUAD, &[3, 0, 4, 5], 0));
    assert_eq!(way, Same);
    let way = between((QUAD, &[0, 1, 2, 3], 3), (QUAD, &[0, 3, 4, 5], 0));
    assert_eq!(way, Opposite);
}

/// "A face is same if one list is a rotation of the other, opposite if it is a
/// rotation of the other reversed": of three marks there is nothing else. The
/// first face of a tetrahedron is (0,2,1), the last of a wedge (3,4,5), the
/// second of a pyramid (0,1,4).
#[test]
fn faces_of_three_marks_run_one_way_or_the_other() {
    let face = [0, 2, 1];
    for (list, due) in [
        ([0, 2, 1], Same),
        ([2, 1, 0], Same),
        ([1, 0, 2], Same),
        ([0, 1, 2], Opposite),
        ([1, 2, 0], Opposite),
        ([2, 0, 1], Opposite),
    ] {
        let [a, b, c] = list;
        let solid: (u32, &[u32], u32) = (TETRA, &[face[0], face[2], face[1], 9], 0);
        assert_eq!(between(solid, (TETRA, &[a, c, b, 10], 0)), due);
        assert_eq!(between(solid, (PENTA, &[11, 12, 13, a, b, c], 4)), due);
        assert_eq!(between(solid, (PYRA, &[a, b, 11, 12, c], 1)), due);
    }
}

/// Of four marks there are 24 lists: four rotations, four of the reversed, and
/// sixteen that run neither way, each tried with the brick's last face, (4,5,6,7),
/// a pyramid's first, (0,3,2,1), and a wedge's first, (0,1,4,3).
#[test]
fn faces_of_four_marks_may_run_neither_way() {
    let mut seen = [0; 4];
    for a in 0..4 {
        for b in (0..4).filter(|&it| it != a) {
            for c in (0..4).filter(|it| ![a, b].contains(it)) {
                let d = 6 - a - b - c;
                // Round the four marks one way, the other, or across.
                let due = match ((b + 4 - a) % 4, (c + 4 - b) % 4, (d + 4 - c) % 4) {
                    (1, 1, 1) => Same,
                    (3, 3, 3) => Opposite,
                    _ => Neither,
                };
                let brick: (u32, &[u32], u32) = (HEXA, &[8, 9, 10, 11, 0, 1, 2, 3], 5);
                assert_eq!(between(brick, (PYRA, &[a, d, c, b, 12], 0)), due);
                assert_eq!(between(brick, (PENTA, &[a, b, 12, d, c, 13], 0)), due);
                let other: &[u32] = &[12, 13, 14, 15, a, b, c, d];
                assert_eq!(between(brick, (HEXA, other, 5)), due);
                seen[due.number() as usize] += 1;
            }
        }
    }
    assert_eq!(seen, [0, 4, 4, 16]);
}

/// A cycle of four on one face: each entry has the way of its own sibling, the
/// next one, and of no other.
#[test]
fn a_cycle_has_the_way_from_each_to_the_next() {
    let memory = mesh(
        12,
        4,
        &[
            (0, HEXA, &[0, 1, 2, 3, 4, 5, 6, 7]),
            (1, PYRA, &[7, 6, 5, 4, 8]),
            (2, PYRA, &[7, 4, 6, 5, 9]),
            (3, HEXA, &[4, 5, 6, 7, 8, 9, 10, 11]),
        ],
    );
    let round = [(5, Same), (8, Neither), (16, Neither), (24, Opposite)];
    for start in 0..4 {
        let mut due = round.to_vec();
        due.rotate_left(start);
        let half = due[0].0;
        assert_eq!(ways(&memory, half / 8, half % 8), due);
    }
}

/// The last of three leads to the first, and not back to the second.
#[test]
fn the_way_is_that_of_the_sibling_and_not_of_another() {
    let memory = mesh(
        6,
        4,
        &[
            (0, TRI, &[0, 1, 2]),
            (1, TRI, &[1, 0, 3]),
            (2, TRI, &[1, 0, 4]),
        ],
    );
    assert_eq!(memory.sibling(0, 0), Ok((8, Opposite)));
    assert_eq!(memory.sibling(1, 0), Ok((16, Same)));
    assert_eq!(memory.sibling(2, 0), Ok((0, Opposite)));
}

/// A cell that comes back the other way round: its half-facet has the same
/// number, and what leads to it and from it runs otherwise.
#[test]
fn an_edit_may_change_the_way_alone() {
    let mut memory = p4();
    assert_eq!(memory.sibling(0, 0), Ok((8, Same)));
    memory.remove(1).unwrap();
    assert_eq!(memory.sibling(0, 0), Ok((16, Same)));
    memory.insert(1, TRI, &[1, 0, 3]).unwrap();
    assert_eq!(memory.sibling(0, 0), Ok((8, Opposite)));
    assert_eq!(memory.sibling(1, 0), Ok((16, Opposite)));
    assert_eq!(memory.sibling(2, 0), Ok((0, Same)));
    memory.remove(0).unwrap();
    memory.remove(2).unwrap();
    assert_eq!(memory.sibling(1, 0), Ok((8, Lone)));
}

/// Another description, by where each mark leads: round a face the same way, each
/// mark is followed by the same mark; round it the opposite way, by the one that
/// stood before it. An edge has a first mark, a bar's end a place in its bar.
#[test]
fn ways_go_by_what_follows_each_mark() {
    let mut random = Random::from_seed(21);
    let mut seen = [[0; 4]; 5];
    for map in 0..60 {
        let memory = map_by_chance(&mut random, 8 + map % 3, 24, 1);
        let live = &memory.mesh.as_ref().unwrap().live;
        for half in map::half_facets(live) {
            let (next, way) = memory.sibling(half.cell.0, half.facet).unwrap();
            let other = half_facet(live, next);
            let due = match half.marks.len() {
                _ if next == half.number() => Lone,
                1 if end(live, &half) == end(live, &other) => Same,
                2 if half.marks[0] == other.marks[0] => Same,
                1 | 2 => Opposite,
                _ if half
                    .marks
                    .iter()
                    .all(|&it| behind(&half, it) == behind(&other, it)) =>
                {
                    Same
                }
                _ if half
                    .marks
                    .iter()
                    .all(|&it| ahead(&half, it) == behind(&other, it)) =>
                {
                    Opposite
                }
                _ => Neither,
            };
            assert_eq!(way, due, "{half:?} {other:?}");
            seen[half.marks.len()][way.number() as usize] += 1;
        }
    }
    for (size, words) in [(1, 3), (2, 3), (3, 3), (4, 4)] {
        let of_size = &seen[size][..words];
        assert!(
            of_size.iter().all(|&count| count > 0),
            "{size}: {of_size:?}"
        );
    }
}

fn half_facet(live: &[LiveCell], number: u32) -> HalfFacet {
    let mut all = map::half_facets(live).into_iter();
    all.find(|half| half.number() == number).unwrap()
}

/// Where in its bar an end stands.
fn end(live: &[LiveCell], half: &HalfFacet) -> Option<usize> {
    let bar = map::live_cell(live, half.cell).unwrap();
    bar.marks.iter().position(|&mark| mark == half.marks[0])
}

fn behind(half: &HalfFacet, mark: Mark) -> Mark {
    let place = half.marks.iter().position(|&it| it == mark).unwrap();
    half.marks[(place + 1) % half.marks.len()]
}

fn ahead(half: &HalfFacet, mark: Mark) -> Mark {
    let place = half.marks.iter().position(|&it| it == mark).unwrap();
    half.marks[(place + half.marks.len() - 1) % half.marks.len()]
}

/// "Demand 3 holds for the new word": cells taken out and put back in any order
/// leave no trace in any way.
#[test]
fn ways_are_those_of_a_mesh_built_afresh() {
    let mut random = Random::from_seed(22);
    for map in 0..10 {
        let memory = map_by_chance(&mut random, 7 + map % 4, 14, 1 + map % 2);
        let due = answers(&memory);
        let mut cells: Vec<LiveCell> = memory.mesh.as_ref().unwrap().live.clone();
        random.shuffle(&mut cells);
        let mut edited = memory.clone();
        for cell in &cells {
            edited.remove(cell.number.0).unwrap();
        }
        for cell in cells.iter().rev() {
            let marks: Vec<u32> = cell.marks.iter().map(|mark| mark.0).collect();
            edited
                .insert_licensed(cell.number.0, cell.row.code, cell.licence, &marks)
                .unwrap();
        }
        assert_eq!(answers(&edited), due);
    }
}

//! Request 1: pyramids, wedges and bricks, by hand.

mod common;

use common::maps::*;
use second::{Memory, Refusal};

const BRICK: [u32; 8] = [0, 1, 2, 3, 4, 5, 6, 7];

/// The faces of a cell, as the request lists them.
type Faces<'a> = &'a [&'a [u32]];

/// A solid alone: each face is a border, its own sibling and found by its set,
/// and each mark has the first face that holds it for its anchor.
fn check_alone(code: u32, marks: &[u32], faces: Faces) {
    let memory = mesh(20, 4, &[(2, code, marks)]);
    assert_eq!(memory.type_of(2), Ok(code));
    assert_eq!(memory.marks_of(2), marks);
    assert_eq!(memory.neighbours(2, PLENTY), Ok(vec![]));
    for (facet, face) in (0..).zip(faces) {
        let half = 16 + facet;
        assert_eq!(memory.next(2, facet), Ok(half));
        assert_eq!(memory.ring(2, facet, PLENTY), Ok(vec![half]));
        assert_eq!(memory.border(2, facet), Ok(true));
        assert_eq!(memory.lookup(face), Ok(Some(half)));
        let turned: Vec<u32> = face.iter().rev().copied().collect();
        assert_eq!(memory.lookup(&turned), Ok(Some(half)));
    }
    let beyond = faces.len() as u32;
    assert_eq!(memory.next(2, beyond), Err(Refusal::FacetOutside));
    for mark in 0..20 {
        let first = (16..).zip(faces).find(|(_, face)| face.contains(&mark));
        let due: Vec<u32> = first.map(|(half, _)| half).into_iter().collect();
        assert_eq!(due.is_empty(), !marks.contains(&mark));
        assert_eq!(memory.anchors(3, mark, PLENTY), Ok(due.clone()));
        assert_eq!(memory.first_anchor(3, mark), Ok(due.first().copied()));
        let star = due.iter().map(|half| half / 8).collect();
        assert_eq!(memory.star(3, mark, PLENTY), Ok(star));
        assert_eq!(memory.star(2, mark, PLENTY), Ok(vec![]));
    }
    for other in 1..=7 {
        let due = if other == code { vec![2] } else { vec![] };
        assert_eq!(memory.count_of_type(other), Ok(due.len()));
        assert_eq!(memory.cells_of_type(other, PLENTY), Ok(due));
    }
    assert!(memory.whole());
}

#[test]
fn a_pyramid_alone() {
    let faces: Faces = &[
        &[10, 13, 12, 11],
        &[10, 11, 14],
        &[11, 12, 14],
        &[12, 13, 14],
        &[13, 10, 14],
    ];
    check_alone(PYRA, &[10, 11, 12, 13, 14], faces);
}

#[test]
fn a_wedge_alone() {
    let faces: Faces = &[
        &[10, 11, 14, 13],
        &[11, 12, 15, 14],
        &[12, 10, 13, 15],
        &[10, 12, 11],
        &[13, 14, 15],
    ];
    check_alone(PENTA, &[10, 11, 12, 13, 14, 15], faces);
}

#[test]
fn a_brick_alone() {
    let faces: Faces = &[
        &[10, 13, 12, 11],
        &[10, 11, 15, 14],
        &[11, 12, 16, 15],
        &[12, 13, 17, 16],
        &[10, 14, 17, 13],
        &[14, 15, 16, 17],
    ];
    check_alone(HEXA, &[10, 11, 12, 13, 14, 15, 16, 17], faces);
}

#[test]
fn a_brick_on_a_brick() {
    let memory = mesh(
        12,
        4,
        &[(0, HEXA, &BRICK), (1, HEXA, &[4, 5, 6, 7, 8, 9, 10, 11])],
    );
    assert_eq!(memory.next(0, 5), Ok(8));
    assert_eq!(memory.next(1, 0), Ok(5));
    assert_eq!(memory.lookup(&[7, 5, 6, 4]), Ok(Some(5)));
    for facet in 0..5 {
        assert_eq!(memory.border(0, facet), Ok(true));
        assert_eq!(memory.border(1, facet + 1), Ok(true));
    }
    assert_eq!(memory.neighbours(1, PLENTY), Ok(vec![0]));
    assert_eq!(memory.star(3, 4, PLENTY), Ok(vec![0, 1]));
    assert_eq!(memory.anchors(3, 4, PLENTY), Ok(vec![1]));
    assert_eq!(memory.anchors(3, 8, PLENTY), Ok(vec![9]));
}

#[test]
fn a_pyramid_on_a_brick() {
    let mut memory = mesh(12, 4, &[(3, HEXA, &BRICK), (1, PYRA, &[4, 5, 6, 7, 8])]);
    assert_eq!(memory.next(3, 5), Ok(8));
    assert_eq!(memory.next(1, 0), Ok(29));
    assert_eq!(memory.lookup(&[4, 5, 6, 7]), Ok(Some(8)));
    assert_eq!(memory.lookup(&[4, 5, 8]), Ok(Some(9)));
    assert_eq!(memory.neighbours(3, PLENTY), Ok(vec![1]));
    assert_eq!(memory.remove(1), Ok(()));
    assert_eq!(memory.next(3, 5), Ok(29));
    assert_eq!(memory.lookup(&[4, 5, 6, 7]), Ok(Some(29)));
    assert_eq!(memory.lookup(&[4, 5, 8]), Ok(None));
}

/// A wedge with a brick on two of its faces, a tetrahedron and a pyramid on
/// its ends.
fn wedge_between() -> Memory {
    mesh(
        17,
        5,
        &[
            (0, HEXA, &BRICK),
            (1, PENTA, &[1, 2, 8, 5, 6, 9]),
            (2, HEXA, &[2, 8, 9, 6, 10, 11, 12, 13]),
            (3, TETRA, &[1, 2, 8, 14]),
            (4, PYRA, &[5, 6, 15, 16, 9]),
        ],
    )
}

#[test]
fn a_wedge_between() {
    let memory = wedge_between();
    for (cell, facet, due) in [
        (0, 2, 8),
        (1, 0, 2),
        (1, 1, 16),
        (2, 0, 9),
        (1, 3, 24),
        (3, 0, 11),
        (1, 4, 33),
        (4, 1, 12),
        (1, 2, 10),
    ] {
        assert_eq!(memory.next(cell, facet), Ok(due), "{cell} {facet}");
    }
    assert_eq!(memory.border(1, 2), Ok(true));
    assert_eq!(memory.neighbours(1, PLENTY), Ok(vec![0, 2, 3, 4]));
    assert_eq!(memory.neighbours(2, PLENTY), Ok(vec![1]));
    assert_eq!(memory.star(3, 5, PLENTY), Ok(vec![0, 1, 4]));
    assert_eq!(memory.anchors(3, 5, PLENTY), Ok(vec![1]));
    assert_eq!(memory.anchors(3, 8, PLENTY), Ok(vec![10]));
    assert_eq!(memory.lookup(&[9, 6, 5]), Ok(Some(12)));
}

/// Without the wedge the two bricks share an edge only.
#[test]
fn a_wedge_taken_away() {
    let mut memory = wedge_between();
    assert_eq!(memory.anchors(3, 6, PLENTY).map(|them| them.len()), Ok(1));
    assert_eq!(memory.remove(1), Ok(()));
    assert_eq!(memory.anchors(3, 6, PLENTY), Ok(vec![2, 16, 32]));
    assert_eq!(memory.neighbours(0, PLENTY), Ok(vec![]));
}

/// A quad on a brick's face has its set of marks, but its facets are edges.
#[test]
fn a_facet_of_a_solid_is_never_the_sibling_of_an_edge() {
    let memory = mesh(
        9,
        4,
        &[
            (0, QUAD, &[4, 5, 6, 7]),
            (1, HEXA, &BRICK),
            (2, TRI, &[4, 5, 8]),
            (3, PYRA, &[4, 5, 6, 7, 8]),
        ],
    );
    assert_eq!(memory.ring(1, 5, PLENTY), Ok(vec![13, 24]));
    assert_eq!(memory.ring(0, 0, PLENTY), Ok(vec![0, 16]));
    assert_eq!(memory.border(3, 1), Ok(true));
    assert_eq!(memory.neighbours(0, PLENTY), Ok(vec![2]));
    assert_eq!(memory.neighbours(1, PLENTY), Ok(vec![3]));
    assert_eq!(memory.lookup(&[4, 5]), Ok(Some(0)));
    assert_eq!(memory.lookup(&[4, 5, 6, 7]), Ok(Some(13)));
    assert_eq!(memory.lookup(&[4, 5, 8]), Ok(Some(25)));
    assert_eq!(memory.anchors(3, 4, PLENTY).map(|them| them.len()), Ok(1));
}

/// Faces are sets: one that runs round the four marks and one that crosses
/// over are siblings.
#[test]
fn faces_with_one_set_in_crossed_order_are_siblings() {
    let memory = mesh(
        12,
        4,
        &[
            (0, HEXA, &BRICK),
            (1, HEXA, &[4, 6, 5, 7, 8, 9, 10, 11]),
            (2, PYRA, &[7, 4, 6, 5, 8]),
        ],
    );
    assert_eq!(memory.ring(0, 5, PLENTY), Ok(vec![5, 8, 16]));
    assert_eq!(memory.next(2, 0), Ok(5));
    assert_eq!(memory.neighbours(1, PLENTY), Ok(vec![0, 2]));
}

/// A set of four marks that is no face: a tetrahedron, a quad, and two edges of
/// a brick that lie across it.
#[test]
fn a_lookup_of_four_marks_finds_faces_only() {
    let memory = mesh(
        12,
        4,
        &[
            (0, TETRA, &[8, 9, 10, 11]),
            (1, QUAD, &[8, 9, 10, 11]),
            (2, HEXA, &BRICK),
        ],
    );
    assert_eq!(memory.lookup(&[8, 9, 10, 11]), Ok(None));
    assert_eq!(memory.lookup(&[0, 1, 6, 7]), Ok(None));
    assert_eq!(memory.lookup(&[0, 1, 2]), Ok(None));
    assert_eq!(memory.lookup(&[0, 4, 3, 7]), Ok(Some(20)));
    assert_eq!(memory.lookup(&[0, 1, 2, 3, 4]), Err(Refusal::CountWrong));
}

/// 10 is by type and by set.
#[test]
fn the_same_solid_twice() {
    let mut memory = mesh(12, 6, &[(0, PENTA, &[0, 1, 2, 3, 4, 5]), (1, HEXA, &BRICK)]);
    let same = Err(Refusal::CellSame);
    assert_eq!(memory.insert(2, PENTA, &[5, 3, 4, 0, 2, 1]), same);
    assert_eq!(memory.insert(2, HEXA, &[7, 6, 5, 4, 3, 2, 1, 0]), same);
    assert_eq!(memory.insert(2, PYRA, &[0, 1, 2, 3, 4]), Ok(()));
    assert_eq!(memory.insert(3, PYRA, &[4, 3, 2, 1, 0]), same);
    assert_eq!(memory.insert(3, PYRA, &[0, 1, 2, 3, 5]), Ok(()));
    assert_eq!(memory.remove(1), Ok(()));
    assert_eq!(memory.insert(4, HEXA, &[7, 6, 5, 4, 3, 2, 1, 0]), Ok(()));
}

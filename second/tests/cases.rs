//! The outline's twelve cases, P1 to P12.

mod common;

use common::maps::*;
use second::Way::{Lone, Opposite, Same};
use second::{Memory, Refusal};

#[test]
fn p1_no_cells_every_star_and_anchor_list_is_empty() {
    let p1 = p1();
    for dimension in 1..=3 {
        for mark in 0..6 {
            assert_eq!(p1.star(dimension, mark, PLENTY), Ok(vec![]));
            assert_eq!(p1.anchors(dimension, mark, PLENTY), Ok(vec![]));
            assert_eq!(p1.first_anchor(dimension, mark), Ok(None));
        }
    }
}

#[test]
fn p2_one_triangle_all_border() {
    let p2 = p2();
    for facet in 0..3 {
        assert_eq!(p2.border(0, facet), Ok(true));
        assert_eq!(p2.sibling(0, facet), Ok((facet, Lone)));
    }
    assert_eq!(p2.anchors(2, 2, PLENTY), Ok(vec![1]));
    assert_eq!(p2.first_anchor(2, 2), Ok(Some(1)));
}

#[test]
fn p3_two_triangles_are_siblings_across_an_edge() {
    let p3 = p3();
    assert_eq!(p3.sibling(0, 1), Ok((8, Opposite)));
    assert_eq!(p3.sibling(1, 0), Ok((1, Opposite)));
    assert_eq!(borders(&p3), [0, 2, 9, 10]);
}

#[test]
fn p4_three_triangles_share_an_edge() {
    let p4 = p4();
    assert_eq!(p4.sibling(0, 0), Ok((8, Same)));
    assert_eq!(p4.sibling(1, 0), Ok((16, Same)));
    assert_eq!(p4.sibling(2, 0), Ok((0, Same)));
}

#[test]
fn p5_two_sheets_touch_in_a_mark() {
    let p5 = p5();
    assert_eq!(p5.anchors(2, 0, PLENTY), Ok(vec![0, 8]));
    assert_eq!(p5.first_anchor(2, 0), Ok(Some(0)));
}

#[test]
fn p6_tetrahedra_share_a_face_in_another_order() {
    let p6 = p6();
    assert_eq!(p6.sibling(0, 0), Ok((8, Opposite)));
    assert_eq!(p6.sibling(1, 0), Ok((0, Opposite)));
    assert_eq!(p6.anchors(3, 0, PLENTY), Ok(vec![1]));
}

#[test]
fn p7_a_closed_surface_has_no_border() {
    let p7 = p7();
    assert_eq!(borders(&p7), []);
    assert_eq!(p7.anchors(2, 3, PLENTY), Ok(vec![9]));
}

#[test]
fn p8_bars_meet_in_a_mark() {
    let p8 = p8();
    assert_eq!(p8.sibling(0, 1), Ok((8, Opposite)));
    assert_eq!(p8.sibling(1, 0), Ok((1, Opposite)));
    assert_eq!(p8.anchors(1, 1, PLENTY), Ok(vec![1]));
}

#[test]
fn p9_a_removal_closes_the_cycle() {
    let p9 = p9();
    assert_eq!(p9.sibling(0, 0), Ok((16, Same)));
    assert_eq!(p9.sibling(2, 0), Ok((0, Same)));
    assert_eq!(p9.sibling(1, 0), Err(Refusal::CellNotLive));
}

#[test]
fn p10_the_same_set_of_marks_is_refused() {
    let mut p2 = p2();
    assert_eq!(p2.insert(1, TRI, &[2, 0, 1]), Err(Refusal::CellSame));
}

#[test]
fn p11_a_repeated_mark_is_refused() {
    let mut p1 = p1();
    assert_eq!(p1.insert(0, TRI, &[0, 1, 1]), Err(Refusal::MarkTwice));
}

#[test]
fn p12_no_siblings_across_dimensions() {
    let p12 = p12();
    assert_eq!(borders(&p12), [0, 1, 2, 8, 9, 10, 11]);
    assert_eq!(p12.neighbours(0, PLENTY), Ok(vec![]));
    assert_eq!(p12.neighbours(1, PLENTY), Ok(vec![]));
}

/// All border half-facets, by number.
fn borders(memory: &Memory) -> Vec<u32> {
    let mut borders = Vec::new();
    for cell in 0..4 {
        let is_border = |facet: &u32| memory.border(cell, *facet) == Ok(true);
        borders.extend((0..4).filter(is_border).map(|facet| 8 * cell + facet));
    }
    borders
}

//! "Faults the desk has already paid for": what must not come out.

mod common;

use common::maps::*;
use second::map::{half_facets, same_set};

/// "Pairing half-facets two by two: P4 loses one."
#[test]
fn no_sharer_is_lost_in_p4() {
    let p4 = p4();
    for cell in 0..3 {
        assert_eq!(p4.border(cell, 0), Ok(false), "cell {cell} left over");
        let cycle = p4.ring(cell, 0, PLENTY).unwrap();
        assert_eq!(cycle.len(), 3, "from cell {cell}");
        let back = p4.next(cell, 0).unwrap();
        let there_and_back = p4.next(back / 8, back % 8).unwrap();
        assert_ne!(there_and_back, 8 * cell, "cell {cell} is in a pair");
    }
    assert_eq!(p4.star(2, 0, PLENTY), Ok(vec![0, 1, 2]));
}

/// "Starting from one anchor and walking: P5 lists one sheet." The two cells
/// share no facet, so no walk over facets leads from one to the other.
#[test]
fn both_sheets_of_p5_are_listed() {
    let p5 = p5();
    assert_eq!(p5.neighbours(0, PLENTY), Ok(vec![]));
    assert_eq!(p5.star(2, 0, PLENTY), Ok(vec![0, 1]));
    assert_eq!(p5.anchors(2, 0, PLENTY).unwrap().len(), 2);
}

/// "Comparing facets as lists: P6 finds none." As lists they do differ.
#[test]
fn facets_of_p6_are_compared_as_sets() {
    let p6 = p6();
    let all = half_facets(&p6.mesh.as_ref().unwrap().live);
    let marks = |number| {
        &all.iter()
            .find(|half| half.number() == number)
            .unwrap()
            .marks
    };
    assert_ne!(marks(0), marks(8));
    assert!(same_set(marks(0), marks(8)));
    assert_eq!(p6.border(0, 0), Ok(false));
    assert_eq!(p6.border(1, 0), Ok(false));
}

/// "Removing a cell without closing its cycle: P9 points to a dead cell."
#[test]
fn nothing_in_p9_points_to_a_dead_cell() {
    let p9 = p9();
    for cell in [0, 2] {
        for facet in 0..3 {
            let sibling = p9.next(cell, facet).unwrap();
            assert_eq!(p9.type_of(sibling / 8), Ok(TRI));
        }
    }
    assert_eq!(p9.ring(0, 0, PLENTY).unwrap().len(), 2);
}

/// "Anchoring at the smallest half-facet without looking at borders: P6 gives
/// 0." Half-facet 0 does hold mark 0 and is the smallest that does.
#[test]
fn the_anchor_of_p6_is_a_border() {
    let p6 = p6();
    assert_eq!(p6.lookup(&[0, 1, 2]), Ok(Some(0)));
    let anchor = p6.first_anchor(3, 0).unwrap().unwrap();
    assert_ne!(anchor, 0);
    assert_eq!(p6.border(anchor / 8, anchor % 8), Ok(true));
}

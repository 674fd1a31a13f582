//! The queries on small maps, where a near reading would answer otherwise.

mod common;

use common::maps::*;

/// A bar, two triangles, a quad and a tetrahedron at mark 0, in no order.
fn mixed() -> second::Memory {
    mesh(
        9,
        9,
        &[
            (7, TETRA, &[0, 1, 2, 3]),
            (5, TRI, &[0, 1, 2]),
            (1, QUAD, &[1, 0, 5, 4]),
            (3, TRI, &[6, 0, 7]),
            (8, BAR, &[0, 8]),
        ],
    )
}

#[test]
fn a_star_is_of_one_dimension_and_ascending() {
    let memory = mixed();
    assert_eq!(memory.star(1, 0, PLENTY), Ok(vec![8]));
    assert_eq!(memory.star(2, 0, PLENTY), Ok(vec![1, 3, 5]));
    assert_eq!(memory.star(3, 0, PLENTY), Ok(vec![7]));
    assert_eq!(memory.star(2, 3, PLENTY), Ok(vec![]));
    assert_eq!(memory.star(3, 3, PLENTY), Ok(vec![7]));
}

#[test]
fn siblings_are_of_any_types_of_one_dimension() {
    let memory = mixed();
    assert_eq!(memory.next(5, 0), Ok(8));
    assert_eq!(memory.next(1, 0), Ok(40));
    assert_eq!(memory.neighbours(5, PLENTY), Ok(vec![1]));
    assert_eq!(memory.neighbours(1, PLENTY), Ok(vec![5]));
    assert_eq!(memory.neighbours(7, PLENTY), Ok(vec![]));
}

#[test]
fn types_have_their_lists_and_counts() {
    let memory = mixed();
    let lists = [
        (BAR, vec![8]),
        (TRI, vec![3, 5]),
        (QUAD, vec![1]),
        (TETRA, vec![7]),
    ];
    for (code, cells) in lists {
        assert_eq!(memory.count_of_type(code), Ok(cells.len()));
        assert_eq!(memory.cells_of_type(code, PLENTY), Ok(cells));
    }
}

/// Cells of every type in one list, whatever the order they came in; the gaps
/// between them are free, the smallest first.
#[test]
fn the_live_cells_and_the_first_free_number() {
    let mut memory = mixed();
    assert_eq!(memory.capacities(), Ok((9, 9)));
    assert_eq!(memory.live(PLENTY), Ok(vec![1, 3, 5, 7, 8]));
    for number in [0, 2, 4, 6] {
        assert_eq!(memory.free(), Ok(Some(number)));
        memory.insert(number, BAR, &[number, number + 1]).unwrap();
    }
    assert_eq!(memory.free(), Ok(None));
    assert_eq!(memory.live(PLENTY), Ok((0..9).collect()));
    memory.remove(8).unwrap();
    assert_eq!(memory.free(), Ok(Some(8)));
    memory.remove(5).unwrap();
    assert_eq!(memory.free(), Ok(Some(5)));
    assert_eq!(memory.live(PLENTY), Ok(vec![0, 1, 2, 3, 4, 6, 7]));
}

/// Without room for a cell no number is free.
#[test]
fn a_mesh_without_cells_has_no_free_number() {
    let none = formatted(6, 0);
    assert_eq!(none.capacities(), Ok((6, 0)));
    assert_eq!(none.free(), Ok(None));
    assert_eq!(none.live(0), Ok(vec![]));
    assert_eq!(formatted(0, 1).free(), Ok(Some(0)));
    assert_eq!(formatted(0, 1).capacities(), Ok((0, 1)));
}

/// In the order given at insertion, which no other order stands for.
#[test]
fn marks_come_back_as_given() {
    let memory = mixed();
    assert_eq!(memory.type_of(1), Ok(QUAD));
    assert_eq!(memory.marks_of(1), [1, 0, 5, 4]);
    assert_eq!(memory.marks_of(8), [0, 8]);
    assert_eq!(memory.marks_of(0), []);
    assert_eq!(memory.marks_of(9), []);
}

#[test]
fn a_dimension_without_cells_has_no_first_anchor() {
    let memory = p2();
    assert_eq!(memory.first_anchor(1, 0), Ok(None));
    assert_eq!(memory.first_anchor(2, 0), Ok(Some(0)));
    assert_eq!(memory.first_anchor(3, 0), Ok(None));
    assert_eq!(memory.first_anchor(2, 3), Ok(None));
}

#[test]
fn a_cycle_starts_where_it_is_asked() {
    let memory = p4();
    assert_eq!(memory.ring(0, 0, PLENTY), Ok(vec![0, 8, 16]));
    assert_eq!(memory.ring(1, 0, PLENTY), Ok(vec![8, 16, 0]));
    assert_eq!(memory.ring(2, 0, PLENTY), Ok(vec![16, 0, 8]));
    assert_eq!(memory.ring(2, 1, PLENTY), Ok(vec![17]));
}

/// Half-facet 0 is a border of the group but does not hold mark 2; in P7
/// nothing is a border and the smallest half-facet does not hold mark 3.
#[test]
fn an_anchor_holds_the_mark() {
    assert_eq!(p2().border(0, 0), Ok(true));
    assert_eq!(p2().first_anchor(2, 2), Ok(Some(1)));
    let other_edge = mesh(6, 4, &[(0, TRI, &[0, 1, 2]), (1, TRI, &[0, 2, 3])]);
    assert_eq!(other_edge.first_anchor(2, 2), Ok(Some(1)));
    assert_eq!(p7().first_anchor(2, 3), Ok(Some(9)));
    assert_eq!(p7().first_anchor(2, 0), Ok(Some(0)));
}

/// A border beats a smaller half-facet, and a group with a border beats none
/// of the other groups: anchors ascend by number.
#[test]
fn anchors_ascend_whatever_their_groups() {
    let memory = mesh(
        9,
        5,
        &[
            (0, TRI, &[0, 1, 2]),
            (1, TRI, &[0, 3, 4]),
            (2, TRI, &[1, 0, 5]),
            (3, TRI, &[2, 0, 6]),
            (4, TRI, &[8, 7, 0]),
        ],
    );
    // Cells 0, 2, 3: half-facets 0 and 2 are shared, 16 too; 17 is (0,5).
    assert_eq!(memory.anchors(2, 0, PLENTY), Ok(vec![8, 17, 33]));
    assert_eq!(memory.first_anchor(2, 0), Ok(Some(8)));
}

/// A group is joined by links, also where its ends share no facet.
#[test]
fn a_group_is_joined_through_its_members() {
    let fan = mesh(
        6,
        4,
        &[
            (0, TRI, &[0, 1, 2]),
            (1, TRI, &[0, 3, 4]),
            (2, TRI, &[0, 4, 5]),
            (3, TRI, &[0, 2, 3]),
        ],
    );
    assert_eq!(fan.neighbours(0, PLENTY), Ok(vec![3]));
    assert_eq!(fan.anchors(2, 0, PLENTY), Ok(vec![0]));
}

/// "Link two cells of a star only if they share a facet that holds the mark.
/// For this pair mark 0 then has two anchors." At the marks of the shared edge
/// there is one.
#[test]
fn two_quads_joined_away_from_the_mark_are_two_groups() {
    let quads = mesh(6, 4, &[(0, QUAD, &[0, 1, 2, 3]), (1, QUAD, &[0, 4, 1, 2])]);
    assert_eq!(quads.next(0, 1), Ok(10));
    assert_eq!(quads.anchors(2, 0, PLENTY), Ok(vec![0, 8]));
    assert_eq!(quads.anchors(2, 1, PLENTY), Ok(vec![0]));
    assert_eq!(quads.anchors(2, 2, PLENTY), Ok(vec![2]));
}

/// Two shared edges, of marks 0 and 1 and of marks 1 and 2: at mark 0 one of
/// them links, at mark 2 the other.
#[test]
fn two_quads_that_share_two_edges_are_one_group_by_the_one_at_the_mark() {
    let quads = mesh(6, 4, &[(0, QUAD, &[0, 1, 2, 3]), (1, QUAD, &[0, 1, 2, 4])]);
    assert_eq!(quads.next(0, 0), Ok(8));
    assert_eq!(quads.next(0, 1), Ok(9));
    for mark in 0..3 {
        assert_eq!(quads.anchors(2, mark, PLENTY).map(|them| them.len()), Ok(1));
    }
}

/// Tetrahedra that share only an edge are two groups of its marks.
#[test]
fn solids_that_share_an_edge_only_are_not_linked() {
    let memory = mesh(
        6,
        4,
        &[(0, TETRA, &[0, 1, 2, 3]), (1, TETRA, &[0, 1, 4, 5])],
    );
    assert_eq!(memory.anchors(3, 0, PLENTY), Ok(vec![0, 8]));
    assert_eq!(memory.neighbours(0, PLENTY), Ok(vec![]));
}

/// The quads share two edges.
#[test]
fn a_neighbour_is_listed_once() {
    let memory = mesh(6, 4, &[(0, QUAD, &[0, 1, 2, 3]), (1, QUAD, &[0, 1, 2, 4])]);
    assert_eq!(memory.next(0, 0), Ok(8));
    assert_eq!(memory.next(0, 1), Ok(9));
    assert_eq!(memory.neighbours(0, PLENTY), Ok(vec![1]));
    assert_eq!(memory.neighbours(1, PLENTY), Ok(vec![0]));
}

#[test]
fn a_quad_and_a_tetrahedron_may_share_four_marks() {
    let memory = mesh(6, 4, &[(0, QUAD, &[0, 1, 2, 3]), (1, TETRA, &[0, 1, 2, 3])]);
    assert_eq!(memory.star(2, 0, PLENTY), Ok(vec![0]));
    assert_eq!(memory.star(3, 0, PLENTY), Ok(vec![1]));
    assert_eq!(memory.neighbours(0, PLENTY), Ok(vec![]));
}

/// Its diagonals are no facets of a quad.
#[test]
fn a_lookup_finds_facets_only() {
    let quad = mesh(6, 4, &[(3, QUAD, &[0, 1, 2, 3])]);
    assert_eq!(quad.lookup(&[0, 2]), Ok(None));
    assert_eq!(quad.lookup(&[3, 2]), Ok(Some(26)));
    assert_eq!(quad.lookup(&[0]), Ok(None));
    assert_eq!(quad.lookup(&[0, 1, 2]), Ok(None));
}

#[test]
fn a_lookup_gives_the_smallest_half_facet_for_any_order_of_the_set() {
    let memory = p4();
    assert_eq!(memory.lookup(&[0, 1]), Ok(Some(0)));
    assert_eq!(memory.lookup(&[1, 0]), Ok(Some(0)));
    assert_eq!(memory.lookup(&[4, 0]), Ok(Some(18)));
    assert_eq!(p9().lookup(&[3, 1]), Ok(None));
    assert_eq!(p8().lookup(&[1]), Ok(Some(1)));
    for set in [[0, 1, 2], [1, 2, 0], [2, 1, 0]] {
        assert_eq!(p6().lookup(&set), Ok(Some(0)));
        assert_eq!(p12().lookup(&set), Ok(Some(8)));
    }
}

//! The type table and the refusal table, against the outline's text.

use second::shapes::{numbering, Type, HALF_FACETS_A_CELL, LOOKUP_MARKS, TYPES};
use second::Refusal;

#[test]
fn the_facet_numbering_is_the_outlines() {
    let outline = "\
1 BAR_2 dimension 1 marks 2 facets (0) (1)
2 TRI_3 dimension 2 marks 3 facets (0,1) (1,2) (2,0)
3 QUAD_4 dimension 2 marks 4 facets (0,1) (1,2) (2,3) (3,0)
4 TETRA_4 dimension 3 marks 4 facets (0,2,1) (0,1,3) (1,2,3) (2,0,3)
5 PYRA_5 dimension 3 marks 5 facets (0,3,2,1) (0,1,4) (1,2,4) (2,3,4) (3,0,4)
6 PENTA_6 dimension 3 marks 6 facets (0,1,4,3) (1,2,5,4) (2,0,3,5) (0,2,1) (3,4,5)
7 HEXA_8 dimension 3 marks 8 facets (0,3,2,1) (0,1,5,4) (1,2,6,5) (2,3,7,6) (0,4,7,3) (4,5,6,7)
";
    assert_eq!(numbering(), outline);
}

/// The column "facets" of the type table, beside the numbering itself.
#[test]
fn each_type_has_its_count_of_facets() {
    let counts: Vec<(u32, usize)> = TYPES
        .iter()
        .map(|row| (row.code, row.facets.len()))
        .collect();
    assert_eq!(
        counts,
        [(1, 2), (2, 3), (3, 4), (4, 4), (5, 5), (6, 5), (7, 6)]
    );
}

/// The anchor of a group needs it: a cell that holds a mark has a facet that
/// holds it.
#[test]
fn every_place_of_a_type_stands_in_a_facet() {
    for row in TYPES {
        for place in 0..row.marks {
            assert!(
                row.facets.iter().any(|facet| facet.contains(&place)),
                "place {place} of {}",
                row.name
            );
        }
    }
}

#[test]
fn every_facet_is_a_set_of_the_types_places() {
    for row in TYPES {
        for facet in sorted_facets(row) {
            let ascending = facet.windows(2).all(|two| two[0] < two[1]);
            assert!(ascending, "a repeat in {facet:?} of {}", row.name);
            assert!(
                facet.iter().all(|&place| place < row.marks),
                "{facet:?} of {}",
                row.name
            );
        }
    }
}

/// The faces of a solid close it: each edge of a face is an edge of one other
/// face, which runs through it the other way.
#[test]
fn the_faces_of_a_solid_close_it_and_run_one_way() {
    for row in TYPES.iter().filter(|row| row.dimension == 3) {
        let edges: Vec<(usize, usize)> = row
            .facets
            .iter()
            .flat_map(|face| (0..face.len()).map(|k| (face[k], face[(k + 1) % face.len()])))
            .collect();
        for &(from, to) in &edges {
            let same = edges.iter().filter(|&&it| it == (from, to)).count();
            let against = edges.iter().filter(|&&it| it == (to, from)).count();
            assert_eq!((same, against), (1, 1), "{from} to {to} of {}", row.name);
        }
    }
}

/// Otherwise one cell would be its own sibling on two facets.
#[test]
fn no_type_has_two_facets_with_one_set() {
    for row in TYPES {
        let mut facets = sorted_facets(row);
        facets.sort();
        facets.dedup();
        assert_eq!(facets.len(), row.facets.len(), "{}", row.name);
    }
}

#[test]
fn half_facet_numbers_and_lookup_sets_have_room_for_every_type() {
    for row in TYPES {
        assert!(
            row.facets.len() <= HALF_FACETS_A_CELL as usize,
            "{}",
            row.name
        );
        for facet in row.facets {
            assert!(LOOKUP_MARKS.contains(&facet.len()), "{}", row.name);
        }
    }
}

#[test]
fn the_refusals_are_the_outlines() {
    let outline = "\
1: a capacity, or the day of an entry, is above 65,535
2: memory is shorter than the room, or a journal than its head
3: a cell number is not below the capacity
4: insert: the number is live
5: the cell is not live
6: type code not in the table, dimension not 1 to 3, edition not 1 or 2, a listed edit's kind not 1 or 2, or a solid without a measure
7: wrong count of marks for the type or the lookup, or a build record or listed edit cut short
8: a mark is not below the capacity
9: a mark occurs twice
10: a live cell of that type has the same set of marks
11: one of the marks stands in 128 live cells already
12: output buffer shorter than the list
13: local facet not below the type's count
14: memory is not a mesh
15: bad frame (program only)
16: position list shorter than three numbers per mark
17: a word that breaks the plain OFF form, or a text that ends early
18: a live cell not triangle or quad
19: insert under edition 2: a third solid on a face
20: entry: a day before the last
21: query: a day before the last fold
22: fold: not allowed, or no edit was ever entered
23: entry: the journal is full
24: plan: the first wrong edit, or an end that is not as wanted
";
    let lines: String = Refusal::ALL
        .iter()
        .map(|refusal| format!("{refusal}\n"))
        .collect();
    assert_eq!(lines, outline);
}

fn sorted_facets(row: &Type) -> Vec<Vec<usize>> {
    let sorted = |facet: &&[usize]| {
        let mut places = facet.to_vec();
        places.sort();
        places
    };
    row.facets.iter().map(sorted).collect()
}

//! Request 8: the second edition of the sheet rules, "a face may lie between two
//! solids at most".

mod common;

use common::answers::answers;
use common::maps::*;
use common::random::{insert_by_chance, map_by_chance, Random};
use second::map::{self, LiveCell};
use second::{room, Memory, Mesh, Refusal};

const THIRD: Result<(), Refusal> = Err(Refusal::FaceFull);
const TWIN: Result<(), Refusal> = Err(Refusal::CellSame);
const FULL: Result<(), Refusal> = Err(Refusal::MarkFull);

/// "Format and build take an edition number, 1 or 2, kept in the head."
#[test]
fn the_edition_is_kept() {
    let mut memory = Memory::lent(room(6, 4));
    assert_eq!(memory.edition(), Err(Refusal::NotMesh));
    for edition in [1, 2] {
        assert_eq!(memory.format_edition(6, 4, edition), Ok(()));
        assert_eq!(memory.edition(), Ok(edition));
        assert_eq!(memory.insert(0, TRI, &[0, 1, 2]), Ok(()));
        assert_eq!(memory.remove(0), Ok(()));
        assert_eq!(memory.edition(), Ok(edition));
        assert_eq!(
            memory.build_edition(6, 4, edition, &[0, BAR, 7, 0, 1]),
            Ok(())
        );
        assert_eq!(memory.edition(), Ok(edition));
        assert!(memory.whole());
    }
}

/// "01's forms .. mean edition 1."
#[test]
fn the_forms_without_an_edition_mean_edition_1() {
    let records = words(&[(0, TRI, &[0, 1, 2])]);
    let mut memory = formatted_edition(6, 4, 2);
    assert_eq!(memory.format(6, 4), Ok(()));
    assert_eq!(memory, formatted_edition(6, 4, 1));
    assert_eq!(memory.build_edition(6, 4, 2, &records), Ok(()));
    assert_eq!(memory.edition(), Ok(2));
    assert_eq!(memory.build(6, 4, &records), Ok(()));
    assert_eq!(memory, mesh_edition(6, 4, 1, &[(0, TRI, &[0, 1, 2])]));
}

/// "6 for another edition, before 1 and like it": with place 0, and nothing is
/// changed.
#[test]
fn another_edition_is_refused_and_changes_nothing() {
    let before = p4();
    for edition in [0, 3, 257, 258, 65_537, u32::MAX] {
        let mut memory = before.clone();
        let refusal = Refusal::TypeUnknown;
        assert_eq!(memory.format_edition(6, 4, edition), Err(refusal));
        assert_eq!(memory.format_edition(65_536, 0, edition), Err(refusal));
        assert_eq!(memory.format_edition(6, 400, edition), Err(refusal));
        for records in [&[][..], &[0, BAR, 0, 1], &[0], &[9, BAR, 0, 1]] {
            for (marks, cells) in [(6, 4), (65_536, 0), (0, 65_536), (6, 400)] {
                let built = memory.build_edition(marks, cells, edition, records);
                assert_eq!(built, Err((refusal, 0)));
            }
        }
        assert_eq!(memory, before);
    }
    let mut memory = before.clone();
    let capacity = Err(Refusal::CapacityAbove);
    assert_eq!(memory.format_edition(65_536, 0, 2), capacity);
    let short = Err(Refusal::MemoryShort);
    assert_eq!(memory.format_edition(6, 5, 2), short);
    assert_eq!(memory, before);
}

/// A head with another edition is no mesh's.
#[test]
fn memory_of_another_edition_is_no_mesh() {
    for edition in [0, 3, u32::MAX] {
        let mut memory = p4();
        memory.mesh.as_mut().unwrap().edition = edition;
        assert!(!memory.whole());
        assert_eq!(memory.edition(), Err(Refusal::NotMesh));
        assert_eq!(memory.next(0, 0), Err(Refusal::NotMesh));
        assert_eq!(memory.remove(0), Err(Refusal::NotMesh));
    }
}

/// Three tetrahedra on the triangle of the marks 0, 1 and 2.
#[test]
fn a_third_tetrahedron_on_a_face() {
    let records: [Record; 2] = [(0, TETRA, &[0, 1, 2, 3]), (1, TETRA, &[0, 2, 1, 4])];
    let mut second = mesh_edition(6, 4, 2, &records);
    let before = second.clone();
    for marks in [[0, 1, 2, 5], [5, 2, 1, 0], [1, 5, 0, 2], [2, 0, 5, 1]] {
        assert_eq!(second.insert(2, TETRA, &marks), THIRD);
        assert_eq!(second, before);
        let mut first = mesh(6, 4, &records);
        assert_eq!(first.insert(2, TETRA, &marks), Ok(()));
    }
    assert_eq!(second.insert(2, TETRA, &[0, 1, 3, 5]), Ok(()));
    assert_eq!(second.insert(3, TETRA, &[0, 1, 3, 4]), THIRD);
}

/// A tetrahedron, a pyramid and a wedge on the triangle of the marks 0, 1 and 2:
/// whichever comes third is refused.
#[test]
fn solids_of_three_types_on_a_triangle() {
    let solids: [Record; 3] = [
        (0, TETRA, &[3, 0, 2, 1]),
        (1, PYRA, &[1, 4, 5, 0, 2]),
        (2, PENTA, &[6, 7, 8, 2, 0, 1]),
    ];
    third_of(&solids, &[0, 1, 2]);
}

/// A brick, a pyramid and a wedge on the quad face of the marks 0, 1, 2 and 3,
/// which each runs through in another order, the pyramid's crossed.
#[test]
fn solids_of_three_types_on_a_quad_face() {
    let solids: [Record; 3] = [
        (0, HEXA, &[0, 1, 2, 3, 4, 5, 6, 7]),
        (1, PYRA, &[0, 2, 1, 3, 8]),
        (2, PENTA, &[3, 0, 9, 2, 1, 10]),
    ];
    third_of(&solids, &[0, 1, 2, 3]);
}

/// Each of the three comes last once; then it takes the place of each other.
fn third_of(solids: &[Record; 3], face: &[u32]) {
    let mut turned = *solids;
    for _ in 0..3 {
        turned.rotate_left(1);
        let [one, other, third] = turned;
        let mut memory = mesh_edition(12, 4, 2, &[one, other]);
        assert_eq!(memory.insert(third.0, third.1, third.2), THIRD);
        assert_eq!(memory.insert(3, third.1, third.2), THIRD);
        let found = memory.lookup(face).unwrap().unwrap();
        let cycle = memory.ring(found / 8, found % 8, PLENTY).unwrap();
        assert_eq!(cycle.len(), 2);
        for (out, stays) in [(one, other), (other, one)] {
            let mut memory = memory.clone();
            assert_eq!(memory.remove(out.0), Ok(()));
            let taken = memory.insert_licensed(third.0, third.1, licence_of(third.0), third.2);
            assert_eq!(taken, Ok(()));
            assert_eq!(memory.insert(out.0, out.1, out.2), THIRD);
            let due = mesh_edition(12, 4, 2, &[third, stays]);
            assert_eq!(answers(&memory), answers(&due));
        }
        let all = words(&turned);
        let built = memory.build_edition(12, 4, 2, &all);
        assert_eq!(built, Err((Refusal::FaceFull, 2)));
        assert_eq!(memory.mesh, Some(Mesh::formatted(12, 4, 2)));
        assert_eq!(memory.build_edition(12, 4, 1, &all), Ok(()));
        assert_eq!(memory.lookup(face).map(|found| found.is_some()), Ok(true));
    }
}

/// 10 comes before 19, and 19 before 11.
#[test]
fn a_third_solid_with_a_twin_or_a_full_mark() {
    let mut memory = with_full_face();
    let before = memory.clone();
    assert_eq!(memory.insert(150, TETRA, &[162, 163, 160, 161]), TWIN);
    assert_eq!(memory.insert(150, TETRA, &[166, 10, 165, 170]), THIRD);
    assert_eq!(memory.insert(150, TETRA, &[166, 10, 165, 167]), TWIN);
    assert_eq!(memory.insert(150, TETRA, &[10, 170, 171, 172]), FULL);
    assert_eq!(memory.insert(150, TETRA, &[160, 161, 162, 10]), THIRD);
    assert_eq!(memory, before);
    // Under edition 1 the same are 10, 11, 10, 11, 11.
    let mut first = formatted(200, 200);
    for (cell, code, marks) in full_face_records() {
        first.insert(cell, code, &marks).unwrap();
    }
    assert_eq!(first.insert(150, TETRA, &[162, 163, 160, 161]), TWIN);
    assert_eq!(first.insert(150, TETRA, &[166, 10, 165, 170]), FULL);
    assert_eq!(first.insert(150, TETRA, &[166, 10, 165, 167]), TWIN);
    assert_eq!(first.insert(150, TETRA, &[10, 170, 171, 172]), FULL);
    assert_eq!(first.insert(150, TETRA, &[160, 161, 162, 10]), FULL);
}

/// Faces lie between solids: edges and bar ends are as free as before, and a
/// triangle or a quad on a full face is no solid.
#[test]
fn only_faces_of_solids_are_limited() {
    let mut memory = mesh_edition(
        40,
        40,
        2,
        &[
            (0, HEXA, &[0, 1, 2, 3, 4, 5, 6, 7]),
            (1, PYRA, &[4, 5, 6, 7, 8]),
            (2, TETRA, &[4, 5, 8, 9]),
        ],
    );
    assert_eq!(memory.insert(3, QUAD, &[4, 5, 6, 7]), Ok(()));
    assert_eq!(memory.insert(4, TRI, &[4, 5, 8]), Ok(()));
    for cell in 5..20 {
        let other = 5 + cell;
        assert_eq!(memory.insert(cell, TRI, &[4, 5, other]), Ok(()));
        assert_eq!(memory.insert(cell + 15, BAR, &[4, other]), Ok(()));
    }
    assert_eq!(memory.ring(4, 0, PLENTY).map(|them| them.len()), Ok(17));
    // Solids that share an edge only.
    assert_eq!(memory.insert(35, TETRA, &[4, 5, 30, 31]), Ok(()));
    assert_eq!(memory.insert(36, TETRA, &[4, 5, 32, 33]), Ok(()));
    assert_eq!(memory.insert(37, TETRA, &[4, 5, 8, 34]), THIRD);
    assert!(memory.whole());
}

/// The same live cells under edition 2 are a mesh exactly if no face has three
/// solids.
#[test]
fn the_whole_check_counts_the_solids_on_a_face() {
    let mut random = Random::from_seed(11);
    let (mut yes, mut no) = (0, 0);
    for map in 0..60 {
        let mut memory = map_by_chance(&mut random, 5 + map % 6, 18, 1);
        assert!(memory.whole());
        let most = most_solids(&memory.mesh.as_ref().unwrap().live);
        memory.mesh.as_mut().unwrap().edition = 2;
        assert_eq!(memory.whole(), most <= 2, "{most} solids on a face");
        *if most <= 2 { &mut yes } else { &mut no } += 1;
    }
    assert!(yes > 10 && no > 10, "{yes} {no}");
}

/// The longest cycle of a face.
fn most_solids(live: &[LiveCell]) -> usize {
    let solids = live.iter().filter(|cell| cell.row.dimension == 3);
    let faces = solids.flat_map(map::half_facets_of);
    let cycles = faces.map(|face| map::cycle(live, &face).len());
    cycles.max().unwrap_or(0)
}

/// An insert is accepted under edition 2 exactly if it is under edition 1 and
/// leaves no face with three solids.
#[test]
fn an_edition_2_map_is_an_edition_1_map_with_two_solids_on_a_face_at_most() {
    let mut random = Random::from_seed(12);
    let (mut third, mut accepted) = (0, 0);
    for map in 0..30 {
        let mut memory = formatted_edition(5 + map % 5, 30, 2);
        for _ in 0..60 {
            let mut first = memory.clone();
            first.mesh.as_mut().unwrap().edition = 1;
            let before = memory.clone();
            let seen = random.clone();
            let answer = insert_by_chance(&mut random, &mut memory);
            random = seen;
            let freely = insert_by_chance(&mut random, &mut first);
            let live = &first.mesh.as_ref().unwrap().live;
            if freely.is_ok() && most_solids(live) > 2 {
                assert_eq!(answer, THIRD);
                assert_eq!(memory, before);
                third += 1;
            } else {
                assert_eq!(answer, freely);
                assert_eq!(&memory.mesh.as_ref().unwrap().live, live);
                accepted += u32::from(answer.is_ok());
            }
        }
        assert!(memory.whole());
    }
    assert!(third > 30 && accepted > 300, "{third} {accepted}");
}

//! "Memory saved before is built again": the head's first word tells it, and its
//! edition's, which was 0.

use mengkiloh::{Cell, Edition, Mark, Mesh, Refusal, Type};

/// The first word of a mesh before request 3, and before request 6.
const BEFORE: u32 = 1_296_780_361;
const BEFORE_6: u32 = 1_296_780_362;

/// Its stored siblings say another thing: no way.
#[test]
fn memory_saved_before_request_6_is_no_mesh() {
    let mut map = Mesh::with_room(5, 4).unwrap();
    map.insert(Cell(0), Type::Quad, &[0, 1, 2, 3].map(Mark))
        .unwrap();
    let mut saved = map.words().to_vec();
    assert_eq!(saved[0], BEFORE_6 + 1);
    saved[0] = BEFORE_6;
    let map = Mesh::over(saved);
    assert!(!map.whole());
    assert_eq!(map.sibling(Cell(0), 0), Err(Refusal::NotMesh));
    assert_eq!(map.edition(), Err(Refusal::NotMesh));
}

#[test]
fn memory_saved_before_request_3_is_no_mesh() {
    let mut map = Mesh::with_room(5, 4).unwrap();
    map.insert(Cell(0), Type::Quad, &[0, 1, 2, 3].map(Mark))
        .unwrap();
    map.insert(Cell(1), Type::Quad, &[0, 4, 1, 2].map(Mark))
        .unwrap();
    assert_eq!(map.anchors(2, Mark(0)).unwrap().len(), 2);
    let mut saved = map.words().to_vec();
    saved[0] = BEFORE;
    let map = Mesh::over(saved);
    assert!(!map.whole());
    assert_eq!(map.anchors(2, Mark(0)), Err(Refusal::NotMesh));
    assert_eq!(map.type_of(Cell(0)), Err(Refusal::NotMesh));
}

#[test]
fn memory_saved_before_request_8_is_no_mesh() {
    let mut map = Mesh::with_room(5, 4).unwrap();
    map.insert(Cell(0), Type::Quad, &[0, 1, 2, 3].map(Mark))
        .unwrap();
    assert_eq!(map.edition(), Ok(Edition::First.into()));
    let mut saved = map.words().to_vec();
    saved[3] = 0;
    let map = Mesh::over(saved);
    assert!(!map.whole());
    assert_eq!(map.edition(), Err(Refusal::NotMesh));
    assert_eq!(map.type_of(Cell(0)), Err(Refusal::NotMesh));
}

//! Cells of a lattice of cubes, so that cells of every type share their facets.

use crate::chance::Chance;

/// The corners of a cube, in the order of a brick's marks.
const CORNERS: [[u32; 3]; 8] = [
    [0, 0, 0],
    [1, 0, 0],
    [1, 1, 0],
    [0, 1, 0],
    [0, 0, 1],
    [1, 0, 1],
    [1, 1, 1],
    [0, 1, 1],
];

/// What a cube is cut into: a type's code, and the corners of the cube that
/// are its marks.
const PARTS: [(u32, &[usize]); 14] = [
    (7, &[0, 1, 2, 3, 4, 5, 6, 7]),
    (6, &[0, 1, 2, 4, 5, 6]),
    (6, &[0, 2, 3, 4, 6, 7]),
    (5, &[0, 1, 2, 3, 6]),
    (5, &[0, 4, 5, 1, 6]),
    (5, &[0, 3, 7, 4, 6]),
    (4, &[0, 1, 2, 6]),
    (4, &[0, 2, 3, 6]),
    (4, &[0, 1, 5, 6]),
    (3, &[0, 1, 2, 3]),
    (3, &[0, 1, 5, 4]),
    (2, &[0, 1, 2]),
    (2, &[0, 2, 6]),
    (1, &[0, 6]),
];

/// The most cubes on a side that so many marks allow.
pub fn side(marks: u32) -> u32 {
    (0..)
        .find(|side| (side + 2) * (side + 2) * (side + 2) > marks)
        .unwrap_or(0)
}

/// A cell of some cube: its type's code and its marks, now and then in another
/// order.
pub fn draw(chance: &mut Chance, side: u32) -> (u32, Vec<u32>) {
    let at = [(); 3].map(|()| chance.below(side));
    let (code, corners) = PARTS[chance.below(PARTS.len() as u32) as usize];
    let mark = |&corner: &usize| {
        let [x, y, z] = [0, 1, 2].map(|axis| at[axis] + CORNERS[corner][axis]);
        x + (side + 1) * (y + (side + 1) * z)
    };
    let mut marks: Vec<u32> = corners.iter().map(mark).collect();
    if chance.one_in(6) {
        chance.shuffle(&mut marks);
    }
    (code, marks)
}

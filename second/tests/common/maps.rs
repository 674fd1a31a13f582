//! Small maps, among them those of the outline's twelve cases.

use second::{room, Memory, Refusal};

pub const BAR: u32 = 1;
pub const TRI: u32 = 2;
pub const QUAD: u32 = 3;
pub const TETRA: u32 = 4;
pub const PYRA: u32 = 5;
pub const PENTA: u32 = 6;
pub const HEXA: u32 = 7;

/// A list room that no list of these maps outgrows.
pub const PLENTY: usize = 1000;

/// Cell number, type code, marks.
pub type Record<'a> = (u32, u32, &'a [u32]);

/// The sibling without its way, and the cycle without its ways.
pub trait WithoutWays {
    fn next(&self, cell: u32, facet: u32) -> Result<u32, Refusal>;
    fn ring(&self, cell: u32, facet: u32, room: usize) -> Result<Vec<u32>, Refusal>;
}

impl WithoutWays for Memory {
    fn next(&self, cell: u32, facet: u32) -> Result<u32, Refusal> {
        self.sibling(cell, facet).map(|(half, _)| half)
    }

    fn ring(&self, cell: u32, facet: u32, room: usize) -> Result<Vec<u32>, Refusal> {
        let cycle = self.cycle(cell, facet, room, room)?;
        Ok(cycle.into_iter().map(|(half, _)| half).collect())
    }
}

/// A mesh with no live cell, in memory of exactly its room.
pub fn formatted(marks: u32, cells: u32) -> Memory {
    let mut memory = Memory::lent(room(marks, cells));
    memory.format(marks, cells).expect("the room is exact");
    memory
}

/// The same under an edition.
pub fn formatted_edition(marks: u32, cells: u32, edition: u32) -> Memory {
    let mut memory = Memory::lent(room(marks, cells));
    memory
        .format_edition(marks, cells, edition)
        .expect("the room is exact and the edition is one");
    memory
}

/// A mesh with these cells inserted in this order.
pub fn mesh(marks: u32, cells: u32, records: &[Record]) -> Memory {
    mesh_edition(marks, cells, 1, records)
}

/// The same under an edition.
pub fn mesh_edition(marks: u32, cells: u32, edition: u32, records: &[Record]) -> Memory {
    let mut memory = formatted_edition(marks, cells, edition);
    for &(cell, code, marks) in records {
        memory
            .insert_licensed(cell, code, licence_of(cell), marks)
            .expect("a good record");
    }
    memory
}

/// The licence of a record's cell: none, one that others have, the largest.
pub fn licence_of(cell: u32) -> u32 {
    [0, 7, u32::MAX][cell as usize % 3]
}

/// The records as one list of words, as build takes them.
pub fn words(records: &[Record]) -> Vec<u32> {
    let mut words = Vec::new();
    for &(cell, code, marks) in records {
        words.extend([cell, code, licence_of(cell)]);
        words.extend(marks);
    }
    words
}

/// A mark that 128 bars hold: mark 10, in cells 1 to 128, whose other ends are
/// the marks 20 to 147. Cell 0 is the triangle (0,1,2). Capacities 200.
pub fn full_mark_records() -> Vec<(u32, u32, Vec<u32>)> {
    let mut records = vec![(0, TRI, vec![0, 1, 2])];
    records.extend((0..128).map(|bar| (1 + bar, BAR, vec![10, 20 + bar])));
    records
}

pub fn with_full_mark() -> Memory {
    let mut memory = formatted(200, 200);
    for (cell, code, marks) in full_mark_records() {
        memory
            .insert_licensed(cell, code, licence_of(cell), &marks)
            .expect("up to 128 fit");
    }
    memory
}

/// The same with faces of two tetrahedra each: of the full mark and the marks
/// 165 and 166 in cells 1 and 2, which are no bars here; of the marks 160, 161
/// and 162 in cells 131 and 132.
pub fn full_face_records() -> Vec<(u32, u32, Vec<u32>)> {
    let mut records = full_mark_records();
    records[1] = (1, TETRA, vec![10, 165, 166, 167]);
    records[2] = (2, TETRA, vec![10, 166, 165, 168]);
    records.push((131, TETRA, vec![160, 161, 162, 163]));
    records.push((132, TETRA, vec![160, 161, 162, 164]));
    records
}

/// Under edition 2.
pub fn with_full_face() -> Memory {
    let mut memory = formatted_edition(200, 200, 2);
    for (cell, code, marks) in full_face_records() {
        memory
            .insert_licensed(cell, code, licence_of(cell), &marks)
            .expect("up to 128 fit");
    }
    memory
}

pub fn p1() -> Memory {
    mesh(6, 4, &[])
}

pub fn p2() -> Memory {
    mesh(6, 4, &[(0, TRI, &[0, 1, 2])])
}

pub fn p3() -> Memory {
    mesh(6, 4, &[(0, TRI, &[0, 1, 2]), (1, TRI, &[2, 1, 3])])
}

pub fn p4() -> Memory {
    mesh(
        6,
        4,
        &[
            (0, TRI, &[0, 1, 2]),
            (1, TRI, &[0, 1, 3]),
            (2, TRI, &[0, 1, 4]),
        ],
    )
}

pub fn p5() -> Memory {
    mesh(6, 4, &[(0, TRI, &[0, 1, 2]), (1, TRI, &[0, 3, 4])])
}

pub fn p6() -> Memory {
    mesh(
        6,
        4,
        &[(0, TETRA, &[0, 1, 2, 3]), (1, TETRA, &[0, 2, 1, 4])],
    )
}

pub fn p7() -> Memory {
    mesh(
        6,
        4,
        &[
            (0, TRI, &[0, 2, 1]),
            (1, TRI, &[0, 1, 3]),
            (2, TRI, &[1, 2, 3]),
            (3, TRI, &[2, 0, 3]),
        ],
    )
}

pub fn p8() -> Memory {
    mesh(6, 4, &[(0, BAR, &[0, 1]), (1, BAR, &[1, 2])])
}

pub fn p9() -> Memory {
    let mut memory = p4();
    memory.remove(1).expect("cell 1 is live");
    memory
}

pub fn p12() -> Memory {
    mesh(6, 4, &[(0, TRI, &[0, 1, 2]), (1, TETRA, &[0, 1, 2, 3])])
}

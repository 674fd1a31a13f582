//! Request 7: surfaces in and out, worked by hand and by their laws.

mod common;

use common::maps::*;
use common::random::Random;
use second::off::{read, text, Refused, Surface, FORM_BROKEN, NOT_SURFACE};
use second::{room, Memory};

/// A triangle and a quad.
const SHEET: &[u8] = b"OFF\n4 2 0\n0 0 0\n1 0 -0\n-32768 32767 0\n007 1 5\n3 0 1 2\n4 0 1 2 3\n";

/// As it is written: the fewest digits, no minus before 0.
const OURS: &[u8] = b"OFF\n4 2 0\n0 0 0\n1 0 0\n-32768 32767 0\n7 1 5\n3 0 1 2\n4 0 1 2 3\n";

fn lent(words: usize) -> (Memory, Vec<i16>) {
    (Memory::lent(words), vec![99; 20])
}

#[test]
fn worked_texts() {
    let surface = Surface {
        marks: 4,
        cells: 2,
        positions: vec![0, 0, 0, 1, 0, 0, -32768, 32767, 0, 7, 1, 5],
        faces: vec![vec![0, 1, 2], vec![0, 1, 2, 3]],
    };
    assert_eq!(read(SHEET), Ok(surface.clone()));
    assert_eq!(text(4, &surface.positions, &surface.faces), OURS);
    let empty = Surface {
        marks: 0,
        cells: 0,
        positions: vec![],
        faces: vec![],
    };
    assert_eq!(read(b"\n OFF 0 0 \n 999999 \n"), Ok(empty));
    let far = read(b"OFF 0 1 0 3 0 1 999999").expect("a mark beyond the counts is of the form");
    assert_eq!(far.faces, [[0, 1, 999_999]]);
}

#[test]
fn the_first_word_that_breaks_the_form() {
    for (broken, place) in [
        (&b" \n"[..], 2),
        (b" OF", 1),
        (b"OFF# 0 0 0", 0),
        (b"OFF 999999 0 0 1 2\n", 19),
        (b"OFF 0\t0 0", 4),
        (b"OFF 0 0 0\r\n", 8),
        (b"OFF 1 0 0 +1 0 0", 10),
        (b"OFF -1 0 0", 4),
        (b"OFF 0000000 0 0", 4),
        (b"OFF 1 0 0 0 32768 0", 12),
        (b"OFF 1 0 0 0 -32769 0", 12),
        (b"OFF 1 0 0 0 -", 12),
        (b"OFF 0 1 0 5 0 1 2 3 4", 10),
        (b"OFF 0 0 0 0", 10),
        (b"", 0),
    ] {
        assert_eq!(
            read(broken),
            Err(place),
            "{}",
            String::from_utf8_lossy(broken)
        );
    }
}

/// Cut anywhere, a text ends early or its last word is only a beginning.
#[test]
fn cut_at_every_byte() {
    for cut in 0..SHEET.len() {
        let part = &SHEET[..cut];
        let begun = part
            .iter()
            .rposition(|byte| b" \n".contains(byte))
            .map_or(0, |at| at + 1);
        match read(part) {
            Err(place) => assert!(place == cut || place == begun, "cut at {cut}: {place}"),
            // the last line end may be missing
            Ok(surface) => assert_eq!((cut, surface.cells), (SHEET.len() - 1, 2)),
        }
    }
}

#[test]
fn refusals_in_their_order() {
    let refused = |number, place| Err(Refused { number, place });
    let room = room(4, 2);

    // 17 before 1, 2 and 16
    let (mut memory, mut positions) = lent(0);
    assert_eq!(
        memory.read_off(&mut positions, b"OFF 70000 0 x"),
        refused(FORM_BROKEN, 12)
    );
    // 1 before 2 and 16; the face's mark is looked at last
    let many = [b"OFF 0 65536 0".to_vec(), b" 3 0 1 2".repeat(65_536)].concat();
    assert_eq!(memory.read_off(&mut [], &many), refused(1, 0));
    // 2 before 16
    let (mut memory, _) = lent(room - 1);
    assert_eq!(memory.read_off(&mut [0; 11], SHEET), refused(2, 0));
    let (mut memory, _) = lent(room);
    assert_eq!(memory.read_off(&mut [0; 11], SHEET), refused(16, 0));
    assert_eq!(memory.mesh, None);

    // a face is refused: an empty mesh of those capacities, positions unchanged
    let (mut memory, mut positions) = lent(room);
    let twice = b"OFF 4 2 0 0 0 0 1 0 0 2 0 0 3 0 0 3 0 1 2 4 0 1 2 2";
    assert_eq!(memory.read_off(&mut positions, twice), refused(9, 1));
    let mesh = memory.mesh.as_ref().expect("a formatted mesh");
    assert_eq!((mesh.marks, mesh.cells, mesh.live.len()), (4, 2, 0));
    assert_eq!(positions, [99; 20]);

    // read: numbers beyond three a mark stay
    assert_eq!(memory.read_off(&mut positions, SHEET), Ok(()));
    assert_eq!(positions[12..], [99; 8]);
    assert_eq!(memory.write_off(&positions, 1000).as_deref(), Ok(OURS));

    // written: 14, 16, 18, 12
    let none = Memory::lent(room);
    assert_eq!(none.write_off(&[], 0), Err(14));
    let solid = mesh_with(&[(0, TRI, &[0, 1, 2]), (2, TETRA, &[0, 1, 2, 3])]);
    assert_eq!(solid.write_off(&[0; 11], 0), Err(16));
    assert_eq!(solid.write_off(&[0; 12], 0), Err(NOT_SURFACE));
    assert_eq!(memory.write_off(&positions, OURS.len() - 1), Err(12));
    assert_eq!(
        memory.write_off(&positions, OURS.len()).as_deref(),
        Ok(OURS)
    );
}

fn mesh_with(records: &[Record]) -> Memory {
    mesh(4, 3, records)
}

/// "An OFF surface read, written as OFF by us and read again gives the same
/// cells and positions"; with gaps the faces are numbered 0, 1, 2 anew.
#[test]
fn read_written_and_read_again() {
    let mut random = Random::from_seed(7);
    for _ in 0..200 {
        let marks = 4 + random.below(9) as u32;
        let cells = random.below(12) as u32;
        let mut memory = formatted(marks, cells);
        let mut positions = Vec::new();
        for _ in 0..3 * marks + 2 {
            positions.push((random.below(65_536) as i64 - 32_768) as i16);
        }
        for cell in 0..cells {
            let size = 3 + random.below(2);
            let face = random.marks(marks, size);
            // some are refused: then a number is left out
            let _ = memory.insert_licensed(cell, size as u32 - 1, random.below(3) as u32, &face);
        }
        let written = memory.write_off(&positions, 10_000).expect("faces alone");
        let surface = read(&written).expect("ours is of the form");
        let (mut again, mut found) = (Memory::lent(room(marks, cells)), vec![0; positions.len()]);
        assert_eq!(again.read_off(&mut found, &written), Ok(()));
        assert_eq!(found[..3 * marks as usize], positions[..3 * marks as usize]);
        let faces: Vec<Vec<u32>> = (0..surface.cells)
            .map(|cell| again.marks_of(cell))
            .collect();
        let left = (0..cells).map(|cell| memory.marks_of(cell));
        assert!(left.filter(|face| !face.is_empty()).eq(faces));
        // OFF has no place for a licence
        assert!((0..surface.cells).all(|cell| again.licence(cell) == Ok(0)));
        assert_eq!(again.write_off(&found, 10_000), Ok(written));
    }
}

//! Surfaces in and out: the library beside the second program, byte for byte and
//! word for word, between sentinels.

mod common;

use common::{is_map, marks, records, Chance, Question, SENTINEL};
use mengkiloh::{
    off_room, room, Cell, Edition, Licence, Mesh, OffError, OffRefused, Refusal, Surface, Type,
};
use second::off;
use second::Memory;

/// A triangle and a quad.
const SHEET: &[u8] = b"OFF\n4 2 0\n0 0 0\n1 0 -0\n-32768 32767 0\n007 1 5\n3 0 1 2\n4 0 1 2 3\n";

/// As it is written: the fewest digits, no minus before 0.
const OURS: &[u8] = b"OFF\n4 2 0\n0 0 0\n1 0 0\n-32768 32767 0\n7 1 5\n3 0 1 2\n4 0 1 2 3\n";

/// A closed surface of 226 marks and 448 triangles, from a public package;
/// examples/surfaces/README.md names it and says what was rounded.
const MUSHROOM: &[u8] = include_bytes!("../../examples/surfaces/mushroom.off");

/// What stands in no position that a read writes here.
const METRE: i16 = -12_321;

/// Words and numbers on either side of what is lent.
const EDGE: usize = 8;

/// 0, or the number of a refusal and its place.
type Told = (u8, usize);

/// A text read into so many words and numbers, by the library and by the second
/// program: the same answer, the same positions, and word for word the mesh of
/// the second program's cells; where it has none, memory as it was.
fn read(words: usize, numbers: usize, text: &[u8]) -> Told {
    let mut memory = Memory::lent(words);
    let mut metres = vec![METRE; numbers];
    let theirs = match memory.read_off(&mut metres, text) {
        Ok(()) => (0, 0),
        Err(refused) => (refused.number, refused.place),
    };
    let mut expected = vec![SENTINEL; EDGE + words + EDGE];
    if let Some(mesh) = &memory.mesh {
        let mut fresh = Mesh::over(&mut expected[EDGE..EDGE + words]);
        let built = fresh.build(mesh.marks, mesh.cells, &records(&mesh.live));
        assert_eq!(built, Ok(()));
    }

    let mut lent = vec![SENTINEL; EDGE + words + EDGE];
    let mut positions = vec![METRE; EDGE + numbers + EDGE];
    let mut mesh = Mesh::over(&mut lent[EDGE..EDGE + words]);
    let ours = match mesh.read_off(&mut positions[EDGE..EDGE + numbers], text) {
        Ok(()) => (0, 0),
        Err(OffRefused { refusal, place }) => (refusal.number(), place),
    };
    let shown = String::from_utf8_lossy(&text[..text.len().min(200)]);
    assert_eq!(ours, theirs, "{shown}");
    assert!(lent == expected, "{shown}");
    let (before, rest) = positions.split_at(EDGE);
    let (inside, behind) = rest.split_at(numbers);
    assert_eq!(inside, metres, "{shown}");
    assert!(before.iter().chain(behind).all(|&metre| metre == METRE));
    ours
}

/// A surface written into so many bytes, between sentinels.
fn written(mesh: &Mesh<Vec<u32>>, positions: &[i16], bytes: usize) -> Result<Vec<u8>, u8> {
    let said = common::written(bytes, |out| mesh.write_off_into(positions, out));
    match said {
        (0, text) => Ok(text.into_iter().map(|byte| byte as u8).collect()),
        (number, _) => Err(number),
    }
}

#[test]
fn worked_texts() {
    assert_eq!(read(room(4, 2), 12, SHEET), (0, 0));
    assert_eq!(read(room(4, 2) + 3, 20, OURS), (0, 0));
    assert_eq!(read(room(0, 0), 0, b"\n OFF 0 0 \n 999999 \n"), (0, 0));
    let surface = Surface::read(SHEET).expect("it is of the form");
    assert_eq!(
        surface.positions,
        [0, 0, 0, 1, 0, 0, -32768, 32767, 0, 7, 1, 5]
    );
    assert_eq!(surface.mesh.words().len(), room(4, 2));
    assert_eq!(surface.mesh.type_of(Cell(1)), Ok(Type::Quad));
    assert_eq!(
        surface.mesh.marks_of(Cell(1)),
        Ok(&marks(&[0, 1, 2, 3])[..])
    );
    assert_eq!(surface.mesh.edition(), Ok(1));
    let mut text = Vec::new();
    surface.write(&mut text).expect("memory takes it");
    assert_eq!(text, OURS);
}

#[test]
fn words_that_break_the_form() {
    for (text, place) in [
        (&b" \n"[..], 2),
        (b" OF", 1),
        (b"off 0 0 0", 0),
        (b"OFFS 0 0 0", 0),
        (b"OFF# 0 0 0", 0),
        (b"OFF 999999 0 0 1 2\n", 19),
        (b"OFF 0\t0 0", 4),
        (b"OFF 0 0 0\r\n", 8),
        (b"OFF 1 0 0 +1 0 0", 10),
        (b"OFF 1 0 0 1.5 0 0", 10),
        (b"OFF -1 0 0", 4),
        (b"OFF 0000000 0 0", 4),
        (b"OFF 1 0 0 0 32768 0", 12),
        (b"OFF 1 0 0 0 -32769 0", 12),
        (b"OFF 1 0 0 0 -", 12),
        (b"OFF 1 0 0 0 --1 0", 12),
        (b"OFF 0 1 0 5 0 1 2 3 4", 10),
        (b"OFF 0 1 0 2 0 1", 10),
        (b"OFF 0 0 0 0", 10),
        (b"OFF 0 0", 7),
        (b"", 0),
    ] {
        assert_eq!(read(room(4, 2), 12, text), (17, place));
    }
    // within six digits zeros may lead, and -0 is 0
    assert_eq!(
        read(16 + 8, 3, b"OFF 000001 0 0 -000000 -032768 032767"),
        (0, 0)
    );
}

/// Every byte of a small file, made every other byte.
#[test]
fn every_single_byte_damage() {
    let mut kinds = [0; 24];
    for at in 0..SHEET.len() {
        for byte in 0..=255 {
            let mut text = SHEET.to_vec();
            text[at] = byte;
            let (number, place) = read(room(9, 9), 27, &text);
            assert!(place <= text.len());
            kinds[number as usize] += 1;
        }
    }
    // read all the same, 8 for a mark, 9 for a mark that occurs twice, and 17
    for number in [0, 8, 9, 17] {
        assert!(kinds[number] > 0, "{kinds:?}");
    }
}

#[test]
fn cut_at_every_byte() {
    for cut in 0..=SHEET.len() {
        let (number, place) = read(room(4, 2), 12, &SHEET[..cut]);
        let whole = cut + 1 >= SHEET.len();
        assert_eq!(number, if whole { 0 } else { 17 }, "cut at {cut}: {place}");
    }
}

/// 17, then 1, 2 and 16, then the build's own with the face's place.
#[test]
fn a_reads_refusals_in_their_order() {
    let four = b"OFF 4 2 0 0 0 0 1 0 0 2 0 0 3 0 0 ";
    let with = |faces: &[u8]| [&four[..], faces].concat();
    let enough = room(4, 2);
    assert_eq!(read(0, 0, b"OFF 70000 0 x"), (17, 12));
    let many = [b"OFF 0 65536 0".to_vec(), b" 3 0 1 2".repeat(65_536)].concat();
    assert_eq!(read(0, 0, &many), (1, 0));
    let vertices = [b"OFF 65536 0 0".to_vec(), b" 1 2 3".repeat(65_536)].concat();
    assert_eq!(read(0, 0, &vertices), (1, 0));
    assert_eq!(read(enough - 1, 11, &with(b"3 0 1 9 4 0 1 2 2")), (2, 0));
    assert_eq!(read(enough, 11, &with(b"3 0 1 9 4 0 1 2 2")), (16, 0));
    for (faces, number, place) in [
        (&b"3 0 1 9 4 0 1 2 2"[..], 8, 0),
        (b"3 0 1 2 4 0 1 2 2", 9, 1),
        (b"3 0 1 2 3 2 1 0", 10, 1),
        (b"4 0 1 2 3 4 0 1 2 999999", 8, 1),
    ] {
        assert_eq!(read(enough, 12, &with(faces)), (number, place));
    }
    // 128 faces at a mark, and one more
    let mut text = b"OFF 131 129 0".to_vec();
    text.extend(b" 0 0 0".repeat(131));
    for face in 0..129 {
        text.extend(format!(" 3 0 {} {}", face + 1, face + 2).into_bytes());
    }
    assert_eq!(read(room(131, 129), 393, &text), (11, 128));
}

/// 14, 16, 18, 12.
#[test]
fn a_writes_refusals_in_their_order() {
    let none = Mesh::over(vec![SENTINEL; room(4, 3)]);
    assert_eq!(written(&none, &[], 0), Err(14));
    let mut solid = Mesh::with_room(4, 3).expect("the room fits");
    for (cell, kind, on) in [
        (0, Type::Triangle, &[0, 1, 2][..]),
        (2, Type::Tetrahedron, &[0, 1, 2, 3]),
    ] {
        assert_eq!(solid.insert(Cell(cell), kind, &marks(on)), Ok(()));
    }
    assert_eq!(written(&solid, &[0; 11], 0), Err(16));
    assert_eq!(written(&solid, &[0; 12], 0), Err(18));
    assert_eq!(solid.remove(Cell(2)), Ok(()));
    let text = b"OFF\n4 1 0\n0 0 0\n0 0 0\n0 0 0\n0 0 0\n3 0 1 2\n";
    for bytes in 0..text.len() {
        assert_eq!(written(&solid, &[0; 12], bytes), Err(12));
    }
    for bytes in [text.len(), text.len() + 9] {
        assert_eq!(written(&solid, &[0; 12], bytes), Ok(text.to_vec()));
    }
    for kind in [
        Type::Bar,
        Type::Tetrahedron,
        Type::Pyramid,
        Type::Wedge,
        Type::Brick,
    ] {
        let mut mesh = Mesh::with_room(8, 1).expect("the room fits");
        let on: Vec<u32> = (0..8).collect();
        let row = second::shapes::type_with_code(kind.into()).expect("it is in the table");
        let inserted = mesh.insert(Cell(0), kind, &marks(&on[..row.marks]));
        assert_eq!(inserted, Ok(()));
        assert_eq!(mesh.write_off(&[0; 24]), Err(Refusal::NotSurface));
    }
}

/// A surface by chance: the library's mesh and the second program's, with gaps
/// where a face was refused or removed.
fn drawn(chance: &mut Chance) -> (Mesh<Vec<u32>>, Memory, Vec<i16>) {
    let (count, cells) = (4 + chance.below(9), chance.below(14));
    let mut mesh = Mesh::with_room(count, cells).expect("the room fits");
    let mut memory = Memory::lent(room(count, cells));
    memory.format(count, cells).expect("the room fits");
    for cell in 0..cells {
        let size = 3 + chance.below(2);
        let on: Vec<u32> = (0..size).map(|_| chance.below(count)).collect();
        let licence = chance.below(3);
        let ours = mesh.insert_licensed(Cell(cell), size - 1, Licence(licence), &marks(&on));
        let theirs = memory.insert_licensed(cell, size - 1, licence, &on);
        assert_eq!(
            ours.map_err(Refusal::number),
            theirs.map_err(second::Refusal::number)
        );
    }
    let metre = |chance: &mut Chance| (i64::from(chance.below(65_536)) - 32_768) as i16;
    let positions = (0..3 * count + 2).map(|_| metre(chance)).collect();
    (mesh, memory, positions)
}

/// "An OFF surface read, written as OFF by us and read again gives the same cells
/// and positions"; with gaps the faces are numbered 0, 1, 2 anew.
#[test]
fn written_read_and_written_again() {
    let mut chance = Chance::from_seed(7);
    for _ in 0..2_000 {
        let (mesh, memory, positions) = drawn(&mut chance);
        let text = written(&mesh, &positions, 1_000);
        assert_eq!(text, memory.write_off(&positions, 1_000));
        let text = text.expect("faces alone");
        assert_eq!(mesh.write_off(&positions), Ok(text.clone()));
        let (count, _) = mesh.capacities().expect("it is a mesh");
        let live = mesh.live().expect("it is a mesh");
        let faces = live.len() as u32;
        assert_eq!(read(room(count, faces), positions.len(), &text), (0, 0));
        let again = Surface::read(&text[..]).expect("ours is of the form");
        assert_eq!(again.positions, positions[..3 * count as usize]);
        assert_eq!(again.mesh.capacities(), Ok((count, faces)));
        for (place, &cell) in live.iter().enumerate() {
            let place = Cell(place as u32);
            assert_eq!(again.mesh.marks_of(place), mesh.marks_of(cell));
            assert_eq!(again.mesh.type_of(place), mesh.type_of(cell));
            // OFF has no place for a licence
            assert_eq!(again.mesh.licence(place), Ok(Licence(0)));
        }
        assert_eq!(again.mesh.write_off(&again.positions), Ok(text));
    }
}

/// A surface read by the library and by the second program, each into memory of
/// its own: the same positions.
fn both(text: &[u8]) -> (Surface, Memory) {
    let surface = Surface::read(text).expect("it is of the form");
    let mut memory = Memory::lent(surface.mesh.words().len());
    let mut metres = vec![METRE; surface.positions.len()];
    assert_eq!(memory.read_off(&mut metres, text), Ok(()));
    assert_eq!(surface.positions, metres);
    (surface, memory)
}

/// A file as it was sent: read, written in our form, and read again.
#[test]
fn a_surface_of_a_public_package() {
    let (words, numbers) = (room(226, 448), 3 * 226);
    assert_eq!(read(words, numbers, MUSHROOM), (0, 0));
    assert_eq!(read(words - 1, numbers, MUSHROOM), (2, 0));
    assert_eq!(read(words, numbers - 1, MUSHROOM), (16, 0));
    let (surface, memory) = both(MUSHROOM);
    is_map(surface.mesh.words(), &memory);
    assert!(surface.mesh.whole());
    let mut asked = vec![Question::Capacities, Question::Live, Question::Edition];
    for cell in 0..448 {
        asked.extend([Question::Type(cell), Question::Marks(cell)]);
        asked.extend((0..3).map(|facet| Question::Sibling(cell, facet)));
    }
    for mark in 0..226 {
        asked.extend([Question::Star(2, mark), Question::Anchors(2, mark)]);
    }
    for question in asked {
        let (ours, theirs) = (
            question.to_library(&surface.mesh),
            question.to_second(&memory),
        );
        assert_eq!(ours, theirs, "{question:?}");
    }

    let text = memory.write_off(&surface.positions, MUSHROOM.len());
    let text = text.expect("faces alone");
    // its lines have two spaces before a face's marks
    assert_eq!(text.len(), MUSHROOM.len() - 448);
    let ours = written(&surface.mesh, &surface.positions, text.len());
    assert!(ours.as_ref() == Ok(&text));
    assert_eq!(read(words, numbers, &text), (0, 0));
    let (again, _) = both(&text);
    assert!(again.mesh.words() == surface.mesh.words());
    assert_eq!(again.positions, surface.positions);
    assert_eq!(again.mesh.write_off(&again.positions), Ok(text));
}

/// What a morning leaves of a surface that was read: numbers that are removed, and
/// then a face that comes back under another one.
type Morning = (Vec<u32>, Option<(u32, u32)>);

/// The surface after a morning, written and read: the faces that the second
/// program keeps, by their numbers, are cells 0, 1, 2 and so on, and the positions
/// are the same. Whether memory is the same too.
fn turned_after(text: &[u8], (gone, back): &Morning) -> bool {
    let (mut surface, mut memory) = both(text);
    let before = surface.mesh.words().to_vec();
    let face = back.map(|(from, _)| memory.marks_of(from));
    for &cell in gone {
        assert_eq!(surface.mesh.remove(Cell(cell)), Ok(()));
        assert_eq!(memory.remove(cell), Ok(()));
    }
    if let (Some(face), &Some((_, to))) = (face, back) {
        let code = face.len() as u32 - 1;
        let inserted = surface.mesh.insert(Cell(to), code, &marks(&face));
        assert_eq!(inserted, Ok(()));
        assert_eq!(memory.insert(to, code, &face), Ok(()));
    }
    let live = memory.live(usize::MAX).expect("it is a mesh");
    let left: Vec<Vec<u32>> = live.iter().map(|&cell| memory.marks_of(cell)).collect();
    let (count, _) = memory.capacities().expect("it is a mesh");
    let faces = left.len() as u32;

    let expected = off::text(count, &surface.positions, &left);
    let theirs = memory.write_off(&surface.positions, expected.len());
    assert!(theirs.as_ref() == Ok(&expected));
    let ours = written(&surface.mesh, &surface.positions, expected.len());
    assert!(ours == theirs);
    let numbers = surface.positions.len();
    assert_eq!(read(room(count, faces), numbers, &expected), (0, 0));
    let (again, memory) = both(&expected);
    assert_eq!(memory.live(usize::MAX), Ok((0..faces).collect()));
    assert_eq!(again.mesh.capacities(), Ok((count, faces)));
    assert_eq!(again.positions, surface.positions);
    for (cell, face) in (0..).zip(&left) {
        assert_eq!(memory.marks_of(cell), *face);
        assert_eq!(again.mesh.marks_of(Cell(cell)), Ok(&marks(face)[..]));
    }
    assert_eq!(again.mesh.write_off(&again.positions), Ok(expected));
    again.mesh.words() == before
}

#[test]
fn gaps_are_closed() {
    for (text, faces) in [(SHEET, 2), (MUSHROOM, 448)] {
        let some = |gone: &dyn Fn(u32) -> bool| (0..faces).filter(|&cell| gone(cell)).collect();
        let last = faces - 1;
        // not edited since: exactly the same
        assert!(turned_after(text, &(vec![], None)));
        // taken out and put back: the same cells, so the same
        assert!(turned_after(text, &(vec![last], Some((last, last)))));
        for morning in [
            (vec![0], None),
            (vec![last], None),
            (some(&|cell| cell % 3 == 1), None),
            (some(&|cell| cell != 1), None),
            (some(&|_| true), None),
            // the first face comes back under the last number
            (vec![0, last], Some((0, last))),
        ] {
            assert!(!turned_after(text, &morning), "{morning:?}");
        }
    }
}

/// "01's forms and request 7's read mean edition 1", whatever the edition was.
#[test]
fn a_surface_of_edition_2_is_read_under_edition_1() {
    let (surface, memory) = both(MUSHROOM);
    let live = records(&memory.mesh.as_ref().expect("a mesh").live);
    let mut later = Mesh::over(vec![0; room(226, 448)]);
    assert_eq!(
        later.build_edition(226, 448, Edition::Second, &live),
        Ok(())
    );
    assert_eq!(later.edition(), Ok(2));
    let text = later.write_off(&surface.positions).expect("faces alone");
    assert!(Ok(&text) == memory.write_off(&surface.positions, text.len()).as_ref());
    let again = Surface::read(&text[..]).expect("ours is of the form");
    assert_eq!(again.mesh.edition(), Ok(1));
    assert!(again.mesh.words() == surface.mesh.words());
}

/// Words by chance, some of them broken.
#[test]
fn texts_by_chance() {
    let mut chance = Chance::from_seed(17);
    let words: [&[u8]; 16] = [
        b"OFF", b"0", b"1", b"2", b"3", b"4", b"3", b"4", b"00", b"-1", b"x", b"-", b"7", b"5",
        b"-0", b"12",
    ];
    for _ in 0..20_000 {
        let mut text = b"OFF".to_vec();
        for _ in 0..3 + chance.below(28) {
            text.push([b' ', b'\n'][chance.below(2) as usize]);
            let most = if chance.below(40) == 0 { 16 } else { 8 };
            text.extend(words[chance.below(most) as usize]);
        }
        read(room(5, 3), 15, &text);
    }
}

/// 65,535 marks and 65,535 faces.
#[test]
fn faces_to_65535() {
    let count = 65_535u32;
    // quads and triangles in turn, along the marks and round to the first
    let face = |at: u32| -> Vec<u32> {
        let size = 3 + at % 2;
        (at..at + size).map(|mark| mark % count).collect()
    };
    let faces: Vec<Vec<u32>> = (0..count).map(face).collect();
    let positions = vec![-32_768; 3 * count as usize];
    let text = off::text(count, &positions, &faces);
    assert!(text.len() <= off_room(count, count));
    let surface = Surface::read(&text[..]).expect("it is of the form");
    assert_eq!(surface.mesh.capacities(), Ok((count, count)));
    assert_eq!(surface.positions, positions);
    for (cell, face) in faces.iter().enumerate() {
        let on = surface.mesh.marks_of(Cell(cell as u32));
        assert_eq!(on, Ok(&marks(face)[..]));
    }
    assert!(surface.mesh.whole());
    assert_eq!(surface.mesh.write_off(&surface.positions), Ok(text.clone()));
    // one mark more, one face more
    for (marks, faces) in [(count + 1, 0), (0, count + 1)] {
        let mut text = format!("OFF {marks} {faces} 0").into_bytes();
        text.extend(b" 0 0 0".repeat(marks as usize));
        text.extend(b" 3 0 1 2".repeat(faces as usize));
        let Err(OffError::Text(refused)) = Surface::read(&text[..]) else {
            panic!("{marks} marks and {faces} faces are read");
        };
        assert_eq!(
            (refused.refusal, refused.place),
            (Refusal::CapacityAbove, 0)
        );
    }
}

/// The longest lines: six bytes a metre, five digits a count and a mark.
#[test]
fn the_room_of_the_longest_text() {
    let mut mesh = Mesh::with_room(65_535, 65_535).expect("the room fits");
    let on = [65_531, 65_532, 65_533, 65_534];
    assert_eq!(mesh.insert(Cell(9), Type::Quad, &marks(&on)), Ok(()));
    let positions = vec![-32_768; 3 * 65_535];
    let text = mesh.write_off(&positions).expect("faces alone");
    // the count of faces has one digit, not five
    assert_eq!(text.len(), off_room(65_535, 1) - 4);
}

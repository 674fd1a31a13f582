//! The limits of the outline, at full size.

mod common;

use common::{plain, Number, SENTINEL};
use mengkiloh::{
    room, BuildRefused, Cell, Edition, Half, Licence, Mark, Mesh, Records, Refusal, Type, Way,
};

#[test]
fn capacities_go_to_65535() {
    let mut words = vec![SENTINEL; room(65_535, 65_535) + 1];
    for (marks, cells) in [(65_536, 0), (0, 65_536), (u32::MAX, 0), (0, u32::MAX)] {
        let answer = Mesh::over(&mut words[..]).format(marks, cells);
        assert_eq!(answer, Err(Refusal::CapacityAbove));
        assert!(words.iter().all(|&word| word == SENTINEL));
    }
    for (marks, cells) in [(65_535, 65_535), (65_535, 0), (0, 65_535), (0, 0)] {
        assert_eq!(Mesh::over(&mut words[..]).format(marks, cells), Ok(()));
        assert!(Mesh::over(&words[..]).whole());
        assert_eq!(Mesh::over(&words[..]).capacities(), Ok((marks, cells)));
        assert_eq!(words[room(marks, cells)..].last(), Some(&SENTINEL));
    }
}

/// "6 for another edition, before 1 and like it".
#[test]
fn editions_are_1_and_2() {
    let exact = room(6, 4);
    let mut words = vec![SENTINEL; exact + 1];
    for edition in [0_u32, 3, 257, 258, u32::MAX] {
        for (marks, cells) in [(6, 4), (65_536, 4), (6, u32::MAX), (6, 5)] {
            let mut map = Mesh::over(&mut words[..exact]);
            let answer = map.format_edition(marks, cells, edition);
            assert_eq!(answer, Err(Refusal::TypeUnknown));
            let refused = BuildRefused {
                refusal: Refusal::TypeUnknown,
                record: 0,
            };
            let built = map.build_edition(marks, cells, edition, &strip(2, 6));
            assert_eq!(built, Err(refused));
        }
        assert!(words.iter().all(|&word| word == SENTINEL));
    }
    for edition in [Edition::First, Edition::Second] {
        let mut map = Mesh::over(&mut words[..exact]);
        let above = map.format_edition(65_536, 4, edition);
        assert_eq!(above, Err(Refusal::CapacityAbove));
        let short = map.format_edition(6, 5, edition);
        assert_eq!(short, Err(Refusal::MemoryShort));
        assert_eq!(map.format_edition(6, 4, edition), Ok(()));
        assert_eq!(map.edition(), Ok(edition.into()));
        assert!(map.whole());
        assert_eq!(map.build_edition(6, 4, edition, &strip(2, 6)), Ok(()));
        assert_eq!(map.edition(), Ok(edition.into()));
        assert!(map.whole());
    }
    let mut map = Mesh::over(&mut words[..exact]);
    assert_eq!(map.format(6, 4), Ok(()));
    assert_eq!(map.edition(), Ok(1));
    assert_eq!(map.format_edition(6, 4, Edition::Second), Ok(()));
    assert_eq!(map.build(6, 4, &strip(2, 6)), Ok(()));
    assert_eq!(map.edition(), Ok(1));
    assert_eq!(words[exact], SENTINEL);
}

#[test]
fn the_room_fits_exactly_and_not_one_word_short() {
    for (marks, cells) in [(0, 0), (6, 4), (65_535, 1), (1, 65_535)] {
        let exact = room(marks, cells);
        let mut words = vec![SENTINEL; exact + 1];
        let short = Mesh::over(&mut words[..exact - 1]).format(marks, cells);
        assert_eq!(short, Err(Refusal::MemoryShort));
        assert!(words.iter().all(|&word| word == SENTINEL));
        assert_eq!(Mesh::over(&mut words[..exact]).format(marks, cells), Ok(()));
        assert_eq!(words[exact], SENTINEL);
        assert!(Mesh::over(&words[..exact]).whole());
        assert!(!Mesh::over(&words[..exact - 1]).whole());
        let cut = Mesh::over(&words[..exact - 1]).count(Type::Bar);
        assert_eq!(cut, Err(Refusal::NotMesh));
    }
}

#[test]
fn a_mark_takes_128_cells_and_not_129() {
    let mut map = Mesh::with_room(200, 200).expect("a mesh of its own");
    for cell in 0..128 {
        let bar = map.insert(Cell(cell), Type::Bar, &[0, cell + 1].map(Mark));
        assert_eq!(bar, Ok(()));
    }
    let before = map.words().to_vec();
    let answer = map.insert(Cell(128), Type::Bar, &[0, 150].map(Mark));
    assert_eq!(answer, Err(Refusal::MarkFull));
    let answer = map.insert(Cell(128), Type::Triangle, &[150, 151, 0].map(Mark));
    assert_eq!(answer, Err(Refusal::MarkFull));
    assert_eq!(map.words(), before);
    assert_eq!(map.star(1, Mark(0)), Ok((0..128).map(Cell).collect()));
    assert_eq!(map.anchors(1, Mark(0)).map(|list| list.len()), Ok(1));
    assert_eq!(map.remove(Cell(17)), Ok(()));
    assert_eq!(
        map.insert(Cell(128), Type::Bar, &[0, 150].map(Mark)),
        Ok(())
    );
    assert!(map.whole());
}

#[test]
fn a_list_fits_exactly_and_not_one_place_short() {
    let mut map = Mesh::with_room(20, 20).expect("a mesh of its own");
    for cell in 0..9 {
        let sheet = map.insert(Cell(cell), Type::Triangle, &[0, 1, 2 + cell].map(Mark));
        assert_eq!(sheet, Ok(()));
    }
    let all: Vec<Cell> = (0..9).map(Cell).collect();
    let round: Vec<Half> = (0..9).map(|turn| Half((3 + turn) % 9 * 8)).collect();
    let mut ways = [SENTINEL; 12];
    fits(&all, |out| map.star_into(2, Mark(1), out));
    fits(&[Half(2)], |out| map.anchors_into(2, Mark(0), out));
    for (room, ways_room, due) in [
        (9, 8, Err(Refusal::OutputShort)),
        (8, 9, Err(Refusal::OutputShort)),
        (9, 9, Ok(9)),
    ] {
        let mut out = [Half(SENTINEL); 12];
        let answer = map.cycle_into(Cell(3), 0, &mut out[..room], &mut ways[..ways_room]);
        assert_eq!(answer, due);
        let given = answer.unwrap_or(0);
        assert_eq!(out[..given], round[..given]);
        assert!(ways[..given].iter().all(|&way| way == Way::Same.into()));
        assert!(plain(&out[given..]).iter().all(|&word| word == SENTINEL));
        assert!(ways[given..].iter().all(|&word| word == SENTINEL));
    }
    fits(&all[1..], |out| map.neighbours_into(Cell(0), out));
    fits(&all, |out| map.cells_into(Type::Triangle, out));
    fits(&all, |out| map.live_into(out));
}

fn fits<T: Number>(list: &[T], fill: impl Fn(&mut [T]) -> Result<usize, Refusal>) {
    let mut out = vec![T::from(SENTINEL); list.len() + 3];
    let short = fill(&mut out[..list.len() - 1]);
    assert_eq!(short, Err(Refusal::OutputShort));
    assert!(plain(&out).iter().all(|&word| word == SENTINEL));
    let exact = fill(&mut out[..list.len()]);
    assert_eq!(exact, Ok(list.len()));
    assert_eq!(plain(&out[..list.len()]), plain(list));
    let rest = plain(&out[list.len()..]);
    assert!(rest.iter().all(|&word| word == SENTINEL));
}

/// A strip of triangles: cell c on the marks c, c + 1 and c + 2.
fn strip(cells: u32, marks: u32) -> Records {
    let mut records = Records::new();
    for cell in 0..cells {
        let corners = [0, 1, 2].map(|step| Mark((cell + step) % marks));
        records.add(Cell(cell), Type::Triangle, Licence(cell), &corners);
    }
    records
}

#[test]
fn a_full_mesh_is_built_and_whole() {
    let mut words = vec![SENTINEL; room(65_535, 65_535) + 4];
    let exact = room(65_535, 65_535);
    let mut map = Mesh::over(&mut words[..exact]);
    assert_eq!(map.build(65_535, 65_535, &strip(65_535, 65_535)), Ok(()));
    assert!(map.whole());
    assert_eq!(map.count(Type::Triangle), Ok(65_535));
    let all = map.cells(Type::Triangle);
    assert_eq!(all, Ok((0..65_535).map(Cell).collect()));
    assert_eq!(map.live(), all);
    assert_eq!(map.free(), Ok(None));
    let star = map.star(2, Mark(40_000));
    assert_eq!(star, Ok([39_998, 39_999, 40_000].map(Cell).to_vec()));
    let star = map.star(2, Mark(0));
    assert_eq!(star, Ok([0, 65_533, 65_534].map(Cell).to_vec()));
    let near = map.neighbours(Cell(30_000));
    assert_eq!(near, Ok([29_999, 30_001].map(Cell).to_vec()));
    let cycle = map.cycle(Cell(30_000), 1);
    let (here, there) = (Half::of(Cell(30_000), 1), Half::of(Cell(30_001), 0));
    // (c + 1, c + 2) in each of two cells
    assert_eq!(cycle, Ok(vec![(here, Way::Same), (there, Way::Same)]));
    let beyond = map.insert(Cell(65_535), Type::Bar, &[0, 1].map(Mark));
    assert_eq!(beyond, Err(Refusal::CellOutside));
    assert_eq!(map.remove(Cell(30_000)), Ok(()));
    assert!(map.whole());
    let star = map.star(2, Mark(30_001));
    assert_eq!(star, Ok([29_999, 30_001].map(Cell).to_vec()));
    let marks = [30_000, 30_001, 30_002].map(Mark);
    assert_eq!(map.insert(Cell(30_000), Type::Triangle, &marks), Ok(()));
    assert_eq!(map.marks_of(Cell(30_000)), Ok(&marks[..]));
    assert_eq!(map.licence(Cell(30_000)), Ok(Licence(0)));
    assert_eq!(map.licence(Cell(65_534)), Ok(Licence(65_534)));
    assert_eq!(map.remove(Cell(30_000)), Ok(()));
    assert_eq!(map.licence(Cell(30_000)), Err(Refusal::CellNotLive));
    let again = map.insert_licensed(Cell(30_000), Type::Triangle, Licence(30_000), &marks);
    assert_eq!(again, Ok(()));
    let mut afresh = Mesh::over(vec![7; exact]);
    assert_eq!(afresh.build(65_535, 65_535, &strip(65_535, 65_535)), Ok(()));
    assert_eq!(afresh.words(), map.words());
    assert!(words[exact..].iter().all(|&word| word == SENTINEL));
}

/// A chain of bricks: cell c on the marks c to c + 7, so that each mark stands
/// in eight of them.
fn bricks(cells: u32, marks: u32) -> Records {
    let mut records = Records::new();
    for cell in 0..cells {
        let corners = [0, 1, 2, 3, 4, 5, 6, 7].map(|step| Mark((cell + step) % marks));
        records.add(Cell(cell), Type::Brick, Licence(u32::MAX - cell), &corners);
    }
    records
}

#[test]
fn a_full_mesh_of_bricks_is_built_whole_and_emptied() {
    let mut words = vec![SENTINEL; room(65_535, 65_535) + 4];
    let exact = room(65_535, 65_535);
    let mut map = Mesh::over(&mut words[..exact]);
    assert_eq!(map.build(65_535, 65_535, &bricks(65_535, 65_535)), Ok(()));
    assert!(map.whole());
    assert_eq!(map.count(Type::Brick), Ok(65_535));
    let around = map.star(3, Mark(40_000));
    assert_eq!(around, Ok((39_993..=40_000).map(Cell).collect()));
    let near = map.neighbours(Cell(30_000));
    let due = [29_996, 29_998, 29_999, 30_001, 30_002, 30_004];
    assert_eq!(near, Ok(due.map(Cell).to_vec()));
    // the marks 30,001, 30,002, 30,005 and 30,006 are a face of three bricks
    let cycle = [(30_000, 2), (30_001, 1), (29_999, 3)].map(|(c, f)| Half::of(Cell(c), f));
    // (1,2,6,5) of it, (0,1,5,4) of the next, (2,3,7,6) of the one before
    let due = cycle.map(|half| (half, Way::Same)).to_vec();
    assert_eq!(map.cycle(Cell(30_000), 2), Ok(due));
    let face = [30_006, 30_002, 30_001, 30_005].map(Mark);
    assert_eq!(map.lookup(&face), Ok(Some(cycle[2])));
    let marks: Vec<Mark> = (30_000..30_008).map(Mark).collect();
    assert_eq!(map.marks_of(Cell(30_000)), Ok(&marks[..]));
    let full = map.words().to_vec();
    assert_eq!(map.remove(Cell(30_000)), Ok(()));
    assert!(map.whole());
    assert_eq!(map.lookup(&face), Ok(Some(cycle[2])));
    let licence = Licence(u32::MAX - 30_000);
    let again = map.insert_licensed(Cell(30_000), Type::Brick, licence, &marks);
    assert_eq!(again, Ok(()));
    assert_eq!(map.words(), full);
    for cell in (0..65_535).map(Cell) {
        assert_eq!(map.remove(cell), Ok(()));
    }
    assert!(map.whole());
    let empty = Mesh::with_room(65_535, 65_535).expect("a mesh of its own");
    assert_eq!(map.words(), empty.words());
    assert!(words[exact..].iter().all(|&word| word == SENTINEL));
}

/// A chain of tetrahedra: cell c on the marks c to c + 3, so that the marks c,
/// c + 1 and c + 2 are a face of the cells c - 1 and c.
fn tetrahedra(cells: u32, marks: u32) -> Records {
    let mut records = Records::new();
    for cell in 0..cells {
        let corners = [0, 1, 2, 3].map(|step| Mark((cell + step) % marks));
        records.add(Cell(cell), Type::Tetrahedron, Licence(0), &corners);
    }
    records
}

#[test]
fn a_full_mesh_under_edition_2_takes_two_solids_on_a_face_and_not_three() {
    let exact = room(65_535, 65_535);
    let mut map = Mesh::over(vec![SENTINEL; exact]);
    let second = Edition::Second;
    let refused = BuildRefused {
        refusal: Refusal::FaceFull,
        record: 2,
    };
    let built = map.build_edition(65_535, 65_535, second, &bricks(65_535, 65_535));
    assert_eq!(built, Err(refused));
    assert!(map.whole());
    assert_eq!(map.edition(), Ok(2));
    assert_eq!(map.count(Type::Brick), Ok(0));
    let records = tetrahedra(65_535, 65_535);
    let built = map.build_edition(65_535, 65_535, second, &records);
    assert_eq!(built, Ok(()));
    assert!(map.whole());
    assert_eq!(map.edition(), Ok(2));
    let full = map.words().to_vec();
    assert_eq!(map.remove(Cell(30_000)), Ok(()));
    let third = [30_011, 7, 30_012, 30_010].map(Mark);
    let answer = map.insert(Cell(30_000), Type::Tetrahedron, &third);
    assert_eq!(answer, Err(Refusal::FaceFull));
    let third = [30_010, 7, 8, 30_011, 30_012].map(Mark);
    let answer = map.insert(Cell(30_000), Type::Pyramid, &third);
    assert_eq!(answer, Err(Refusal::FaceFull));
    let third = [7, 8, 9, 30_012, 30_011, 30_010].map(Mark);
    let answer = map.insert(Cell(30_000), Type::Wedge, &third);
    assert_eq!(answer, Err(Refusal::FaceFull));
    let twin = [30_013, 30_011, 30_012, 30_010].map(Mark);
    let answer = map.insert(Cell(30_000), Type::Tetrahedron, &twin);
    assert_eq!(answer, Err(Refusal::CellSame));
    // the face of the removed cell has one solid left
    let beside = [30_002, 30_001, 30_000, 7].map(Mark);
    let answer = map.insert(Cell(30_000), Type::Tetrahedron, &beside);
    assert_eq!(answer, Ok(()));
    assert!(map.whole());
    assert_eq!(map.remove(Cell(30_000)), Ok(()));
    let marks = [30_000, 30_001, 30_002, 30_003].map(Mark);
    assert_eq!(map.insert(Cell(30_000), Type::Tetrahedron, &marks), Ok(()));
    assert_eq!(map.words(), full);
    // the same cells under edition 1 differ in the head's one word
    let mut first = Mesh::over(vec![SENTINEL; exact]);
    assert_eq!(first.build(65_535, 65_535, &records), Ok(()));
    let differ = (0..exact).filter(|&word| first.words()[word] != full[word]);
    assert_eq!(Vec::from_iter(differ), [3]);
}

/// Checks 10, 19 and 11, in this order: a face with two solids at a full mark.
#[test]
fn a_third_solid_is_refused_after_a_twin_and_before_a_full_mark() {
    let solid = Type::Tetrahedron;
    let of_third = [
        (Edition::First, Refusal::MarkFull),
        (Edition::Second, Refusal::FaceFull),
    ];
    for (edition, due) in of_third {
        let mut map = Mesh::with_room_edition(200, 200, edition).expect("a mesh of its own");
        for (cell, marks) in [(0, [0, 1, 2, 3]), (1, [0, 2, 1, 4])] {
            assert_eq!(map.insert(Cell(cell), solid, &marks.map(Mark)), Ok(()));
        }
        for cell in 2..128 {
            let bar = map.insert(Cell(cell), Type::Bar, &[0, cell + 10].map(Mark));
            assert_eq!(bar, Ok(()));
        }
        let before = map.words().to_vec();
        let twin = map.insert(Cell(150), solid, &[3, 1, 0, 2].map(Mark));
        assert_eq!(twin, Err(Refusal::CellSame));
        let third = map.insert(Cell(150), solid, &[2, 6, 0, 1].map(Mark));
        assert_eq!(third, Err(due));
        let other = map.insert(Cell(150), solid, &[5, 6, 0, 7].map(Mark));
        assert_eq!(other, Err(Refusal::MarkFull));
        assert_eq!(map.words(), before);
    }
}

#[test]
fn a_build_refused_at_a_record_leaves_no_cell() {
    let mut records = strip(100, 300);
    records.add(Cell(100), Type::Triangle, Licence(1), &[0, 1, 2].map(Mark));
    records.add(Cell(0), Type::Triangle, Licence(1), &[0, 1, 2].map(Mark));
    let mut map = Mesh::over(vec![SENTINEL; room(300, 200) + 2]);
    let refused = BuildRefused {
        refusal: Refusal::CellSame,
        record: 100,
    };
    assert_eq!(map.build(300, 200, &records), Err(refused));
    assert!(map.whole());
    assert_eq!(map.count(Type::Triangle), Ok(0));
    // the third record is of words 12 to 17: cut at each of them
    for length in 13..18 {
        let cut = Records::from(strip(3, 300).words()[..length].to_vec());
        let refused = BuildRefused {
            refusal: Refusal::CountWrong,
            record: 2,
        };
        assert_eq!(map.build(300, 200, &cut), Err(refused));
    }
    assert_eq!(map.words()[room(300, 200)..], [SENTINEL; 2]);
}

//! "To run: capacities 65,535 and 65,536; room exact and one word short; a
//! mark's 128th and 129th cell; a list that fits exactly and one place too
//! short."

mod common;

use common::maps::*;
use second::{room, Memory, Refusal};

/// 16 + 8 × 65,535 + 32 × 65,535.
const LARGEST_ROOM: usize = 2_621_416;

#[test]
fn the_largest_capacities_are_used_to_their_last_number() {
    let mut memory = Memory::lent(LARGEST_ROOM);
    assert_eq!(memory.format(65_535, 65_535), Ok(()));
    assert_eq!(memory.capacities(), Ok((65_535, 65_535)));
    assert_eq!(memory.insert(65_534, TRI, &[65_534, 0, 1]), Ok(()));
    assert_eq!(memory.insert(0, TRI, &[0, 65_534, 2]), Ok(()));
    assert_eq!(memory.next(0, 0), Ok(8 * 65_534));
    assert_eq!(memory.next(65_534, 0), Ok(0));
    assert_eq!(memory.star(2, 65_534, PLENTY), Ok(vec![0, 65_534]));
    let unknown_cell = memory.insert(65_535, TRI, &[3, 4, 5]);
    assert_eq!(unknown_cell, Err(Refusal::CellOutside));
    let unknown_mark = memory.insert(1, TRI, &[3, 4, 65_535]);
    assert_eq!(unknown_mark, Err(Refusal::MarkOutside));
}

#[test]
fn capacities_of_65536_are_refused_in_any_memory() {
    for words in [0, LARGEST_ROOM, 10_000_000] {
        for (marks, cells) in [(65_536, 0), (0, 65_536), (65_536, 65_536)] {
            let mut memory = Memory::lent(words);
            let refusal = Refusal::CapacityAbove;
            assert_eq!(memory.format(marks, cells), Err(refusal));
            assert_eq!(memory.build(marks, cells, &[]), Err((refusal, 0)));
            assert_eq!(memory, Memory::lent(words));
        }
    }
}

#[test]
fn room_exact_and_one_word_short() {
    assert_eq!(room(0, 0), 16);
    assert_eq!(room(1, 0), 24);
    assert_eq!(room(0, 1), 48);
    assert_eq!(room(65_535, 65_535), LARGEST_ROOM);
    let mut short = Memory::lent(LARGEST_ROOM - 1);
    let refusal = Refusal::MemoryShort;
    assert_eq!(short.format(65_535, 65_535), Err(refusal));
    assert_eq!(short.build(65_535, 65_535, &[]), Err((refusal, 0)));
    assert_eq!(short.format(65_534, 65_535), Ok(()));
    let mut exact = Memory::lent(LARGEST_ROOM);
    assert_eq!(exact.format(65_535, 65_535), Ok(()));
    let mut longer = Memory::lent(LARGEST_ROOM + 1);
    assert_eq!(longer.format(65_535, 65_535), Ok(()));
}

/// "A mark may stand in at most 128 live cells, all dimensions together."
#[test]
fn the_128th_cell_of_a_mark_and_the_129th() {
    let mut memory = formatted(400, 200);
    for cell in 0..128 {
        let other = 1 + 3 * cell;
        let answer = match cell % 4 {
            0 => memory.insert(cell, BAR, &[0, other]),
            1 => memory.insert(cell, TRI, &[other, 0, other + 1]),
            2 => memory.insert(cell, QUAD, &[other, other + 1, 0, other + 2]),
            _ => memory.insert(cell, TETRA, &[other, other + 1, other + 2, 0]),
        };
        assert_eq!(answer, Ok(()), "cell {cell}");
    }
    let brick = [0, 392, 393, 394, 395, 396, 397, 398];
    let refusal = Err(Refusal::MarkFull);
    assert_eq!(memory.insert(128, BAR, &[0, 399]), refusal);
    assert_eq!(memory.insert(128, TRI, &[398, 399, 0]), refusal);
    assert_eq!(memory.insert(128, TETRA, &[396, 0, 398, 399]), refusal);
    assert_eq!(memory.insert(128, HEXA, &brick), refusal);
    assert_eq!(memory.insert(128, TRI, &[397, 398, 399]), Ok(()));
    assert_eq!(memory.star(1, 0, PLENTY).unwrap().len(), 32);
    assert_eq!(memory.star(2, 0, PLENTY).unwrap().len(), 64);
    assert_eq!(memory.star(3, 0, PLENTY).unwrap().len(), 32);
    memory.remove(77).unwrap();
    assert_eq!(memory.insert(129, BAR, &[0, 399]), Ok(()));
    assert_eq!(memory.insert(77, BAR, &[0, 398]), refusal);
}

/// "As many may share as refusal 11 lets."
#[test]
fn one_hundred_and_twenty_eight_triangles_share_an_edge() {
    let mut memory = formatted(131, 129);
    for cell in (0..128).rev() {
        memory.insert(cell, TRI, &[0, 1, 2 + cell]).unwrap();
    }
    assert_eq!(
        memory.insert(128, TRI, &[1, 130, 0]),
        Err(Refusal::MarkFull)
    );
    for cell in 0..128 {
        assert_eq!(memory.next(cell, 0), Ok(8 * ((cell + 1) % 128)));
    }
    let all: Vec<u32> = (0..128).map(|cell| 8 * cell).collect();
    assert_eq!(memory.ring(0, 0, 128), Ok(all));
    assert_eq!(memory.ring(0, 0, 127), Err(Refusal::OutputShort));
    assert_eq!(memory.neighbours(64, PLENTY).unwrap().len(), 127);
    // One group: its smallest border at mark 1 is the other edge of cell 0.
    assert_eq!(memory.anchors(2, 1, PLENTY), Ok(vec![1]));
}

/// Each list call: a room longer than the list, an exact one, and one place
/// too short.
#[test]
fn a_list_fits_exactly_or_is_refused() {
    let list_calls: [(&str, Memory, ListCall, Vec<u32>); 6] = [
        (
            "cycle",
            p4(),
            |it, room| it.ring(1, 0, room),
            vec![8, 16, 0],
        ),
        ("star", p4(), |it, room| it.star(2, 1, room), vec![0, 1, 2]),
        (
            "anchors",
            p5(),
            |it, room| it.anchors(2, 0, room),
            vec![0, 8],
        ),
        (
            "neighbours",
            p4(),
            |it, room| it.neighbours(1, room),
            vec![0, 2],
        ),
        (
            "type",
            p4(),
            |it, room| it.cells_of_type(TRI, room),
            vec![0, 1, 2],
        ),
        ("live", p4(), |it, room| it.live(room), vec![0, 1, 2]),
    ];
    for (call, memory, ask, list) in list_calls {
        assert_eq!(ask(&memory, usize::MAX), Ok(list.clone()), "{call}");
        assert_eq!(ask(&memory, list.len()), Ok(list.clone()), "{call}");
        for room in 0..list.len() {
            let answer = ask(&memory, room);
            assert_eq!(answer, Err(Refusal::OutputShort), "{call} in {room}");
        }
    }
}

type ListCall = fn(&Memory, usize) -> Result<Vec<u32>, Refusal>;

#[test]
fn an_empty_list_fits_in_no_room() {
    let memory = p2();
    assert_eq!(memory.star(3, 0, 0), Ok(vec![]));
    assert_eq!(memory.anchors(1, 5, 0), Ok(vec![]));
    assert_eq!(memory.neighbours(0, 0), Ok(vec![]));
    assert_eq!(memory.cells_of_type(TETRA, 0), Ok(vec![]));
    assert_eq!(formatted(6, 4).live(0), Ok(vec![]));
}

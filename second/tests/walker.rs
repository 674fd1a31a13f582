//! The walker over one sibling cycle.

mod common;

use common::maps::*;
use second::Way::{Lone, Same};
use second::{Memory, Refusal, Walker};

/// "on an unedited mesh it first returns to its start after exactly as many
/// steps as the set has half-facets"
#[test]
fn it_first_returns_to_its_start_after_the_whole_set() {
    for memory in [p2(), p3(), p4(), p5(), p7(), p9()] {
        for cell in memory.cells_of_type(TRI, PLENTY).unwrap() {
            for facet in 0..3 {
                let set = memory.ring(cell, facet, PLENTY).unwrap();
                assert_eq!(walk(&memory, 8 * cell + facet), set);
            }
        }
    }
    assert_eq!(walk(&p4(), 8), [8, 16, 0]);
    assert_eq!(walk(&p6(), 8), [8, 0]);
    assert_eq!(walk(&p8(), 1), [1, 8]);
    assert_eq!(walk(&p2(), 2), [2]);
}

/// The half-facets it stands at until it is back.
fn walk(memory: &Memory, start: u32) -> Vec<u32> {
    let start = Walker { half: start };
    let mut places = vec![start.half];
    let (mut walker, mut way) = start.step(memory).unwrap();
    let mut ways = vec![way];
    while walker != start {
        assert!(places.len() < 200, "it does not return");
        places.push(walker.half);
        (walker, way) = walker.step(memory).unwrap();
        ways.push(way);
    }
    let due = memory.cycle(start.half / 8, start.half % 8, PLENTY, PLENTY);
    assert_eq!(due, Ok(places.iter().copied().zip(ways).collect()));
    places
}

/// "After an edit a step gives the sibling as it is then, or the refusal for
/// that half-facet."
#[test]
fn after_an_edit_it_gives_the_sibling_as_it_is_then() {
    let mut memory = p4();
    let at_0 = Walker { half: 0 };
    let (at_8, way) = at_0.step(&memory).unwrap();
    assert_eq!((at_8.half, way), (8, Same));
    memory.remove(1).unwrap();
    assert_eq!(at_8.step(&memory), Err(Refusal::CellNotLive));
    assert_eq!(at_0.step(&memory), Ok((Walker { half: 16 }, Same)));
    // The number 1 comes back with the edge as another facet.
    memory.insert(1, TRI, &[5, 0, 1]).unwrap();
    assert_eq!(at_0.step(&memory), Ok((Walker { half: 9 }, Same)));
    assert_eq!(at_8.step(&memory), Ok((Walker { half: 8 }, Lone)));
    memory.remove(1).unwrap();
    memory.insert(1, BAR, &[0, 1]).unwrap();
    let at_10 = Walker { half: 10 };
    assert_eq!(at_10.step(&memory), Err(Refusal::FacetOutside));
    memory.format(6, 1).unwrap();
    assert_eq!(at_8.step(&memory), Err(Refusal::CellOutside));
    assert_eq!(at_0.step(&memory), Err(Refusal::CellNotLive));
    memory.words = 0;
    assert_eq!(at_0.step(&memory), Err(Refusal::NotMesh));
}

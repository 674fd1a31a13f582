//! No number that stands in lent memory says how much memory is asked for: on
//! damaged memory every list is bounded by the capacities and the outline's
//! sizes.

use mengkiloh::{room, Cell, Mark, Mesh, Refusal, Type};
use std::alloc::{GlobalAlloc, Layout, System};

const MARKS: u32 = 7;
const CELLS: u32 = 10;

/// Where the head keeps the live cells of the types 1 to 7 (docs/LAYOUT.md).
const COUNTS: std::ops::RangeInclusive<usize> = 5..=11;

/// A neighbour across each of 6 facets, 128 at most at each, is the longest
/// list but that of a type.
const LONGEST: usize = 6 * 128;

thread_local! {
    static LARGEST: std::cell::Cell<usize> = const { std::cell::Cell::new(0) };
}

/// The system's memory; it notes the most bytes that a thread asked for at
/// once, and has no more than a gigabyte to give.
struct Noting;

#[global_allocator]
static MEMORY: Noting = Noting;

impl Noting {
    fn has(&self, size: usize) -> bool {
        LARGEST.with(|largest| largest.set(largest.get().max(size)));
        size <= 1 << 30
    }
}

// SAFETY: the system's allocator, or none given.
unsafe impl GlobalAlloc for Noting {
    unsafe fn alloc(&self, layout: Layout) -> *mut u8 {
        match self.has(layout.size()) {
            true => System.alloc(layout),
            false => std::ptr::null_mut(),
        }
    }

    unsafe fn alloc_zeroed(&self, layout: Layout) -> *mut u8 {
        match self.has(layout.size()) {
            true => System.alloc_zeroed(layout),
            false => std::ptr::null_mut(),
        }
    }

    unsafe fn realloc(&self, old: *mut u8, layout: Layout, size: usize) -> *mut u8 {
        match self.has(size) {
            true => System.realloc(old, layout, size),
            false => std::ptr::null_mut(),
        }
    }

    unsafe fn dealloc(&self, old: *mut u8, layout: Layout) {
        System.dealloc(old, layout)
    }
}

/// The answer, and the most bytes that were asked for at once.
fn asked_for<T>(call: impl FnOnce() -> T) -> (T, usize) {
    LARGEST.set(0);
    let answer = call();
    (answer, LARGEST.get())
}

fn small_map() -> Vec<u32> {
    let mut map = Mesh::with_room(MARKS, CELLS).expect("a mesh of its own");
    for cell in 0..4 {
        let sheet = map.insert(Cell(cell), Type::Triangle, &[0, 1, 2 + cell].map(Mark));
        assert_eq!(sheet, Ok(()));
    }
    map.into_words()
}

#[test]
fn a_stored_count_asks_for_no_more_than_the_capacity() {
    for count in [CELLS + 1, 1 << 20, u32::MAX] {
        let mut words = small_map();
        words[COUNTS].fill(count);
        let map = Mesh::over(words);
        for code in 1..=7_u32 {
            assert_eq!(map.count(code), Ok(count));
            let (answer, bytes) = asked_for(|| map.cells(code));
            assert_eq!(answer, Err(Refusal::OutputShort));
            assert_eq!(bytes, 4 * CELLS as usize);
        }
    }
}

#[test]
fn a_right_count_asks_for_its_list_alone() {
    let map = Mesh::over(small_map());
    let (answer, bytes) = asked_for(|| map.cells(Type::Triangle));
    assert_eq!(answer, Ok([0, 1, 2, 3].map(Cell).to_vec()));
    assert_eq!(bytes, 4 * 4);
}

#[test]
fn any_words_behind_the_edition_ask_for_no_more_than_the_longest_list() {
    for fill in [0, 1, 2, 4, 9, 65_535, 1 << 31, u32::MAX] {
        let mut words = small_map();
        words[4..].fill(fill);
        let map = Mesh::over(words);
        let ((), bytes) = asked_for(|| every_list(&map));
        assert!(bytes <= 4 * LONGEST, "{bytes} bytes for words of {fill}");
    }
}

#[test]
fn capacities_that_do_not_fit_ask_for_nothing() {
    for (place, number) in [
        (1, u32::MAX),
        (2, u32::MAX),
        (2, 65_535),
        (2, CELLS + 1),
        // an edition that there is not
        (3, 0),
        (3, 3),
        (3, u32::MAX),
    ] {
        let mut words = small_map();
        words[place] = number;
        let map = Mesh::over(words);
        assert_eq!(map.count(Type::Triangle), Err(Refusal::NotMesh));
        let (answer, bytes) = asked_for(|| map.cells(Type::Triangle));
        assert_eq!(answer, Err(Refusal::NotMesh));
        assert_eq!(bytes, 0);
        let (answer, bytes) = asked_for(|| map.live());
        assert_eq!(answer, Err(Refusal::NotMesh));
        assert_eq!(bytes, 0);
    }
    let nothing = Mesh::over([0; room(0, 0) - 1]);
    assert_eq!(nothing.cells(Type::Bar), Err(Refusal::NotMesh));
}

/// Every call that makes a list, whatever it answers.
fn every_list(map: &Mesh<Vec<u32>>) {
    let _ = map.live();
    for code in 0..9_u32 {
        let _ = map.cells(code);
    }
    for cell in (0..=CELLS).map(Cell) {
        let _ = (map.neighbours(cell), map.marks_of(cell));
        for facet in 0..7 {
            let _ = map.cycle(cell, facet);
        }
    }
    for mark in (0..=MARKS).map(Mark) {
        for dimension in 0..5 {
            let _ = (map.star(dimension, mark), map.anchors(dimension, mark));
        }
    }
}

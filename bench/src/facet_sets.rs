//! Request 11's comparison: "build and edits in plain Rust too, with a hash map
//! of facet sets". The half-facets of each facet set in a std hash map, the cells
//! by number, and nothing that the request does not name: no list at a mark, no
//! anchor, no direction. A number that is live and a twin are refused, as ours
//! refuses them.

use std::collections::HashMap;

/// For each type its facets, by the places of their marks.
const FACETS: [&[&[usize]]; 8] = [
    &[],
    &[&[0], &[1]],
    &[&[0, 1], &[1, 2], &[2, 0]],
    &[&[0, 1], &[1, 2], &[2, 3], &[3, 0]],
    &[&[0, 2, 1], &[0, 1, 3], &[1, 2, 3], &[2, 0, 3]],
    &[
        &[0, 3, 2, 1],
        &[0, 1, 4],
        &[1, 2, 4],
        &[2, 3, 4],
        &[3, 0, 4],
    ],
    &[
        &[0, 1, 4, 3],
        &[1, 2, 5, 4],
        &[2, 0, 3, 5],
        &[0, 2, 1],
        &[3, 4, 5],
    ],
    &[
        &[0, 3, 2, 1],
        &[0, 1, 5, 4],
        &[1, 2, 6, 5],
        &[2, 3, 7, 6],
        &[0, 4, 7, 3],
        &[4, 5, 6, 7],
    ],
];

/// A facet's marks in order, the rest filled up.
type Set = [u32; 4];

#[derive(Clone, Copy)]
struct Cell {
    code: u32,
    count: usize,
    marks: [u32; 8],
}

impl Cell {
    fn marks(&self) -> &[u32] {
        &self.marks[..self.count]
    }

    fn is_twin(&self, code: u32, marks: &[u32]) -> bool {
        self.code == code && marks.iter().all(|mark| self.marks().contains(mark))
    }
}

#[derive(Clone)]
pub struct FacetSets {
    cells: Vec<Option<Cell>>,
    halves: HashMap<Set, Vec<u32>>,
}

impl FacetSets {
    pub fn new(cells: usize) -> FacetSets {
        FacetSets {
            cells: vec![None; cells],
            halves: HashMap::new(),
        }
    }

    /// The cell put in, unless its number is live or it has a live twin.
    pub fn insert(&mut self, number: u32, code: u32, marks: &[u32]) -> bool {
        if self.cells[number as usize].is_some() || self.has_twin(code, marks) {
            return false;
        }
        for (facet, places) in (0..).zip(FACETS[code as usize]) {
            let sharers = self.halves.entry(set_of(marks, places)).or_default();
            let half = 8 * number + facet;
            let at = sharers.partition_point(|&other| other < half);
            sharers.insert(at, half);
        }
        let mut cell = Cell {
            code,
            count: marks.len(),
            marks: [0; 8],
        };
        cell.marks[..marks.len()].copy_from_slice(marks);
        self.cells[number as usize] = Some(cell);
        true
    }

    /// The cell taken out, if it is live.
    pub fn remove(&mut self, number: u32) -> bool {
        let Some(cell) = self.cells[number as usize].take() else {
            return false;
        };
        for (facet, places) in (0..).zip(FACETS[cell.code as usize]) {
            let set = set_of(cell.marks(), places);
            if let Some(sharers) = self.halves.get_mut(&set) {
                let half = 8 * number + facet;
                if let Ok(at) = sharers.binary_search(&half) {
                    sharers.remove(at);
                }
                if sharers.is_empty() {
                    self.halves.remove(&set);
                }
            }
        }
        true
    }

    fn has_twin(&self, code: u32, marks: &[u32]) -> bool {
        let first = FACETS[code as usize][0];
        let Some(sharers) = self.halves.get(&set_of(marks, first)) else {
            return false;
        };
        sharers.iter().any(|half| {
            self.cells[(half / 8) as usize].is_some_and(|cell| cell.is_twin(code, marks))
        })
    }
}

fn set_of(marks: &[u32], places: &[usize]) -> Set {
    let mut set = [u32::MAX; 4];
    for (at, &place) in set.iter_mut().zip(places) {
        *at = marks[place];
    }
    set[..places.len()].sort_unstable();
    set
}

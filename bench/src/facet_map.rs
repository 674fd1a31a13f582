//! A plain comparison: the half-facets of each facet set in a hash map, the
//! cells of each mark in a list, nothing checked.

use mengkiloh::{Cell, Half, Mark};
use std::collections::HashMap;

const TRIANGLE: &[&[usize]] = &[&[0, 1], &[1, 2], &[2, 0]];
const QUAD: &[&[usize]] = &[&[0, 1], &[1, 2], &[2, 3], &[3, 0]];
const TETRAHEDRON: &[&[usize]] = &[&[0, 2, 1], &[0, 1, 3], &[1, 2, 3], &[2, 0, 3]];
const FACETS: [&[&[usize]]; 5] = [&[], &[&[0], &[1]], TRIANGLE, QUAD, TETRAHEDRON];
const DIMENSIONS: [u32; 5] = [0, 1, 2, 2, 3];

/// A facet's marks in order, the rest filled up; plain numbers, which are
/// hashed in one piece.
type Set = [u32; 3];

pub struct FacetMap {
    cells: Vec<Option<(u32, Vec<Mark>)>>,
    at_mark: Vec<Vec<Cell>>,
    halves: HashMap<Set, Vec<Half>>,
}

impl FacetMap {
    pub fn new(marks: u32, cells: usize) -> FacetMap {
        FacetMap {
            cells: vec![None; cells],
            at_mark: vec![Vec::new(); marks as usize],
            halves: HashMap::new(),
        }
    }

    pub fn insert(&mut self, cell: Cell, code: u32, marks: &[Mark]) {
        for (facet, places) in (0..).zip(FACETS[code as usize]) {
            let sharers = self.halves.entry(facet_set(marks, places)).or_default();
            put(sharers, Half::of(cell, facet));
        }
        for &mark in marks {
            put(&mut self.at_mark[mark.0 as usize], cell);
        }
        self.cells[cell.0 as usize] = Some((code, marks.to_vec()));
    }

    pub fn remove(&mut self, cell: Cell) {
        let Some((code, marks)) = self.cells[cell.0 as usize].take() else {
            return;
        };
        for (facet, places) in (0..).zip(FACETS[code as usize]) {
            let set = facet_set(&marks, places);
            if let Some(sharers) = self.halves.get_mut(&set) {
                take(sharers, Half::of(cell, facet));
                if sharers.is_empty() {
                    self.halves.remove(&set);
                }
            }
        }
        for mark in marks {
            take(&mut self.at_mark[mark.0 as usize], cell);
        }
    }

    pub fn star(&self, dimension: u32, mark: Mark, out: &mut Vec<Cell>) {
        out.clear();
        out.extend(self.at_mark[mark.0 as usize].iter().filter(|&&cell| {
            self.cells[cell.0 as usize]
                .as_ref()
                .is_some_and(|(code, _)| DIMENSIONS[*code as usize] == dimension)
        }));
    }

    pub fn sibling(&self, cell: Cell, facet: u32) -> Option<Half> {
        let (code, marks) = self.cells[cell.0 as usize].as_ref()?;
        let places = FACETS[*code as usize].get(facet as usize)?;
        let sharers = self.halves.get(&facet_set(marks, places))?;
        let after = sharers.partition_point(|&half| half <= Half::of(cell, facet));
        sharers.get(after).or(sharers.first()).copied()
    }

    pub fn lookup(&self, set: &[Mark]) -> Option<Half> {
        self.halves
            .get(&sorted(set.iter().copied()))?
            .first()
            .copied()
    }
}

fn facet_set(marks: &[Mark], places: &[usize]) -> Set {
    sorted(places.iter().map(|&place| marks[place]))
}

fn sorted(marks: impl Iterator<Item = Mark>) -> Set {
    let mut set = [u32::MAX; 3];
    for (place, mark) in set.iter_mut().zip(marks) {
        *place = mark.0;
    }
    set.sort_unstable();
    set
}

fn put<T: Ord>(list: &mut Vec<T>, number: T) {
    let at = list.partition_point(|other| *other < number);
    list.insert(at, number);
}

fn take<T: Ord>(list: &mut Vec<T>, number: T) {
    if let Ok(at) = list.binary_search(&number) {
        list.remove(at);
    }
}

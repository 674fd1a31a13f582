//! Maps by chance, the same in every run.

use super::maps::formatted_edition;
use second::shapes::TYPES;
use second::{Memory, Refusal};

/// Marsaglia's xorshift with 64 bits.
#[derive(Clone)]
pub struct Random(u64);

impl Random {
    pub fn from_seed(seed: u64) -> Random {
        Random(seed.max(1))
    }

    pub fn below(&mut self, bound: usize) -> usize {
        self.0 ^= self.0 << 13;
        self.0 ^= self.0 >> 7;
        self.0 ^= self.0 << 17;
        (self.0 % bound as u64) as usize
    }

    pub fn shuffle<T>(&mut self, list: &mut [T]) {
        for place in (1..list.len()).rev() {
            list.swap(place, self.below(place + 1));
        }
    }

    /// A licence: none, one that several cells have, one of the largest, or any.
    pub fn licence(&mut self) -> u32 {
        match self.below(4) {
            0 => 0,
            1 => 7,
            2 => u32::MAX - self.below(2) as u32,
            _ => self.below(1 << 32) as u32,
        }
    }

    /// So many different marks, in any order.
    pub fn marks(&mut self, capacity: u32, count: usize) -> Vec<u32> {
        let mut marks: Vec<u32> = (0..capacity).collect();
        self.shuffle(&mut marks);
        marks.truncate(count);
        marks
    }
}

/// Tries one insert of any type under any number; it may be refused.
pub fn insert_by_chance(random: &mut Random, memory: &mut Memory) -> Result<(), Refusal> {
    let mesh = memory.mesh.as_ref().expect("a mesh to edit");
    let cell = random.below(mesh.cells as usize) as u32;
    let row = &TYPES[random.below(TYPES.len())];
    let marks = random.marks(mesh.marks, row.marks);
    let licence = random.licence();
    memory.insert_licensed(cell, row.code, licence, &marks)
}

/// A map of few marks, so that many cells share them.
pub fn map_by_chance(random: &mut Random, marks: u32, cells: u32, edition: u32) -> Memory {
    let mut memory = formatted_edition(marks, cells, edition);
    for _ in 0..2 * cells {
        let _ = insert_by_chance(random, &mut memory);
    }
    memory
}

//! Request 10: the matcher itself.
//!
//! "The matcher .. lists for a mark and a day the licences of all cells then
//! around it, of every dimension, ascending, each once, 0 left out."

use std::collections::BTreeSet;

use crate::calls::Memory;
use crate::journal::Journal;
use crate::map::Mark;
use crate::Refusal;

impl Journal {
    /// The licences to ask, in so many places: 14, then "21, 2, 8, 12 in that
    /// order, with the list unchanged; 12 leaves that day's mesh in the second
    /// memory", as an answer does.
    pub fn licences(
        &self,
        start: &Memory,
        day: u32,
        mark: u32,
        second: &mut Memory,
        places: usize,
    ) -> Result<Vec<u32>, Refusal> {
        let mut then = second.clone();
        self.on(start, day, &mut then)?;
        let mesh = then.mesh.as_ref().ok_or(Refusal::NotMesh)?;
        if mark >= mesh.marks {
            return Err(Refusal::MarkOutside);
        }
        let licences: BTreeSet<u32> = mesh
            .live
            .iter()
            .filter(|cell| cell.marks.contains(&Mark(mark)))
            .map(|cell| cell.licence)
            .filter(|&licence| licence != 0)
            .collect();
        *second = then;
        if places < licences.len() {
            return Err(Refusal::OutputShort);
        }
        Ok(licences.into_iter().collect())
    }
}

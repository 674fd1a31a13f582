//! Words for a mesh, placed by cache lines.

use crate::room;

/// A cache line has so many words.
const LINE: usize = 16;

/// Words for a mesh of given capacities, all 0, so placed that each cell's
/// record begins a cache line of 64 bytes: what an edit reads of a cell is then
/// one line, and edits of a large map are a tenth faster. A mesh lies as well
/// in any other words.
///
/// ```
/// use mengkiloh::{Lines, Mesh, Refusal};
///
/// let mut mesh = Mesh::over(Lines::of(6, 4));
/// mesh.format(6, 4)?;
/// # Ok::<(), Refusal>(())
/// ```
#[derive(Debug)]
pub struct Lines {
    words: Vec<u32>,
    /// Those of the mesh: from where on, and how many.
    first: usize,
    count: usize,
    /// The word of the mesh that begins a line.
    begins: usize,
}

impl Lines {
    /// Words for a mesh of these capacities.
    pub fn of(marks: u32, cells: u32) -> Lines {
        Lines::placed(room(marks, cells), room(marks, 0))
    }

    /// So many words, of which this one begins a line.
    fn placed(count: usize, begins: usize) -> Lines {
        let words = vec![0; count + LINE - 1];
        let line = words.as_ptr().align_offset(LINE * size_of::<u32>());
        // where the system tells of no line, any place does
        let first = (line % LINE + LINE - begins % LINE) % LINE;
        Lines {
            words,
            first,
            count,
            begins,
        }
    }
}

impl Clone for Lines {
    fn clone(&self) -> Lines {
        let mut copy = Lines::placed(self.count, self.begins);
        copy.as_mut().copy_from_slice(self.as_ref());
        copy
    }
}

impl AsRef<[u32]> for Lines {
    fn as_ref(&self) -> &[u32] {
        &self.words[self.first..][..self.count]
    }
}

impl AsMut<[u32]> for Lines {
    fn as_mut(&mut self) -> &mut [u32] {
        &mut self.words[self.first..][..self.count]
    }
}

#[cfg(test)]
mod tests {
    use super::*;

    /// The word at a line's beginning, of words that are lent.
    fn in_line(words: &[u32], word: usize) -> usize {
        (words[word..].as_ptr() as usize) % (LINE * size_of::<u32>())
    }

    #[test]
    fn each_cell_begins_a_line() {
        for (marks, cells) in [(0, 1), (1, 1), (2, 1), (5, 4), (6, 4), (4_999, 10_000)] {
            let mut lines = Lines::of(marks, cells);
            lines.as_mut()[room(marks, 0)] = 7;
            for words in [lines.as_ref(), lines.clone().as_ref()] {
                assert_eq!(words.len(), room(marks, cells));
                assert_eq!(in_line(words, room(marks, 0)), 0, "{marks} marks");
                assert_eq!(words[room(marks, 0)], 7);
            }
        }
        assert_eq!(Lines::of(3, 0).as_ref().len(), room(3, 0));
    }
}

//! The map on any day: a journal of the edits beside the mesh.

use crate::{calls, listed, numbers, Cell, Licence, Mark, Mesh, Refusal, MOST_AROUND};

/// The words of a journal's head, and of each edit behind it.
const HEAD_WORDS: usize = 16;
const EDIT_WORDS: usize = 16;

/// The words that a journal of so many edits needs.
pub const fn journal_words(edits: usize) -> usize {
    HEAD_WORDS + EDIT_WORDS * edits
}

/// A journal and its starting map, each over words: a `Vec<u32>` of its own, or
/// `&mut [u32]` or `&[u32]` that are lent to it. Once it has begun, its mesh is
/// edited through it alone.
///
/// ```
/// # use mengkiloh::{journal_words, room, Cell, Journal, Licence, Mark, Mesh, Refusal, Type};
/// # fn main() -> Result<(), mengkiloh::Refusal> {
/// let mut map = Mesh::with_room(6, 4)?;
/// let mut journal = Journal::over(vec![0; journal_words(1_000)], vec![0; room(6, 4)]);
/// journal.begin(&map)?;
/// let marks = [0, 1, 2].map(Mark);
/// journal.insert(&mut map, 100, Cell(0), Type::Triangle, Licence(7), &marks)?;
/// journal.remove(&mut map, 130, Cell(0))?;
///
/// let mut then = Mesh::with_room(6, 4)?;
/// journal.on(129, &mut then)?;
/// assert_eq!(then.star(2, Mark(1))?, [Cell(0)]);
/// assert_eq!(then.licence(Cell(0))?, Licence(7));
/// assert_eq!(journal.licences(129, Mark(1), &mut then)?, [Licence(7)]);
/// journal.on(130, &mut then)?;
/// assert_eq!(then.star(2, Mark(1))?, []);
/// assert_eq!(journal.remove(&mut map, 129, Cell(0)), Err(Refusal::DayBefore));
/// assert_eq!(journal.fold(100), Err(Refusal::FoldNotAllowed));
/// # Ok(())
/// # }
/// ```
#[derive(Clone, Debug)]
pub struct Journal<J, S> {
    journal: J,
    start: S,
}

impl<J, S> Journal<J, S> {
    /// The journal in these words and the starting map in those, whatever stands
    /// in them: words that are none are refused with 14 by each call but `begin`.
    pub fn over(journal: J, start: S) -> Journal<J, S> {
        Journal { journal, start }
    }

    /// The words back, the journal's and the starting map's.
    pub fn into_words(self) -> (J, S) {
        (self.journal, self.start)
    }
}

impl<J: AsMut<[u32]>, S: AsMut<[u32]>> Journal<J, S> {
    /// Makes the words a journal of this mesh with no edit, and copies the mesh
    /// into the starting map.
    ///
    /// # Errors
    ///
    /// [`Refusal::NotMesh`] for the mesh, [`Refusal::MemoryShort`]. The first that
    /// fits, in this order.
    pub fn begin<W: AsRef<[u32]>>(&mut self, mesh: &Mesh<W>) -> Result<(), Refusal> {
        let mesh = mesh.words();
        let (journal, start) = (self.journal.as_mut(), self.start.as_mut());
        // SAFETY: here and below, each pointer and count are those of one slice,
        // and what is written is lent to the call alone.
        Refusal::from_number(unsafe {
            calls::mk_journal_begin(
                mesh.as_ptr(),
                mesh.len(),
                journal.as_mut_ptr(),
                journal.len(),
                start.as_mut_ptr(),
                start.len(),
            )
        })
    }

    /// Moves the edits up to a day into the starting map and frees their room.
    /// Every day from then on reads as before; a year of 366 days always stays.
    ///
    /// # Errors
    ///
    /// [`Refusal::NotMesh`], [`Refusal::FoldNotAllowed`]. The first that fits, in
    /// this order.
    pub fn fold(&mut self, day: u32) -> Result<(), Refusal> {
        let (journal, start) = (self.journal.as_mut(), self.start.as_mut());
        Refusal::from_number(unsafe {
            calls::mk_journal_fold(
                journal.as_mut_ptr(),
                journal.len(),
                start.as_mut_ptr(),
                start.len(),
                day,
            )
        })
    }
}

impl<J: AsMut<[u32]>, S> Journal<J, S> {
    /// Inserts a cell with a licence on a day, and enters the edit.
    ///
    /// # Errors
    ///
    /// [`Refusal::NotMesh`], [`Refusal::CapacityAbove`] for a day above 65,535,
    /// [`Refusal::DayBefore`], as [`Mesh::insert`], [`Refusal::JournalFull`]. The
    /// first that fits, in this order.
    pub fn insert<W: AsMut<[u32]>>(
        &mut self,
        mesh: &mut Mesh<W>,
        day: u32,
        cell: Cell,
        code: impl Into<u32>,
        licence: Licence,
        marks: &[Mark],
    ) -> Result<(), Refusal> {
        let (words, journal) = (mesh.words.as_mut(), self.journal.as_mut());
        let marks = numbers::words(marks);
        Refusal::from_number(unsafe {
            calls::mk_journal_insert(
                words.as_mut_ptr(),
                words.len(),
                journal.as_mut_ptr(),
                journal.len(),
                day,
                cell.0,
                code.into(),
                licence.0,
                marks.as_ptr(),
                marks.len(),
            )
        })
    }

    /// Removes a cell on a day, and enters the edit.
    ///
    /// # Errors
    ///
    /// [`Refusal::NotMesh`], [`Refusal::CapacityAbove`] for a day above 65,535,
    /// [`Refusal::DayBefore`], as [`Mesh::remove`], [`Refusal::JournalFull`]. The
    /// first that fits, in this order.
    pub fn remove<W: AsMut<[u32]>>(
        &mut self,
        mesh: &mut Mesh<W>,
        day: u32,
        cell: Cell,
    ) -> Result<(), Refusal> {
        let (words, journal) = (mesh.words.as_mut(), self.journal.as_mut());
        Refusal::from_number(unsafe {
            calls::mk_journal_remove(
                words.as_mut_ptr(),
                words.len(),
                journal.as_mut_ptr(),
                journal.len(),
                day,
                cell.0,
            )
        })
    }
}

impl<J: AsRef<[u32]>, S: AsRef<[u32]>> Journal<J, S> {
    /// The journal's words as they stand.
    pub fn words(&self) -> &[u32] {
        self.journal.as_ref()
    }

    /// The starting map's words as they stand.
    pub fn start(&self) -> &[u32] {
        self.start.as_ref()
    }

    /// Makes the words of `second` the mesh that all edits of the day and earlier
    /// ones leave; a day after the last reads as the last.
    ///
    /// # Errors
    ///
    /// [`Refusal::NotMesh`], [`Refusal::DayFolded`], [`Refusal::MemoryShort`]. The
    /// first that fits, in this order.
    pub fn on<W: AsMut<[u32]>>(&self, day: u32, second: &mut Mesh<W>) -> Result<(), Refusal> {
        let (journal, start) = (self.words(), self.start());
        let second = second.words.as_mut();
        Refusal::from_number(unsafe {
            calls::mk_journal_on(
                journal.as_ptr(),
                journal.len(),
                start.as_ptr(),
                start.len(),
                day,
                second.as_mut_ptr(),
                second.len(),
            )
        })
    }

    /// The licences to ask for a complaint: of all cells that are around the mark on
    /// that day, of every dimension, ascending, each once, 0 left out. The words of
    /// `second` are made that day's mesh, as by [`on`](Journal::on).
    ///
    /// # Errors
    ///
    /// [`Refusal::NotMesh`], [`Refusal::DayFolded`], [`Refusal::MemoryShort`],
    /// [`Refusal::MarkOutside`]. The first that fits, in this order.
    pub fn licences<W: AsMut<[u32]>>(
        &self,
        day: u32,
        mark: Mark,
        second: &mut Mesh<W>,
    ) -> Result<Vec<Licence>, Refusal> {
        listed(MOST_AROUND, |out| {
            self.licences_into(day, mark, second, out)
        })
    }

    /// The licences in the first places of `out`; how many they are.
    ///
    /// # Errors
    ///
    /// As [`licences`](Journal::licences), then [`Refusal::OutputShort`], which
    /// leaves that day's mesh in `second`, and `out` as it was.
    pub fn licences_into<W: AsMut<[u32]>>(
        &self,
        day: u32,
        mark: Mark,
        second: &mut Mesh<W>,
        out: &mut [Licence],
    ) -> Result<usize, Refusal> {
        let (journal, start) = (self.words(), self.start());
        let (second, out) = (second.words.as_mut(), numbers::words_mut(out));
        let mut count = 0;
        Refusal::from_number(unsafe {
            calls::mk_licences(
                journal.as_ptr(),
                journal.len(),
                start.as_ptr(),
                start.len(),
                day,
                mark.0,
                second.as_mut_ptr(),
                second.len(),
                out.as_mut_ptr(),
                out.len(),
                &mut count,
            )
        })?;
        Ok(count as usize)
    }

    /// Whether journal and starting map are what some map and some dated edits
    /// leave; that each edit would be accepted at its turn it does not say.
    pub fn whole(&self) -> bool {
        let (journal, start) = (self.words(), self.start());
        let yes = unsafe {
            calls::mk_journal_whole(journal.as_ptr(), journal.len(), start.as_ptr(), start.len())
        };
        yes == 1
    }
}

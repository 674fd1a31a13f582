//! Request 9: the map on any day of the year.
//!
//! "Add a journal above the mesh: each accepted edit with its day number, 0 to
//! 65,535, 16 words an edit in lent memory, after a head of 16 words, as many as
//! fit." A journal is kept as its list of dated edits; a day's map is the starting
//! map with the edits up to that day made once more, one after the other.

use crate::calls::{room, Memory};
use crate::Refusal;

/// "16 words an edit .., after a head of 16 words"
pub const HEAD_WORDS: usize = 16;
pub const EDIT_WORDS: usize = 16;

/// "its day number, 0 to 65,535"
pub const LARGEST_DAY: u32 = 65_535;

/// "F + 366 is not after the last day"
pub const KEPT_DAYS: u64 = 366;

/// An edit that can be entered.
#[derive(Clone, Debug, PartialEq, Eq)]
pub enum Edit {
    Insert {
        cell: u32,
        code: u32,
        licence: u32,
        marks: Vec<u32>,
    },
    Remove {
        cell: u32,
    },
}

/// What a journal holds once it has begun.
#[derive(Clone, Debug, PartialEq, Eq)]
pub struct Book {
    /// The capacities and the edition of its mesh.
    pub of: (u32, u32, u32),
    /// Each accepted edit that was not folded, with its day.
    pub entries: Vec<(u32, Edit)>,
    /// The day of the last edit that was entered, if one ever was.
    pub last: Option<u32>,
    /// The day of the last fold.
    pub fold: Option<u32>,
}

/// Lent memory: how many words there are, and the journal in them once one
/// began.
#[derive(Clone, Debug, PartialEq, Eq)]
pub struct Journal {
    pub words: usize,
    pub book: Option<Book>,
}

impl Journal {
    /// Memory of so many words that is no journal.
    pub fn lent(words: usize) -> Journal {
        Journal { words, book: None }
    }

    /// "as many as fit"
    pub fn places(&self) -> usize {
        self.words.saturating_sub(HEAD_WORDS) / EDIT_WORDS
    }

    /// "A new journal copies the mesh into a third memory, the starting map":
    /// 14, then "2 if it has under 16 words or the third memory is below the
    /// room".
    pub fn begin(&mut self, mesh: &Memory, start: &mut Memory) -> Result<(), Refusal> {
        let of = kind(mesh)?;
        if self.words < HEAD_WORDS || start.words < room(of.0, of.1) {
            return Err(Refusal::MemoryShort);
        }
        start.mesh.clone_from(&mesh.mesh);
        self.book = Some(Book {
            of,
            entries: Vec::new(),
            last: None,
            fold: None,
        });
        Ok(())
    }

    /// "entry 20 for a day before the last, then the mesh's own, then 23 if the
    /// journal is full"; 14 before them, and 1 for a day above 65,535.
    pub fn enter(&mut self, mesh: &mut Memory, day: u32, edit: Edit) -> Result<(), Refusal> {
        let places = self.places();
        let book = of_mesh(self.book.as_mut(), mesh)?;
        if day > LARGEST_DAY {
            return Err(Refusal::CapacityAbove);
        }
        if book.last.is_some_and(|last| day < last) {
            return Err(Refusal::DayBefore);
        }
        let mut edited = mesh.clone();
        make(&mut edited, &edit)?;
        if book.entries.len() >= places {
            return Err(Refusal::JournalFull);
        }
        *mesh = edited;
        book.entries.push((day, edit));
        book.last = Some(day);
        Ok(())
    }

    /// "Asked for a day, write into second mesh memory a mesh whose answers equal
    /// those after all edits of that day and earlier ones; a day after the last
    /// reads as the last": 14, then "21 for a day before the last fold, then 2".
    pub fn on(&self, start: &Memory, day: u32, second: &mut Memory) -> Result<(), Refusal> {
        let book = of_mesh(self.book.as_ref(), start)?;
        if book.fold.is_some_and(|fold| day < fold) {
            return Err(Refusal::DayFolded);
        }
        if second.words < room(book.of.0, book.of.1) {
            return Err(Refusal::MemoryShort);
        }
        second.mesh.clone_from(&start.mesh);
        for (_, edit) in book.entries.iter().filter(|entry| entry.0 <= day) {
            make(second, edit)?;
        }
        Ok(())
    }

    /// "Folding through day F moves the edits up to F into the starting map and
    /// frees their room, which is used again; it is allowed only when F is not
    /// before the earlier fold and F + 366 is not after the last day": 14, then
    /// "22 when not allowed or when no edit was ever entered".
    pub fn fold(&mut self, start: &mut Memory, day: u32) -> Result<(), Refusal> {
        let book = of_mesh(self.book.as_mut(), start)?;
        let allowed = book
            .last
            .is_some_and(|last| u64::from(day) + KEPT_DAYS <= u64::from(last))
            && book.fold.is_none_or(|fold| fold <= day);
        if !allowed {
            return Err(Refusal::FoldNotAllowed);
        }
        let (moved, left) = book.entries.drain(..).partition(|entry| entry.0 <= day);
        book.entries = left;
        book.fold = Some(day);
        let moved: Vec<(u32, Edit)> = moved;
        for (_, edit) in &moved {
            make(start, edit)?;
        }
        Ok(())
    }
}

/// The capacities and the edition of a mesh: 14.
fn kind(memory: &Memory) -> Result<(u32, u32, u32), Refusal> {
    let mesh = memory.mesh.as_ref().ok_or(Refusal::NotMesh)?;
    if memory.words < room(mesh.marks, mesh.cells) {
        return Err(Refusal::NotMesh);
    }
    Ok((mesh.marks, mesh.cells, mesh.edition))
}

/// A book of this mesh: "14 also for a journal or starting map that is none".
fn of_mesh<B: std::borrow::Borrow<Book>>(book: Option<B>, mesh: &Memory) -> Result<B, Refusal> {
    let of = kind(mesh)?;
    book.filter(|book| book.borrow().of == of)
        .ok_or(Refusal::NotMesh)
}

/// The edit, as the mesh's own call makes it.
fn make(memory: &mut Memory, edit: &Edit) -> Result<(), Refusal> {
    match edit {
        Edit::Insert {
            cell,
            code,
            licence,
            marks,
        } => memory.insert_licensed(*cell, *code, *licence, marks),
        Edit::Remove { cell } => memory.remove(*cell),
    }
}

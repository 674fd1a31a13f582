//! A map as an office keeps it: mesh, positions, journal and starting map.

use mengkiloh::{journal_words, room, Journal, Licence, Mark, Mesh, OffError, Refusal, Surface};

use crate::lines::Edit;

/// Words of a journal's head (docs/LAYOUT.md).
const ENTRIES: usize = 4;
const LAST_DAY: usize = 5;
const EVER: usize = 6;
const FOLDED: usize = 7;
/// The first word of the first entry: its day.
const FIRST_DAY: usize = 16;

/// So many edits more at once, where a journal has no place left.
const MORE: usize = 1_024;

#[derive(Clone, Debug)]
pub struct Map {
    pub mesh: Mesh<Vec<u32>>,
    /// Three whole metres for each mark of the capacity.
    pub positions: Vec<i16>,
    pub journal: Journal<Vec<u32>, Vec<u32>>,
}

/// Why no map was made of a surface.
pub enum NoMap {
    Off(OffError),
    /// Refused at a face, from 0, that was inserted by itself.
    Face(usize, Refusal),
    Refused(Refusal),
}

impl Map {
    /// A map with no cell, every mark at the origin.
    pub fn new(marks: u32, cells: u32, edition: u32) -> Result<Map, Refusal> {
        let mesh = Mesh::with_room_edition(marks, cells, edition)?;
        Map::begun(mesh, vec![0; 3 * marks as usize])
    }

    /// A map of an OFF text. With capacities or an edition that are not the text's own and
    /// 1, its faces are inserted one by one; marks that are not in the text are at the origin.
    pub fn from_off(
        text: &[u8],
        marks: Option<u32>,
        cells: Option<u32>,
        edition: u32,
    ) -> Result<Map, NoMap> {
        let surface = Surface::read(text).map_err(NoMap::Off)?;
        let Surface { mesh, positions } = surface;
        let own = mesh.capacities().map_err(NoMap::Refused)?;
        let wanted = (marks.unwrap_or(own.0), cells.unwrap_or(own.1));
        if (wanted, edition) == (own, 1) {
            return Map::begun(mesh, positions).map_err(NoMap::Refused);
        }
        let mut other =
            Mesh::with_room_edition(wanted.0, wanted.1, edition).map_err(NoMap::Refused)?;
        for (face, (cell, kind, marks)) in mesh.iter().enumerate() {
            let inserted = other.insert(cell, kind, marks);
            inserted.map_err(|refusal| NoMap::Face(face, refusal))?;
        }
        let mut there = positions;
        there.resize(3 * wanted.0 as usize, 0);
        Map::begun(other, there).map_err(NoMap::Refused)
    }

    fn begun(mesh: Mesh<Vec<u32>>, positions: Vec<i16>) -> Result<Map, Refusal> {
        let start = vec![0; mesh.words().len()];
        let mut journal = Journal::over(vec![0; journal_words(0)], start);
        journal.begin(&mesh)?;
        Ok(Map {
            mesh,
            positions,
            journal,
        })
    }

    /// Makes an edit on a day, and enters it. The journal's memory grows as it fills:
    /// what is added is 0, as in a journal of that length from the first.
    pub fn edit(&mut self, day: u32, edit: &Edit) -> Result<(), Refusal> {
        if self.journal.words().len() < journal_words(self.entries() + 1) {
            self.lengthen(MORE.max(self.entries() / 2));
        }
        match edit {
            Edit::Insert {
                cell,
                code,
                licence,
                marks,
            } => self
                .journal
                .insert(&mut self.mesh, day, *cell, *code, *licence, marks),
            Edit::Remove { cell } => self.journal.remove(&mut self.mesh, day, *cell),
        }
    }

    fn lengthen(&mut self, more: usize) {
        let words = journal_words(self.entries() + more);
        let journal = std::mem::replace(&mut self.journal, Journal::over(Vec::new(), Vec::new()));
        let (mut journal, start) = journal.into_words();
        journal.resize(words, 0);
        self.journal = Journal::over(journal, start);
    }

    /// The edits that the journal keeps.
    pub fn entries(&self) -> usize {
        self.journal.words()[ENTRIES] as usize
    }

    /// The day of the first edit that is kept.
    pub fn first_day(&self) -> Option<u32> {
        (self.entries() > 0).then(|| self.journal.words()[FIRST_DAY])
    }

    /// The day of the last edit that was entered.
    pub fn last_day(&self) -> Option<u32> {
        (self.journal.words()[EVER] == 1).then(|| self.journal.words()[LAST_DAY])
    }

    /// The day of the last fold: no earlier one can be asked for.
    pub fn folded(&self) -> Option<u32> {
        self.journal.words()[FOLDED].checked_sub(1)
    }

    /// Memory for the map on another day.
    fn second(&self) -> Mesh<Vec<u32>> {
        Mesh::over(vec![0; self.mesh.words().len()])
    }

    /// The map on a day.
    pub fn on(&self, day: u32) -> Result<Mesh<Vec<u32>>, Refusal> {
        let mut second = self.second();
        self.journal.on(day, &mut second)?;
        Ok(second)
    }

    /// The licences to ask for a mark and a day, and the map on that day.
    pub fn licences(
        &self,
        day: u32,
        mark: Mark,
    ) -> Result<(Vec<Licence>, Mesh<Vec<u32>>), Refusal> {
        let mut second = self.second();
        let licences = self.journal.licences(day, mark, &mut second)?;
        Ok((licences, second))
    }

    /// The map that the journal leaves from its start is the map, word for word.
    pub fn told_by_journal(&self) -> Result<bool, Refusal> {
        Ok(self.on(u32::MAX)?.words() == self.mesh.words())
    }

    /// Words that the mesh takes, and numbers that positions take.
    pub fn sizes(marks: u32, cells: u32) -> (usize, usize) {
        (room(marks, cells), 3 * marks as usize)
    }
}

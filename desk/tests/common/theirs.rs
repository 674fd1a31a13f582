//! A map in the second program beside the one in the file, and edits by chance.
#![allow(dead_code)] // each run uses a part

use second::journal::{Edit, Journal};
use second::{room, Memory};
use streams::chance::Chance;
use streams::lattice;

pub const TYPES: [&str; 8] = [
    "no type",
    "bar",
    "triangle",
    "quad",
    "tetrahedron",
    "pyramid",
    "wedge",
    "brick",
];

/// The second program's map, journal and starting map, with more places than any run needs.
#[derive(Clone)]
pub struct Theirs {
    pub of: (u32, u32),
    pub mesh: Memory,
    pub journal: Journal,
    pub start: Memory,
}

impl Theirs {
    pub fn new(marks: u32, cells: u32, edition: u32) -> Theirs {
        let words = room(marks, cells);
        let mut theirs = Theirs {
            of: (marks, cells),
            mesh: Memory::lent(words),
            journal: Journal::lent(usize::MAX),
            start: Memory::lent(words),
        };
        theirs
            .mesh
            .format_edition(marks, cells, edition)
            .expect("room");
        theirs.begin();
        theirs
    }

    pub fn begin(&mut self) {
        self.journal
            .begin(&self.mesh, &mut self.start)
            .expect("room");
    }

    /// An edit by chance, mostly one that is accepted.
    pub fn draw(&self, chance: &mut Chance) -> Edit {
        let live = &self.mesh.mesh.as_ref().expect("a mesh").live;
        if chance.below(self.of.1) < live.len() as u32 {
            let at = chance.below(live.len() as u32) as usize;
            let cell = live[at].number.0;
            return Edit::Remove { cell };
        }
        let (code, marks) = lattice::draw(chance, lattice::side(self.of.0));
        Edit::Insert {
            cell: chance.below(self.of.1 + 1),
            code: if chance.one_in(40) { 9 } else { code },
            licence: match chance.below(4) {
                0 => 0,
                1 => 1 + chance.below(3),
                _ => chance.bits() as u32,
            },
            marks,
        }
    }

    /// So many edits of a day that are accepted, as lines, and then one that is refused, with its number.
    pub fn day(&mut self, chance: &mut Chance, day: u32, count: usize) -> (String, Option<u8>) {
        let mut lines = String::new();
        let mut made = 0;
        while made < count {
            let edit = self.draw(chance);
            if self
                .journal
                .enter(&mut self.mesh, day, edit.clone())
                .is_ok()
            {
                lines += &line(&edit);
                made += 1;
            }
        }
        // in some mornings the list goes on, and is stopped
        let tries = if chance.one_in(3) { 40 } else { 0 };
        for _ in 0..tries {
            let edit = self.draw(chance);
            let mut tried = self.mesh.clone();
            let mut journal = self.journal.clone();
            if let Err(refusal) = journal.enter(&mut tried, day, edit.clone()) {
                lines += &line(&edit);
                lines += "remove 0\n";
                return (lines, Some(refusal.number()));
            }
        }
        (lines, None)
    }
}

/// The edit as a line.
pub fn line(edit: &Edit) -> String {
    match edit {
        Edit::Remove { cell } => format!("remove {cell}\n"),
        Edit::Insert {
            cell,
            code,
            licence,
            marks,
        } => {
            let marks: Vec<String> = marks.iter().map(u32::to_string).collect();
            let name = TYPES.get(*code as usize).unwrap_or(&"none");
            let licence = match licence {
                0 => String::new(),
                _ => format!(" licence {licence}"),
            };
            format!("insert {cell} {name} {}{licence}\n", marks.join(" "))
        }
    }
}

/// The numbers as JSON has them.
pub fn list(numbers: impl IntoIterator<Item = u32>) -> String {
    let numbers: Vec<String> = numbers
        .into_iter()
        .map(|number| number.to_string())
        .collect();
    format!("[{}]", numbers.join(", "))
}

/// A cell as JSON has it.
pub fn cell(memory: &Memory, cell: u32) -> String {
    let name = TYPES[memory.type_of(cell).expect("a live cell") as usize];
    let marks = list(memory.marks_of(cell));
    let licence = memory.licence(cell).expect("a live cell");
    format!(
        "{{\"cell\": {cell}, \"type\": \"{name}\", \"marks\": {marks}, \"licence\": {licence}}}"
    )
}

pub fn cells(memory: &Memory, list: impl IntoIterator<Item = u32>) -> String {
    let cells: Vec<String> = list
        .into_iter()
        .map(|number| cell(memory, number))
        .collect();
    format!("[{}]", cells.join(", "))
}

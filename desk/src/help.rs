//! The commands, each with its words, its page and an example.

use crate::store::Access;

pub struct Command {
    pub name: &'static str,
    pub usage: &'static str,
    /// In one line.
    pub what: &'static str,
    pub page: &'static str,
    /// Lines that can be typed as they stand, in this order, from the root of the repository.
    pub example: &'static [&'static str],
    /// What it does with a file that is there; none for the others.
    pub access: Option<Access>,
    /// How many words that are no options it takes, the file among them.
    pub places: (usize, usize),
    /// Options with a value.
    pub values: &'static [&'static str],
    pub flags: &'static [&'static str],
}

const DAYS: &str = "\
A day is a date, as 2026-04-17, or its number, 0 to 65535, counted from 1 January 1970.";

pub const COMMANDS: [Command; 14] = [
    Command {
        name: "complaint",
        usage: "mengkiloh complaint FILE --mark M --day D [--cells]",
        what: "the licences to ask: those of all cells that were around a mark on a day",
        page: "\
Names the licences of every cell that was around the mark on that day, bars, triangles, quads and
solids alike, ascending, each once: none missing, none extra. A cell without a licence (0) brings
none, and is named by itself. With --cells: the cells that bring each licence. A day after the last
edit reads as the last one; a day before the last fold is refused with 21.",
        example: &["mengkiloh complaint examples/viaduct.map --mark 2 --day 2026-04-17 --cells"],
        access: Some(Access::Ask),
        places: (1, 1),
        values: &["mark", "day"],
        flags: &["cells"],
    },
    Command {
        name: "new",
        usage: "mengkiloh new FILE --marks N --cells N [--edition 2] [--from SURFACE.off]",
        what: "a new map in a new file",
        page: "\
Makes FILE, a map with room for so many marks and cells, 0 to 65535 each; a file that is there is
left as it is. Marks and cells are counted from 0. Under edition 2 a face lies between two solids at
most. With --from the faces of an OFF text are its cells 0, 1, 2 and so on, without a licence, and its
vertices the marks' positions: whole metres, -32768 to 32767. --from alone takes the text's counts and
edition 1; with other capacities or another edition its faces are inserted one by one, once the text is
read by itself, and marks that the text has not are at 0 0 0.",
        example: &[
            "mengkiloh new target/try.map --marks 12 --cells 8",
            "mengkiloh new target/try-hill.map --from examples/viaduct/marks.off --cells 8",
        ],
        access: None,
        places: (1, 1),
        values: &["marks", "cells", "edition", "from"],
        flags: &[],
    },
    Command {
        name: "edit",
        usage: "mengkiloh edit FILE --day D [--dry-run] [EDITS]",
        what: "edits of a day, a line an edit, from a file or from standard input",
        page: "\
A line is `insert CELL TYPE MARKS.. licence NUMBER` or `remove CELL`. TYPE is bar (2 marks), triangle
(3), quad (4), tetrahedron (4), pyramid (5), wedge (6) or brick (8); you choose the cell's number.
Without `licence NUMBER` the cell has none (0). An empty line says nothing, nor does what stands
behind a #. EDITS is a text of such lines; without it they are read from standard input, to its end.
The edits are made in order up to the first that is refused, which is told with its line, its number
and what it means; those before it stay. All of them are in FILE before any is answered as made. A line
that is no edit at all is wrong use, and then none is made. The day may not be before that of the
last edit (20). With --dry-run everything is tried and nothing written.",
        example: &[
            "mengkiloh edit target/try.map --day 2026-03-02 --dry-run examples/viaduct/spring.txt",
            "echo 'insert 0 triangle 4 7 9 licence 3301' | mengkiloh edit target/try.map --day 2026-03-02",
        ],
        access: Some(Access::Change),
        places: (1, 2),
        values: &["day"],
        flags: &["dry-run"],
    },
    Command {
        name: "around",
        usage: "mengkiloh around FILE --mark M [--dimension 1|2|3] [--day D]",
        what: "the cells around a mark, with type, marks and licence",
        page: "\
All cells that hold the mark, of every dimension or of one: 1 bars, 2 triangles and quads, 3 solids.
With --day as the map was on that day.",
        example: &["mengkiloh around examples/viaduct.map --mark 2"],
        access: Some(Access::Ask),
        places: (1, 1),
        values: &["mark", "dimension", "day"],
        flags: &[],
    },
    Command {
        name: "neighbours",
        usage: "mengkiloh neighbours FILE --cell C [--day D]",
        what: "the cells that share a facet with a cell",
        page: "\
All other cells that share a facet with it: of a bar an end, of a triangle or quad an edge, of a solid
a face. With --day as the map was on that day.",
        example: &["mengkiloh neighbours examples/viaduct.map --cell 3"],
        access: Some(Access::Ask),
        places: (1, 1),
        values: &["cell", "day"],
        flags: &[],
    },
    Command {
        name: "sibling",
        usage: "mengkiloh sibling FILE --cell C --facet F [--day D]",
        what: "who shares a facet of a cell, and which way it runs",
        page: "\
Facets are counted from 0: of a triangle on the marks a, b, c they are 0 (a, b), 1 (b, c), 2 (c, a).
All that share the facet's marks are listed, from this one on round, each with the way in which the
next one runs: the same, the opposite, or neither. A facet that nobody shares is a border.",
        example: &["mengkiloh sibling examples/viaduct.map --cell 0 --facet 1"],
        access: Some(Access::Ask),
        places: (1, 1),
        values: &["cell", "facet", "day"],
        flags: &[],
    },
    Command {
        name: "anchors",
        usage: "mengkiloh anchors FILE --mark M [--dimension 1|2|3] [--day D]",
        what: "where each group of cells around a mark begins",
        page: "\
Two cells around a mark are in one group if one can pass from one to the other through facets that
hold the mark. Each group has one anchor, the place to begin walking: a cell and a facet of it.",
        example: &["mengkiloh anchors examples/viaduct.map --mark 2 --dimension 2"],
        access: Some(Access::Ask),
        places: (1, 1),
        values: &["mark", "dimension", "day"],
        flags: &[],
    },
    Command {
        name: "show",
        usage: "mengkiloh show FILE CELL [--day D]",
        what: "a cell: type, licence, marks, positions, measure, and who shares each facet",
        page: "\
The measure of a bar is its squared length, of a triangle or quad its doubled area in the plan, with a
sign, of a tetrahedron its sixfold volume; other solids have none. Metres.",
        example: &["mengkiloh show examples/viaduct.map 3"],
        access: Some(Access::Ask),
        places: (2, 2),
        values: &["day"],
        flags: &[],
    },
    Command {
        name: "count",
        usage: "mengkiloh count FILE [--day D]",
        what: "what the map holds: room, cells of each type, the next free number, edits and their days",
        page: "\
The next free number is the smallest that no live cell has: what the next insert may take.",
        example: &["mengkiloh count examples/viaduct.map"],
        access: Some(Access::Ask),
        places: (1, 1),
        values: &["day"],
        flags: &[],
    },
    Command {
        name: "check",
        usage: "mengkiloh check FILE",
        what: "whether the file is whole",
        page: "\
Every command opens a file so: its head, its lengths and its checksum, then the proved whole checks of
map, starting map and journal. This one besides makes the journal's edits once more from the starting
map and compares the map that they leave, word for word. A damaged file ends it with status 3.",
        example: &["mengkiloh check examples/viaduct.map"],
        access: Some(Access::Ask),
        places: (1, 1),
        values: &[],
        flags: &[],
    },
    Command {
        name: "fold",
        usage: "mengkiloh fold FILE --through D",
        what: "forget which day the edits up to a day were made on, and free their room",
        page: "\
Moves the edits up to that day into the starting map; every day from then on reads as before, earlier
ones are refused with 21. A year of 366 days always stays: a fold through a day later than 366 days
before the last edit is refused with 22.",
        example: &[
            "mengkiloh new target/try-old.map --marks 4 --cells 4",
            "echo 'insert 0 bar 0 1 licence 12' | mengkiloh edit target/try-old.map --day 2025-01-05",
            "echo 'insert 1 bar 1 2 licence 13' | mengkiloh edit target/try-old.map --day 2026-09-21",
            "mengkiloh fold target/try-old.map --through 2025-06-30",
        ],
        access: Some(Access::Change),
        places: (1, 1),
        values: &["through"],
        flags: &[],
    },
    Command {
        name: "plan",
        usage: "mengkiloh plan FILE --wanted CELLS [--check EDITS]",
        what: "the edits that take the map to wanted cells; or whether edits do",
        page: "\
CELLS is a text of the cells that are wanted, all of them, each as the line that would insert it. Says the
plan as lines for `mengkiloh edit`: every cell that is not wanted as it stands is removed, then the missing
ones are inserted. With --check: whether every edit of EDITS would be accepted in order and the cells
afterwards, with type, order of marks and licence, are the wanted ones; else it is refused with 24 and
the line that is wrong. FILE stays as it is.",
        example: &[
            "mengkiloh plan examples/viaduct.map --wanted examples/viaduct/spring.txt > target/try-plan.txt",
            "mengkiloh plan examples/viaduct.map --wanted examples/viaduct/spring.txt --check target/try-plan.txt",
        ],
        access: Some(Access::Ask),
        places: (1, 1),
        values: &["wanted", "check"],
        flags: &[],
    },
    Command {
        name: "export",
        usage: "mengkiloh export FILE --off OUT [--day D]",
        what: "the surface as OFF text, for a mapping house",
        page: "\
Writes the marks with their positions and all triangles and quads to the file OUT, or to standard
output where OUT is -. A map with a bar or a solid is refused with 18, and the first such cell named.",
        example: &["mengkiloh export examples/viaduct.map --day 2026-02-01 --off -"],
        access: Some(Access::Ask),
        places: (1, 1),
        values: &["off", "day"],
        flags: &[],
    },
    Command {
        name: "desk",
        usage: "mengkiloh desk FILE",
        what: "a prompt: the same words, without mengkiloh and FILE",
        page: "\
Holds FILE and reads commands, a line each: `complaint --mark 2 --day 2026-04-17`. Behind `edit --day D`
come lines of edits, ended by a line `end`; they are in the file before they are answered. `help` lists
the commands, `quit` ends the prompt, as the end of input does. A name with spaces stands in \"quotes\".",
        example: &["echo 'complaint --mark 2 --day 2026-04-17' | mengkiloh desk examples/viaduct.map"],
        access: Some(Access::Change),
        places: (1, 1),
        values: &[],
        flags: &[],
    },
];

pub fn command(name: &str) -> Option<&'static Command> {
    static ALL: [Command; 14] = COMMANDS;
    ALL.iter().find(|command| command.name == name)
}

/// All commands, a line each.
pub fn page() -> String {
    let mut page = String::from(
        "mengkiloh: a map of survey marks and cells, kept in a file, and the licences that a complaint is about\n\n",
    );
    for command in &COMMANDS {
        page += &format!("  {:<11} {}\n", command.name, command.what);
    }
    page += &format!(
        "
`mengkiloh help COMMAND` says more, with an example. --json: the answer for programs, on one line.
{DAYS}
Ends with 0; 1 refused; 2 wrong use; 3 input, output or a damaged file.
"
    );
    page
}

impl Command {
    /// Its page.
    pub fn told(&self) -> String {
        let mut page = format!("{}\n\n{}\n", self.usage, self.page);
        let has_day = |name: &&str| ["day", "through"].contains(name);
        if self.values.iter().any(has_day) {
            page += &format!("{DAYS}\n");
        }
        if !self.example.is_empty() {
            page += "\nfor example:\n";
        }
        for line in self.example {
            page += &format!("  {line}\n");
        }
        page
    }
}

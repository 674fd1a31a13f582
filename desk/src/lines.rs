//! Edits as lines of words: `insert 12 triangle 4 7 9 licence 3301`, `remove 12`. An empty line
//! says nothing, nor does what stands behind a `#`.

use std::fmt;

use mengkiloh::{Cell, Licence, Mark, Type};

pub const TYPES: [(Type, &str, usize); 7] = [
    (Type::Bar, "bar", 2),
    (Type::Triangle, "triangle", 3),
    (Type::Quad, "quad", 4),
    (Type::Tetrahedron, "tetrahedron", 4),
    (Type::Pyramid, "pyramid", 5),
    (Type::Wedge, "wedge", 6),
    (Type::Brick, "brick", 8),
];

/// No type has this code: the library refuses it with 6.
const NO_TYPE: u32 = 0;

#[derive(Clone, Debug, PartialEq, Eq)]
pub enum Edit {
    Insert {
        cell: Cell,
        code: u32,
        licence: Licence,
        marks: Vec<Mark>,
    },
    Remove {
        cell: Cell,
    },
}

/// An edit and the line, from 1, that says it.
#[derive(Clone, Debug, PartialEq, Eq)]
pub struct Line {
    pub number: usize,
    pub edit: Edit,
}

/// A line that says no edit.
#[derive(Debug, PartialEq, Eq)]
pub struct NoEdit {
    pub number: usize,
    pub why: String,
}

impl fmt::Display for NoEdit {
    fn fmt(&self, to: &mut fmt::Formatter<'_>) -> fmt::Result {
        write!(to, "line {} is no edit: {}", self.number, self.why)
    }
}

/// All edits of a text, or the first line that is none.
pub fn read(text: &str) -> Result<Vec<Line>, NoEdit> {
    let mut list = Vec::new();
    for (at, line) in text.lines().enumerate() {
        let number = at + 1;
        match of_line(line) {
            Ok(Some(edit)) => list.push(Line { number, edit }),
            Ok(None) => {}
            Err(why) => return Err(NoEdit { number, why }),
        }
    }
    Ok(list)
}

/// The edit of a line, if it says one.
pub fn of_line(line: &str) -> Result<Option<Edit>, String> {
    let said = line.split('#').next().unwrap_or("");
    let words: Vec<&str> = said.split_whitespace().collect();
    match words[..] {
        [] => Ok(None),
        ["insert", cell, kind, ref rest @ ..] => {
            let (marks, licence) = match rest {
                [marks @ .., "licence", licence] => (marks, number(licence, "licence")?),
                marks => (marks, 0),
            };
            let marks: Result<_, String> = marks
                .iter()
                .map(|mark| number(mark, "mark").map(Mark))
                .collect();
            Ok(Some(Edit::Insert {
                cell: Cell(number(cell, "cell")?),
                code: code(kind),
                licence: Licence(licence),
                marks: marks?,
            }))
        }
        ["remove", cell] => Ok(Some(Edit::Remove {
            cell: Cell(number(cell, "cell")?),
        })),
        ["insert" | "remove", ..] => {
            Err("it stops early, or goes on; `insert CELL TYPE MARKS.. licence NUMBER` or `remove CELL`".into())
        }
        [word, ..] => Err(format!("`{word}` is neither insert nor remove")),
    }
}

/// A type by its name or its code; what is neither has a code that is none.
fn code(word: &str) -> u32 {
    let named = TYPES.iter().find(|(_, name, _)| *name == word);
    match named {
        Some((kind, ..)) => u32::from(*kind),
        None => word.parse().unwrap_or(NO_TYPE),
    }
}

pub fn name(kind: Type) -> &'static str {
    TYPES[kind as usize - 1].1
}

fn number(word: &str, what: &str) -> Result<u32, String> {
    let digits = word.bytes().all(|byte| byte.is_ascii_digit());
    let number = word.parse().ok().filter(|_| digits);
    number.ok_or_else(|| format!("`{word}` is no {what}'s number (0 to 4294967295)"))
}

#[cfg(test)]
mod tests {
    use super::*;

    #[test]
    fn lines_that_are_edits() {
        let text = "\n# spring\ninsert 12 triangle 4 7 9 licence 3301 # new\r\n\tremove 12\ninsert 3 2 1 1\n";
        let insert = |cell, code, licence, marks: &[u32]| Edit::Insert {
            cell: Cell(cell),
            code,
            licence: Licence(licence),
            marks: marks.iter().copied().map(Mark).collect(),
        };
        let remove = Edit::Remove { cell: Cell(12) };
        let wanted = [
            (3, insert(12, 2, 3301, &[4, 7, 9])),
            (4, remove),
            (5, insert(3, 2, 0, &[1, 1])),
        ];
        let wanted = wanted.map(|(number, edit)| Line { number, edit });
        assert_eq!(read(text), Ok(wanted.to_vec()));
        // what the library is to refuse gets there
        let refused = of_line("insert 1 hexagon 1 2");
        assert_eq!(refused, Ok(Some(insert(1, 0, 0, &[1, 2]))));
        assert_eq!(of_line("insert 1 bar"), Ok(Some(insert(1, 1, 0, &[]))));
    }

    #[test]
    fn lines_that_are_none() {
        for line in [
            "insert",
            "insert 1",
            "remove",
            "remove 1 2",
            "move 1",
            "insert x bar 1 2",
            "insert 1 bar 1 -2",
            "insert 1 bar 1 2 licence",
            "insert 1 bar 1 2 licence 4294967296",
            "insert 1 bar 1 2 licence 5 6",
            "insert +1 bar 1 2",
            "INSERT 1 bar 1 2",
        ] {
            assert!(of_line(line).is_err(), "{line}");
            let text = format!("remove 1\n\n{line}\nremove 2\n");
            assert_eq!(read(&text).map_err(|none| none.number), Err(3), "{line}");
        }
    }
}

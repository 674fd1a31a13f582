//! Planned changes, checked before the night.

use std::fs;

use mengkiloh::{Cell, Edits, Licence, Mark, Mesh, PlanRefused, Records, Refusal};

use crate::json::Json;
use crate::lines::{self, Edit, Line, TYPES};
use crate::map::Map;
use crate::progress::Progress;
use crate::said::{counted, Answer, Trouble};
use crate::store::told;
use crate::words::Words;

/// With --wanted alone the plan, as lines of edits; with --check whether those edits are right.
pub fn plan(map: &Map, words: &Words, progress: &Progress) -> Result<Answer, Trouble> {
    let Some(file) = words.value("wanted") else {
        return Err(words.wrong("--wanted is missing"));
    };
    let wanted = wanted(words, file)?;
    match words.value("check") {
        None => planned(map, &wanted, progress),
        Some(edits) => checked(map, words, edits, &wanted, progress),
    }
}

fn read(words: &Words, file: &str) -> Result<Vec<Line>, Trouble> {
    let bytes =
        fs::read(file).map_err(|fault| Trouble::broken(format!("{file}: {}", told(&fault))))?;
    let text = String::from_utf8(bytes).map_err(|_| words.wrong(format!("{file} is no text")))?;
    lines::read(&text).map_err(|none| words.wrong(format!("{file}: {none}")))
}

/// The wanted cells, each said as the line that would insert it.
fn wanted(words: &Words, file: &str) -> Result<Records, Trouble> {
    let mut records = Records::new();
    for line in read(words, file)? {
        match line.edit {
            Edit::Insert {
                cell,
                code,
                licence,
                marks,
            } => records.add(cell, code, licence, &marks),
            Edit::Remove { .. } => {
                let why = "a wanted cell is said as the line that inserts it";
                return Err(words.wrong(format!("{file}, line {}: {why}", line.number)));
            }
        }
    }
    Ok(records)
}

fn planned(map: &Map, wanted: &Records, progress: &Progress) -> Result<Answer, Trouble> {
    let plan = progress.during("planning", || map.mesh.plan(wanted));
    let plan = plan.map_err(|refusal| Trouble::refused(refusal, in_wanted(refusal)))?;
    let lines = said(plan.words());
    let text: String = lines.iter().map(|line| format!("{line}\n")).collect();
    let json = lines.into_iter().map(Json::Text).collect();
    Ok(Answer::new(text).with("plan", Json::List(json)))
}

fn in_wanted(refusal: Refusal) -> &'static str {
    match refusal {
        Refusal::CountWrong => "a wanted cell has too few marks for its type",
        Refusal::TypeUnknown => "a wanted cell is of no type that there is",
        other => other.meaning(),
    }
}

/// A list of edits as lines.
fn said(mut words: &[u32]) -> Vec<String> {
    let mut lines = Vec::new();
    loop {
        match words {
            [1, cell, code, licence, rest @ ..] => {
                let row = TYPES.iter().find(|(kind, ..)| u32::from(*kind) == *code);
                let (name, count) = row.map_or(("none", 0), |(_, name, count)| (*name, *count));
                let (marks, after) = rest.split_at(count.min(rest.len()));
                let marks: String = marks.iter().map(|mark| format!(" {mark}")).collect();
                let licence = match licence {
                    0 => String::new(),
                    licence => format!(" licence {licence}"),
                };
                lines.push(format!("insert {cell} {name}{marks}{licence}"));
                words = after;
            }
            [2, cell, after @ ..] => {
                lines.push(format!("remove {cell}"));
                words = after;
            }
            _ => return lines,
        }
    }
}

fn checked(
    map: &Map,
    words: &Words,
    file: &str,
    wanted: &Records,
    progress: &Progress,
) -> Result<Answer, Trouble> {
    let lines = read(words, file)?;
    let mut edits = Edits::new();
    for line in &lines {
        match &line.edit {
            Edit::Insert {
                cell,
                code,
                licence,
                marks,
            } => edits.insert(*cell, *code, *licence, marks),
            Edit::Remove { cell } => edits.remove(*cell),
        }
    }
    let mut second = Mesh::over(vec![0; map.mesh.words().len()]);
    let checked = progress.during("checking the plan", || {
        map.mesh.check_plan(&edits, wanted, &mut second)
    });
    let count = counted(lines.len(), "edit");
    let Err(PlanRefused { refusal, place }) = checked else {
        let text = format!(
            "The plan is right: {count}, each accepted, and then the cells are the wanted ones.\n"
        );
        return Ok(Answer::new(text)
            .with("right", true)
            .with("edits", lines.len()));
    };
    if refusal != Refusal::PlanWrong {
        return Err(Trouble::refused(refusal, in_wanted(refusal)));
    }
    let Some(line) = place.and_then(|place| lines.get(place)) else {
        let meaning = format!(
            "each of the {count} is accepted, but the cells afterwards are not the wanted ones"
        );
        return Err(Trouble::refused(refusal, meaning));
    };
    // the map before it stands in second memory: its own call says why
    let why = match &line.edit {
        Edit::Insert {
            cell,
            code,
            licence,
            marks,
        } => again(&mut second, *cell, *code, *licence, marks),
        Edit::Remove { cell } => second.remove(*cell).err(),
    };
    let why = why.map_or_else(String::new, |why| {
        format!(
            ", which would be refused with {}: {}",
            why.number(),
            why.meaning()
        )
    });
    Err(Trouble::refused(
        refusal,
        format!("the plan is wrong at line {}{why}", line.number),
    ))
}

fn again(
    second: &mut Mesh<Vec<u32>>,
    cell: Cell,
    code: u32,
    licence: Licence,
    marks: &[Mark],
) -> Option<Refusal> {
    second.insert_licensed(cell, code, licence, marks).err()
}

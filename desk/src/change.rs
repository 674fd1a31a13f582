//! What changes a file: a new one, edits, a fold.

use std::fs;
use std::io::{self, BufRead};

use mengkiloh::{OffError, Refusal};

use crate::days;
use crate::lines::{self, Edit, Line, TYPES};
use crate::map::{Map, NoMap};
use crate::progress::Progress;
use crate::said::{counted, Answer, Trouble};
use crate::store::{told, Store};
use crate::words::Words;

pub fn new(words: &Words, progress: &Progress) -> Result<Answer, Trouble> {
    let file = &words.places[0];
    let (marks, cells) = (words.number("marks")?, words.number("cells")?);
    let edition = words.number("edition")?.unwrap_or(1);
    let map = match (words.value("from"), marks, cells) {
        (None, Some(marks), Some(cells)) => {
            Map::new(marks, cells, edition).map_err(not_formatted)?
        }
        (None, ..) => {
            return Err(words.wrong("say --marks and --cells, or --from a surface"));
        }
        (Some(from), ..) => {
            let text = fs::read(from)
                .map_err(|fault| Trouble::broken(format!("{from}: {}", told(&fault))))?;
            let map = progress.during("reading OFF text", || {
                Map::from_off(&text, marks, cells, edition)
            });
            map.map_err(|why| no_map(why).at(from))?
        }
    };
    Store::make(file, &map, progress)?;
    let live = map.mesh.iter().count();
    let (marks, cells) = map.mesh.capacities()?;
    let text = format!(
        "{file} is made: room for {} and {}, edition {edition}, {}.\n",
        counted(marks as usize, "mark"),
        counted(cells as usize, "cell"),
        counted(live, "live cell"),
    );
    Ok(Answer::new(text)
        .with("file", file.as_str())
        .with("marks", marks)
        .with("cells", cells)
        .with("edition", edition)
        .with("live", live))
}

fn not_formatted(refusal: Refusal) -> Trouble {
    let meaning = match refusal {
        Refusal::CapacityAbove => "a map has room for 65535 marks and 65535 cells at most",
        Refusal::TypeUnknown => "an edition is 1 or 2",
        other => other.meaning(),
    };
    Trouble::refused(refusal, meaning)
}

fn no_map(why: NoMap) -> Trouble {
    match why {
        NoMap::Off(OffError::Text(refused)) => {
            let meaning = refused.refusal.meaning();
            let place = match refused.refusal {
                Refusal::OffBroken => format!("{meaning}, at byte {}", refused.place),
                Refusal::CapacityAbove => return not_formatted(refused.refusal),
                _ => format!("{meaning}, at face {}", refused.place),
            };
            Trouble::refused(refused.refusal, place)
        }
        NoMap::Off(OffError::File(fault)) => Trouble::broken(told(&fault)),
        NoMap::Off(OffError::Surface(refusal)) => refusal.into(),
        NoMap::Face(face, refusal) => {
            Trouble::refused(refusal, format!("{}, at face {face}", refusal.meaning()))
        }
        NoMap::Refused(refusal) => not_formatted(refusal),
    }
}

/// The text of a day's edits: of the file that is named, or what comes in.
pub fn edits_text(words: &Words, place: usize, input: &mut dyn BufRead) -> Result<String, Trouble> {
    let (from, bytes) = match words.places.get(place) {
        Some(file) if file != "-" => (file.as_str(), fs::read(file)),
        _ => {
            let mut bytes = Vec::new();
            let read = input.read_to_end(&mut bytes).map(|_| bytes);
            ("standard input", read)
        }
    };
    let broken = |why: &dyn std::fmt::Display| Trouble::broken(format!("{from}: {why}"));
    let bytes = bytes.map_err(|fault| broken(&told(&fault)))?;
    String::from_utf8(bytes).map_err(|_| words.wrong(format!("{from} is no text")))
}

/// Lines up to one that says `end`, for the prompt.
pub fn edits_typed(input: &mut dyn BufRead) -> io::Result<String> {
    let mut text = String::new();
    loop {
        let at = text.len();
        if input.read_line(&mut text)? == 0 || text[at..].trim() == "end" {
            text.truncate(at);
            return Ok(text);
        }
    }
}

/// Makes the edits of a text, and puts them in the file before they are answered.
pub fn edit(
    store: Option<&mut Store>,
    map: &mut Map,
    words: &Words,
    text: &str,
    progress: &Progress,
) -> Result<Answer, Trouble> {
    let day = words.needed_day("day")?;
    let lines = lines::read(text).map_err(|none| words.wrong(none))?;
    let (made, stopped) = progress.during("making the edits", || {
        make(map, day.number, &lines, progress)
    });
    let said = match store {
        Some(store) if made > 0 => {
            store.save(map, progress)?;
            "made"
        }
        Some(_) => "made",
        None => "would be made",
    };
    let edits = counted(made, "edit");
    let mut answer = Answer::new(format!("{edits} {said} on {day}.\n"))
        .with("day", day.number)
        .with("made", made)
        .with("dry_run", said != "made");
    if let Some((line, refusal)) = stopped {
        answer = answer.with("line", line.number);
        let mut trouble = Trouble::refused(refusal, meaning(refusal, &line.edit, map));
        trouble = trouble.at(format!("line {}", line.number));
        if lines.len() > made + 1 {
            let left = counted(lines.len() - made - 1, "edit");
            trouble.words += &format!("; {left} behind it not tried");
        }
        answer.trouble = Some(trouble);
    }
    Ok(answer)
}

/// How many were made, and the line that was refused.
fn make<'a>(
    map: &mut Map,
    day: u32,
    lines: &'a [Line],
    progress: &Progress,
) -> (usize, Option<(&'a Line, Refusal)>) {
    for (made, line) in lines.iter().enumerate() {
        progress.at(made, lines.len());
        if let Err(refusal) = map.edit(day, &line.edit) {
            return (made, Some((line, refusal)));
        }
    }
    (lines.len(), None)
}

/// What a refusal means for an edit.
fn meaning(refusal: Refusal, edit: &Edit, map: &Map) -> String {
    let (marks, cells) = map.mesh.capacities().unwrap_or((0, 0));
    let most = |count: u32, word: &str| match count {
        0 => format!("this map has no {word}"),
        _ => format!("this map's {word}s are 0 to {}", count - 1),
    };
    match (refusal, edit) {
        (Refusal::CapacityAbove, _) => "a day is 65535 at most".to_string(),
        (Refusal::DayBefore, _) => {
            let last = map.last_day().map_or_else(String::new, days::told);
            format!("the day is before that of the last edit, {last}")
        }
        (Refusal::CellOutside, _) => format!("no such cell number; {}", most(cells, "cell")),
        (Refusal::MarkOutside, _) => format!("no such mark; {}", most(marks, "mark")),
        (Refusal::TypeUnknown, _) => {
            let names: Vec<&str> = TYPES.iter().map(|(_, name, _)| *name).collect();
            format!("no such type; there are {}", names.join(", "))
        }
        (Refusal::CountWrong, Edit::Insert { code, .. }) => {
            let kind = TYPES.iter().find(|(kind, ..)| u32::from(*kind) == *code);
            kind.map_or_else(
                || refusal.meaning().to_string(),
                |(_, name, count)| format!("wrong count of marks; a {name} has {count}"),
            )
        }
        _ => refusal.meaning().to_string(),
    }
}

pub fn fold(
    store: &mut Store,
    map: &mut Map,
    words: &Words,
    progress: &Progress,
) -> Result<Answer, Trouble> {
    let day = words.needed_day("through")?;
    let before = map.entries();
    let folded = progress.during("folding", || map.journal.fold(day.number));
    folded.map_err(|refusal| Trouble::refused(refusal, not_folded(refusal, map)))?;
    store.save(map, progress)?;
    let moved = before - map.entries();
    let text = format!(
        "Folded through {day}: {} moved into the starting map, {} kept.\n",
        counted(moved, "edit"),
        map.entries()
    );
    Ok(Answer::new(text)
        .with("through", day.number)
        .with("moved", moved)
        .with("kept", map.entries()))
}

fn not_folded(refusal: Refusal, map: &Map) -> String {
    if refusal != Refusal::FoldNotAllowed {
        return refusal.meaning().to_string();
    }
    const KEPT: u32 = 366;
    match (map.last_day(), map.folded()) {
        (None, _) => "no edit was ever made, so there is nothing to fold".to_string(),
        (Some(last), _) if last < KEPT => {
            format!(
                "a year of {KEPT} days stays, and the last edit is of {}",
                days::told(last)
            )
        }
        (Some(last), fold) => {
            let mut text = format!(
                "a year of {KEPT} days stays, so a fold goes through {} at most",
                days::told(last - KEPT)
            );
            if let Some(fold) = fold {
                text += &format!(", and not before the last one, {}", days::told(fold));
            }
            text
        }
    }
}

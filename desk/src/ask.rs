//! The questions, and their answers in words and as JSON.

use std::fs;
use std::io::{self, Read, Write};
use std::path::Path;

use mengkiloh::{Cell, Half, Licence, Mark, Measure, Mesh, Refusal, Type, Way};

use crate::days::{self, Day};
use crate::disk;
use crate::file::MAGIC;
use crate::json::Json;
use crate::lines::{name, TYPES};
use crate::map::Map;
use crate::progress::Progress;
use crate::said::{counted, listed, Answer, Trouble};
use crate::store::{told, Store};
use crate::words::Words;

type Held = Mesh<Vec<u32>>;

/// The refusals of a question, with what they mean here.
fn refused(refusal: Refusal, map: &Map) -> Trouble {
    let (marks, cells) = map.mesh.capacities().unwrap_or((0, 0));
    let meaning = match refusal {
        Refusal::MarkOutside => below("mark", marks),
        Refusal::CellOutside => below("cell", cells),
        Refusal::CellNotLive => "no such cell is on the map that day".to_string(),
        Refusal::FacetOutside => "the cell has no such facet; they are counted from 0".to_string(),
        Refusal::TypeUnknown => "a dimension is 1, 2 or 3".to_string(),
        Refusal::DayFolded => {
            let fold = map.folded().map_or_else(String::new, days::told);
            format!("the day is before the last fold, {fold}: the map of earlier days is not kept")
        }
        _ => refusal.meaning().to_string(),
    };
    Trouble::refused(refusal, meaning)
}

fn below(word: &str, count: u32) -> String {
    match count {
        0 => format!("no such {word}: this map has none"),
        _ => format!("no such {word}: this map's {word}s are 0 to {}", count - 1),
    }
}

/// The map on the day that is asked for, and how that day is said.
struct Then {
    map: Held,
    said: String,
    day: Option<Day>,
}

impl Then {
    fn of(map: &Map, words: &Words, progress: &Progress) -> Result<Then, Trouble> {
        let day = words.day()?;
        Ok(match day {
            None => Then {
                map: map.mesh.clone(),
                said: "today".to_string(),
                day,
            },
            Some(on) => Then {
                map: progress
                    .during("making the map of that day", || map.on(on.number))
                    .map_err(|refusal| refused(refusal, map))?,
                said: format!("on {on}"),
                day,
            },
        })
    }

    fn answer(&self, words: String) -> Answer {
        Answer::new(words).with("day", self.day.map(|day| day.number))
    }
}

/// A cell, its type, marks and licence.
struct Seen {
    cell: Cell,
    kind: Type,
    marks: Vec<Mark>,
    licence: Licence,
}

impl Seen {
    fn of(map: &Held, cell: Cell) -> Result<Seen, Refusal> {
        Ok(Seen {
            cell,
            kind: map.type_of(cell)?,
            marks: map.marks_of(cell)?.to_vec(),
            licence: map.licence(cell)?,
        })
    }

    fn words(&self) -> String {
        let marks = listed(&self.marks, " ");
        format!("cell {}, {} on marks {marks}", self.cell, name(self.kind))
    }

    fn licensed(&self) -> String {
        match self.licence {
            Licence(0) => format!("{}, without a licence", self.words()),
            licence => format!("{}, licence {licence}", self.words()),
        }
    }

    fn json(&self) -> Json {
        Json::Object(vec![
            ("cell", self.cell.0.into()),
            ("type", name(self.kind).into()),
            ("marks", numbers(self.marks.iter().map(|mark| mark.0))),
            ("licence", self.licence.0.into()),
        ])
    }
}

fn numbers(list: impl IntoIterator<Item = u32>) -> Json {
    Json::List(list.into_iter().map(Json::from).collect())
}

fn all(map: &Held, cells: impl IntoIterator<Item = Cell>) -> Result<Vec<Seen>, Refusal> {
    cells.into_iter().map(|cell| Seen::of(map, cell)).collect()
}

pub fn complaint(map: &Map, words: &Words, progress: &Progress) -> Result<Answer, Trouble> {
    let (mark, day) = (words.mark()?, words.needed_day("day")?);
    let refused = |refusal| refused(refusal, map);
    let (licences, then) = progress
        .during("making the map of that day", || {
            map.licences(day.number, mark)
        })
        .map_err(refused)?;
    let around = then.around(mark).map_err(refused)?;
    let cells = all(&then, around).map_err(refused)?;
    let bring = |licence: Licence| cells.iter().filter(move |seen| seen.licence == licence);

    let mut text = match (licences.len(), cells.len()) {
        (0, 0) => format!("Mark {mark} on {day}: no cell was around it, so no licence to ask.\n"),
        (0, _) => format!("Mark {mark} on {day}: no licence to ask.\n"),
        (count, _) => format!("Mark {mark} on {day}: ask {}.\n", counted(count, "licence")),
    };
    for &licence in &licences {
        text += &format!("  licence {licence}\n");
        if words.flag("cells") {
            for seen in bring(licence) {
                text += &format!("    {}\n", seen.words());
            }
        }
    }
    let without = bring(Licence(0)).count();
    if without > 0 {
        text += &format!("  {} without a licence:\n", counted(without, "cell"));
        for seen in bring(Licence(0)) {
            text += &format!("    {}\n", seen.words());
        }
    }
    let mut answer = Answer::new(text)
        .with("mark", mark.0)
        .with("day", day.number)
        .with("date", days::date(day.number))
        .with("licences", numbers(licences.iter().map(|held| held.0)))
        .with(
            "without_licence",
            numbers(bring(Licence(0)).map(|seen| seen.cell.0)),
        );
    if words.flag("cells") {
        let cells = cells.iter().map(Seen::json).collect();
        answer = answer.with("cells", Json::List(cells));
    }
    Ok(answer)
}

/// The dimensions that are asked for: one, or all.
fn dimensions(words: &Words) -> Result<Vec<u32>, Trouble> {
    let one = words.number("dimension")?;
    Ok(one.map_or(vec![1, 2, 3], |one| vec![one]))
}

pub fn around(map: &Map, words: &Words, progress: &Progress) -> Result<Answer, Trouble> {
    let mark = words.mark()?;
    let dimensions = dimensions(words)?;
    let then = Then::of(map, words, progress)?;
    let refused = |refusal| refused(refusal, map);
    let mut cells = Vec::new();
    for dimension in dimensions {
        let star = then.map.star(dimension, mark).map_err(refused)?;
        cells.extend(all(&then.map, star).map_err(refused)?);
    }
    let count = counted(cells.len(), "cell");
    let mut text = format!("Mark {mark} {}: {count} around it.\n", then.said);
    for seen in &cells {
        text += &format!("  {}\n", seen.licensed());
    }
    let json = cells.iter().map(Seen::json).collect();
    Ok(then
        .answer(text)
        .with("mark", mark.0)
        .with("cells", Json::List(json)))
}

pub fn neighbours(map: &Map, words: &Words, progress: &Progress) -> Result<Answer, Trouble> {
    let cell = words.cell()?;
    let then = Then::of(map, words, progress)?;
    let refused = |refusal| refused(refusal, map);
    let list = then.map.neighbours(cell).map_err(refused)?;
    let cells = all(&then.map, list).map_err(refused)?;
    let count = counted(cells.len(), "neighbour");
    let mut text = format!("Cell {cell} {}: {count}.\n", then.said);
    for seen in &cells {
        text += &format!("  {}\n", seen.licensed());
    }
    let json = cells.iter().map(Seen::json).collect();
    Ok(then
        .answer(text)
        .with("cell", cell.0)
        .with("neighbours", Json::List(json)))
}

fn way(way: Way) -> &'static str {
    match way {
        Way::Lone => "lone",
        Way::Same => "same",
        Way::Opposite => "opposite",
        Way::Neither => "neither",
    }
}

fn runs(way: Way) -> &'static str {
    match way {
        Way::Lone => "nobody shares it: a border",
        Way::Same => "the next runs the same way",
        Way::Opposite => "the next runs the opposite way",
        Way::Neither => "the next runs neither way",
    }
}

fn half_json((half, way_on): (Half, Way)) -> Json {
    Json::Object(vec![
        ("cell", half.cell().0.into()),
        ("facet", half.facet().into()),
        ("next_runs", way(way_on).into()),
    ])
}

pub fn sibling(map: &Map, words: &Words, progress: &Progress) -> Result<Answer, Trouble> {
    let (cell, facet) = (words.cell()?, words.facet()?);
    let then = Then::of(map, words, progress)?;
    let cycle = then.map.cycle(cell, facet);
    let cycle = cycle.map_err(|refusal| refused(refusal, map))?;
    let others = counted(cycle.len().saturating_sub(1), "other");
    let mut text = format!("Facet {facet} of cell {cell} {}: {others}.\n", then.said);
    for &(half, way) in &cycle {
        let (cell, facet) = (half.cell(), half.facet());
        text += &format!("  cell {cell}, facet {facet}; {}\n", runs(way));
    }
    let json = cycle.into_iter().map(half_json).collect();
    Ok(then
        .answer(text)
        .with("cell", cell.0)
        .with("facet", facet)
        .with("cycle", Json::List(json)))
}

pub fn anchors(map: &Map, words: &Words, progress: &Progress) -> Result<Answer, Trouble> {
    let mark = words.mark()?;
    let dimensions = dimensions(words)?;
    let then = Then::of(map, words, progress)?;
    let mut text = String::new();
    let mut json = Vec::new();
    for dimension in dimensions {
        let list = then.map.anchors(dimension, mark);
        let list = list.map_err(|refusal| refused(refusal, map))?;
        for half in list {
            let (cell, facet) = (half.cell(), half.facet());
            text += &format!("  dimension {dimension}: cell {cell}, facet {facet}\n");
            json.push(Json::Object(vec![
                ("dimension", dimension.into()),
                ("cell", cell.0.into()),
                ("facet", facet.into()),
            ]));
        }
    }
    let count = counted(json.len(), "group");
    let head = format!("Mark {mark} {}: {count} around it.\n", then.said);
    Ok(then
        .answer(head + &text)
        .with("mark", mark.0)
        .with("anchors", Json::List(json)))
}

pub fn show(map: &Map, words: &Words, progress: &Progress) -> Result<Answer, Trouble> {
    let word = words.places.last().map_or("", String::as_str);
    let cell = Cell(words.plain(word, "CELL")?);
    let then = Then::of(map, words, progress)?;
    let mesh = &then.map;
    let refused = |refusal| refused(refusal, map);
    let seen = Seen::of(mesh, cell).map_err(refused)?;
    let points = mesh.points(&map.positions, cell).map_err(refused)?;
    let centre = mesh.centre(&map.positions, cell).map_err(refused)?;
    let measure = mesh.measure(&map.positions, cell).ok();

    let mut text = format!("{} {}.\n", capital(&seen.licensed()), then.said);
    for (mark, at) in seen.marks.iter().zip(&points) {
        text += &format!("  mark {mark} at {} {} {}\n", at.x, at.y, at.z);
    }
    text += &format!("  centre {} {} {}\n", centre.x, centre.y, centre.z);
    let (kind, size) = match measure {
        Some(Measure::SquaredLength(size)) => ("squared length", Some(size)),
        Some(Measure::DoubledArea(size)) => ("doubled area in the plan", Some(size)),
        Some(Measure::SixfoldVolume(size)) => ("sixfold volume", Some(size)),
        None => ("", None),
    };
    if let Some(size) = size {
        text += &format!("  {kind} {size}\n");
    }
    let mut facets = Vec::new();
    // as many as the type has: the first that is refused is none
    for facet in 0.. {
        let Ok((there, runs)) = mesh.sibling(cell, facet) else {
            break;
        };
        let (other, its) = (there.cell(), there.facet());
        text += &match runs {
            Way::Lone => format!("  facet {facet}: a border\n"),
            _ => format!("  facet {facet}: the next is cell {other}, facet {its}\n"),
        };
        facets.push(Json::Object(vec![
            ("facet", facet.into()),
            ("next_cell", other.0.into()),
            ("next_facet", its.into()),
            ("next_runs", way(runs).into()),
        ]));
    }
    let at =
        |point: mengkiloh::Point| Json::List([point.x, point.y, point.z].map(Json::Float).into());
    let Json::Object(fields) = seen.json() else {
        return Ok(then.answer(text));
    };
    let mut answer = then.answer(text);
    answer.fields.extend(fields);
    let points = points.into_iter().map(at).collect();
    Ok(answer
        .with("positions", Json::List(points))
        .with("centre", at(centre))
        .with("measure", size.map_or(Json::None, Json::Float))
        .with("facets", Json::List(facets)))
}

fn capital(text: &str) -> String {
    let mut letters = text.chars();
    let first = letters.next().map(|letter| letter.to_ascii_uppercase());
    first.into_iter().chain(letters).collect()
}

pub fn count(map: &Map, file: &str, words: &Words, progress: &Progress) -> Result<Answer, Trouble> {
    let then = Then::of(map, words, progress)?;
    let mesh = &then.map;
    let refused = |refusal| refused(refusal, map);
    let (marks, cells) = mesh.capacities().map_err(refused)?;
    let edition = mesh.edition().map_err(refused)?;
    let free = mesh.free().map_err(refused)?;
    let mut types = Vec::new();
    for (kind, name, _) in TYPES {
        types.push((name, mesh.count(kind).map_err(refused)?));
    }
    let live: usize = types.iter().map(|(_, count)| *count as usize).sum();
    let there = types.iter().filter(|(_, count)| *count > 0);
    let there = there.map(|(name, count)| plural(*count as usize, name));
    let of_types = listed(there, ", ");

    let mut text = format!("{file} {}: {}", then.said, counted(live, "cell"));
    if live > 0 {
        text += &format!(": {of_types}");
    }
    text += &format!(
        ".\n  room for {} and {}, edition {edition}\n",
        counted(marks as usize, "mark"),
        counted(cells as usize, "cell")
    );
    text += &match free {
        Some(cell) => format!("  the next free cell number is {cell}\n"),
        None => "  no cell number is free\n".to_string(),
    };
    let entries = map.entries();
    text += &match (map.first_day(), map.last_day()) {
        (Some(first), Some(last)) => format!(
            "  {} kept, of {} to {}\n",
            counted(entries, "edit"),
            days::told(first),
            days::told(last)
        ),
        _ => "  no edit kept\n".to_string(),
    };
    if let Some(fold) = map.folded() {
        text += &format!("  folded through {}\n", days::told(fold));
    }
    let types = types.iter().map(|(name, count)| (*name, (*count).into()));
    Ok(then
        .answer(text)
        .with("marks", marks)
        .with("cells", cells)
        .with("edition", edition)
        .with("live", live)
        .with("types", Json::Object(types.collect()))
        .with("free", free.map(|cell| cell.0))
        .with("edits", entries)
        .with("first_day", map.first_day())
        .with("last_day", map.last_day())
        .with("folded_through", map.folded()))
}

fn plural(count: usize, name: &str) -> String {
    match name {
        "tetrahedron" if count != 1 => format!("{count} tetrahedra"),
        _ => counted(count, name),
    }
}

/// What opening has not asked: that the journal leaves the map.
pub fn check(map: &Map, file: &str, progress: &Progress) -> Result<Answer, Trouble> {
    let told = progress.during("making the journal's edits once more", || {
        map.told_by_journal()
    });
    if told != Ok(true) {
        return Err(Trouble::broken(format!(
            "{file} is damaged: its journal's edits do not leave its map. Nothing was written to it."
        )));
    }
    let edits = counted(map.entries(), "edit");
    let text = format!(
        "{file} is whole: head, lengths and checksum, the map, the starting map and the journal; \
         its {edits} leave the map, word for word.\n"
    );
    Ok(Answer::new(text)
        .with("whole", true)
        .with("edits", map.entries()))
}

pub fn export(
    map: &Map,
    store: &Store,
    words: &Words,
    progress: &Progress,
) -> Result<Answer, Trouble> {
    let Some(out) = words.value("off") else {
        return Err(words.wrong("--off is missing"));
    };
    let then = Then::of(map, words, progress)?;
    let text = progress.during("writing OFF text", || then.map.write_off(&map.positions));
    let text = text.map_err(|refusal| match (refusal, not_face(&then.map)) {
        (Refusal::NotSurface, Some(seen)) => {
            let meaning = "OFF text has triangles and quads alone, and the map has";
            Trouble::refused(refusal, format!("{meaning} {}", seen.words()))
        }
        _ => refused(refusal, map),
    })?;
    let faces = then.map.iter().count();
    if out == "-" {
        // as an answer, so that it is written like one
        let text = String::from_utf8_lossy(&text).into_owned();
        return Ok(then.answer(text.clone()).with("off", text));
    }
    let path = Path::new(out);
    if store.is(path) || is_map(path) {
        return Err(words.wrong(format!("{out} is a map's own file, and is left as it is")));
    }
    let written = progress.during("writing OFF text", || put_file(path, &text));
    written.map_err(|fault| {
        Trouble::broken(format!("{out} could not be written: {}", told(&fault)))
    })?;
    let said = format!(
        "{out} has the surface {}: {}.\n",
        then.said,
        counted(faces, "face")
    );
    Ok(then.answer(said).with("out", out).with("faces", faces))
}

/// Puts a text in the place of a file; what is no file, as a device, is written to.
fn put_file(path: &Path, text: &[u8]) -> io::Result<()> {
    let there = fs::metadata(path);
    if there.is_ok_and(|there| !there.is_file()) {
        return fs::OpenOptions::new()
            .write(true)
            .open(path)?
            .write_all(text);
    }
    // of a link the file that it leads to
    let path = fs::canonicalize(path).unwrap_or_else(|_| path.to_path_buf());
    let saved = disk::replace(&mut disk::System, &path, text);
    saved.map(drop).map_err(|unsaved| {
        let (disk::Unsaved::Before(fault) | disk::Unsaved::After(fault)) = unsaved;
        fault
    })
}

/// The first cell that OFF text cannot have.
fn not_face(map: &Held) -> Option<Seen> {
    let face = |kind: Type| matches!(kind, Type::Triangle | Type::Quad);
    let other = map.iter().find(|(_, kind, _)| !face(*kind));
    other.and_then(|(cell, ..)| Seen::of(map, cell).ok())
}

/// A file that begins as a map's does is never written over by text.
fn is_map(path: &Path) -> bool {
    let mut first = [0; MAGIC.len()];
    let read = fs::File::open(path).and_then(|mut file| file.read_exact(&mut first));
    read.is_ok() && first == *MAGIC
}

/// Text to standard output, or what is wrong with it.
pub fn put_out(text: &str) -> Result<(), Trouble> {
    let mut out = io::stdout().lock();
    let put = out.write_all(text.as_bytes()).and_then(|()| out.flush());
    put.map_err(|fault| {
        let why = told(&fault);
        Trouble::broken(format!("standard output could not be written: {why}"))
    })
}

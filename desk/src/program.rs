//! A command run, and the prompt.

use std::ffi::OsString;
use std::io::{self, BufRead, IsTerminal, Write};

use crate::help::{self, Command};
use crate::map::Map;
use crate::progress::Progress;
use crate::said::{Answer, Status, Trouble};
use crate::store::{told, Access, Store};
use crate::words::Words;
use crate::{ask, change, plan};

/// The program with these words; its exit status.
pub fn run(words: &[OsString]) -> u8 {
    let progress = Progress::told();
    let read = words.iter().map(|word| word.to_str().map(str::to_string));
    let Some(mut words) = read.collect::<Option<Vec<String>>>() else {
        let trouble = Trouble::wrong_use("a word is not written in UTF-8");
        return said(&trouble.into(), false);
    };
    let all = words.len();
    words.retain(|word| word != "--json");
    let json = words.len() < all;
    match started(&words, json, &progress) {
        Ok(Ended::Answered(answer)) => said(&answer, json),
        Ok(Ended::Prompted(status)) => status,
        Err(trouble) => said(&trouble.into(), json),
    }
}

enum Ended {
    Answered(Answer),
    /// A prompt, which has answered by itself.
    Prompted(u8),
}

/// Writes an answer: what was asked to standard output, trouble to standard error; for programs
/// all of it to standard output, on one line.
fn said(answer: &Answer, json: bool) -> u8 {
    let text = match json {
        true => format!("{}\n", answer.json()),
        false => answer.words.clone(),
    };
    let put = match text.is_empty() {
        true => Ok(()),
        false => ask::put_out(&text),
    };
    if let (Some(trouble), false) = (&answer.trouble, json && put.is_ok()) {
        complain(&trouble.words);
    }
    match put {
        Ok(()) => answer.status() as u8,
        Err(trouble) => {
            complain(&trouble.words);
            trouble.status as u8
        }
    }
}

/// To standard error; where that cannot be written, the status tells.
fn complain(words: &str) {
    let _ = writeln!(io::stderr(), "mengkiloh: {words}");
}

fn started(words: &[String], json: bool, progress: &Progress) -> Result<Ended, Trouble> {
    let Some((name, rest)) = words.split_first() else {
        return Err(Trouble::wrong_use(help::page()));
    };
    let help = ["--help", "-h"];
    if name == "help" || help.contains(&name.as_str()) {
        return helped(rest.first()).map(Ended::Answered);
    }
    if ["version", "--version"].contains(&name.as_str()) {
        return Ok(Ended::Answered(version()));
    }
    let command = known(name)?;
    if rest.iter().any(|word| help.contains(&word.as_str())) {
        return helped(Some(name)).map(Ended::Answered);
    }
    let words = Words::read(command, rest)?;
    let Some(access) = command.access else {
        return change::new(&words, progress).map(Ended::Answered);
    };
    let dry = words.flag("dry-run");
    let access = if dry { Access::Ask } else { access };
    // what is typed or sent is read before the file is held
    let text = match command.name {
        "edit" => {
            words.needed_day("day")?;
            if words.places.len() < 2 && io::stdin().is_terminal() {
                complain("a line an edit; the end of input (ctrl-D) makes them");
            }
            change::edits_text(&words, 1, &mut io::stdin().lock())?
        }
        _ => String::new(),
    };
    let (mut store, mut map) = Store::open(&words.places[0], access, progress)?;
    if command.name == "desk" {
        return Ok(Ended::Prompted(prompt(
            &mut store, &mut map, json, progress,
        )));
    }
    answered(command, &words, &mut store, &mut map, &text, progress).map(Ended::Answered)
}

fn known(name: &str) -> Result<&'static Command, Trouble> {
    help::command(name).ok_or_else(|| {
        Trouble::wrong_use(format!(
            "there is no command `{name}`. `mengkiloh help` lists them."
        ))
    })
}

fn helped(name: Option<&String>) -> Result<Answer, Trouble> {
    let page = match name {
        None => help::page(),
        Some(name) => known(name)?.told(),
    };
    Ok(Answer::new(page.clone()).with("help", page))
}

/// The program's version is the library's.
fn version() -> Answer {
    let [_, major, minor, patch] = mengkiloh::version().to_be_bytes();
    let version = format!("{major}.{minor}.{patch}");
    Answer::new(format!("mengkiloh {version}\n")).with("version", version)
}

/// A command over a file that is open.
fn answered(
    command: &Command,
    words: &Words,
    store: &mut Store,
    map: &mut Map,
    text: &str,
    progress: &Progress,
) -> Result<Answer, Trouble> {
    match command.name {
        "complaint" => ask::complaint(map, words, progress),
        "around" => ask::around(map, words, progress),
        "neighbours" => ask::neighbours(map, words, progress),
        "sibling" => ask::sibling(map, words, progress),
        "anchors" => ask::anchors(map, words, progress),
        "show" => ask::show(map, words, progress),
        "count" => ask::count(map, store.name(), words, progress),
        "check" => ask::check(map, store.name(), progress),
        "plan" => plan::plan(map, words, progress),
        "export" => ask::export(map, store, words, progress),
        "fold" => change::fold(store, map, words, progress),
        "edit" if words.flag("dry-run") => {
            change::edit(None, &mut map.clone(), words, text, progress)
        }
        "edit" => change::edit(Some(store), map, words, text, progress),
        other => Err(Trouble::wrong_use(format!("no {other} here"))),
    }
}

/// Reads commands and answers each, until the end of input, `quit`, or a fault of input or
/// output: then what is in memory may not be in the file, and nothing more is answered.
fn prompt(store: &mut Store, map: &mut Map, json: bool, progress: &Progress) -> u8 {
    let mut input = io::stdin().lock();
    let person = input.is_terminal() && !json;
    if person {
        complain(&format!(
            "{} is held; `help` lists the commands, `quit` ends",
            store.name()
        ));
    }
    loop {
        if person {
            let _ = write!(io::stderr(), "> ");
        }
        let mut line = String::new();
        match input.read_line(&mut line) {
            Ok(0) => return Status::Done as u8,
            Ok(_) => {}
            Err(fault) => {
                let words = format!("standard input: {}", told(&fault));
                return said(&Trouble::broken(words).into(), json);
            }
        }
        let mut words = split(&line);
        let all = words.len();
        words.retain(|word| word != "--json");
        let json = json || words.len() < all;
        let words: Vec<&str> = words.iter().map(String::as_str).collect();
        let answer = match words[..] {
            [] => continue,
            ["quit" | "exit"] => return Status::Done as u8,
            _ => typed(&words, store, map, &mut input, progress),
        };
        let answer = answer.unwrap_or_else(Answer::from);
        if said(&answer, json) == Status::Broken as u8 {
            return Status::Broken as u8;
        }
    }
}

/// A command of the prompt: its words, the file's name put in its place.
fn typed(
    words: &[&str],
    store: &mut Store,
    map: &mut Map,
    input: &mut dyn BufRead,
    progress: &Progress,
) -> Result<Answer, Trouble> {
    let (name, rest) = words.split_first().unwrap_or((&"help", &[]));
    if *name == "help" {
        return helped(rest.first().map(|name| name.to_string()).as_ref());
    }
    let command = known(name)?;
    if command.access.is_none() || command.name == "desk" {
        let why = format!("`{name}` is for a file of its own, and not for a prompt");
        return Err(Trouble::wrong_use(why));
    }
    let file = store.name().to_string();
    let words = [file].into_iter();
    let words: Vec<String> = words
        .chain(rest.iter().map(|word| word.to_string()))
        .collect();
    let read = Words::read(command, &words);
    // lines of edits are read also where the command is wrong, so that none of them is taken for a
    // command
    let named = words
        .iter()
        .skip(1)
        .filter(|word| !word.starts_with("--"))
        .count();
    let text = match (command.name, &read) {
        ("edit", Ok(words)) if words.places.len() > 1 => change::edits_text(words, 1, input)?,
        ("edit", Err(_)) if named > 1 => String::new(),
        ("edit", _) => change::edits_typed(input)
            .map_err(|fault| Trouble::broken(format!("standard input: {}", told(&fault))))?,
        _ => String::new(),
    };
    answered(command, &read?, store, map, &text, progress)
}

/// The words of a line; what stands in quotes is one.
fn split(line: &str) -> Vec<String> {
    let mut words = Vec::new();
    let mut word: Option<String> = None;
    let mut quoted = false;
    for letter in line.chars() {
        match letter {
            '"' => {
                quoted = !quoted;
                word.get_or_insert_default();
            }
            letter if letter.is_whitespace() && !quoted => words.extend(word.take()),
            letter => word.get_or_insert_default().push(letter),
        }
    }
    words.extend(word);
    words
}

#[cfg(test)]
mod tests {
    #[test]
    fn words_of_a_line() {
        let words = super::split(" export  --off \"my map.off\" \"\" a\"b c\"d\n");
        assert_eq!(words, ["export", "--off", "my map.off", "", "ab cd"]);
    }
}

//! The words of a command: its options, and what stands beside them.

use mengkiloh::{Cell, Mark};

use crate::days::Day;
use crate::help::Command;
use crate::said::Trouble;

/// The words behind a command's name.
pub struct Words {
    command: &'static Command,
    /// What is no option, in order.
    pub places: Vec<String>,
    values: Vec<(&'static str, String)>,
    flags: Vec<&'static str>,
}

impl Words {
    /// Held to what the command takes.
    pub fn read(command: &'static Command, words: &[String]) -> Result<Words, Trouble> {
        let mut read = Words {
            command,
            places: Vec::new(),
            values: Vec::new(),
            flags: Vec::new(),
        };
        let mut left = words.iter();
        while let Some(word) = left.next() {
            let Some(option) = word.strip_prefix("--") else {
                read.places.push(word.clone());
                continue;
            };
            let (name, joined) = match option.split_once('=') {
                Some((name, value)) => (name, Some(value.to_string())),
                None => (option, None),
            };
            let known = |names: &[&'static str]| names.iter().copied().find(|known| *known == name);
            if let Some(name) = known(command.values) {
                let value = joined.or_else(|| left.next().cloned());
                let value = value.ok_or_else(|| read.wrong(format!("--{name} needs a value")))?;
                if read.value(name).is_some() {
                    return Err(read.wrong(format!("--{name} is said twice")));
                }
                read.values.push((name, value));
            } else if let (Some(name), None) = (known(command.flags), joined) {
                read.flags.push(name);
            } else {
                return Err(read.wrong(format!("{word} is no option of {}", command.name)));
            }
        }
        let (least, most) = command.places;
        match read.places.len() {
            count if count < least => Err(read.wrong("a word is missing")),
            count if count > most => {
                let word = read.places[most].clone();
                Err(read.wrong(format!("`{word}` is one word too many")))
            }
            _ => Ok(read),
        }
    }

    /// Wrong use, with the command's own usage.
    pub fn wrong(&self, why: impl std::fmt::Display) -> Trouble {
        let Command { name, usage, .. } = self.command;
        Trouble::wrong_use(format!(
            "{why}.\nusage: {usage}\n`mengkiloh help {name}` says more."
        ))
    }

    pub fn value(&self, name: &str) -> Option<&str> {
        let found = self.values.iter().find(|(known, _)| *known == name);
        found.map(|(_, value)| value.as_str())
    }

    pub fn flag(&self, name: &str) -> bool {
        self.flags.contains(&name)
    }

    fn needed(&self, name: &str) -> Result<&str, Trouble> {
        let value = self.value(name);
        value.ok_or_else(|| self.wrong(format!("--{name} is missing")))
    }

    /// A number of 32 bits, whatever it says there.
    pub fn plain(&self, word: &str, what: &str) -> Result<u32, Trouble> {
        let digits = word.bytes().all(|byte| byte.is_ascii_digit());
        let number = word.parse().ok().filter(|_| digits);
        number.ok_or_else(|| self.wrong(format!("{what}: `{word}` is no number")))
    }

    pub fn number(&self, name: &str) -> Result<Option<u32>, Trouble> {
        let value = self.value(name);
        value
            .map(|word| self.plain(word, &format!("--{name}")))
            .transpose()
    }

    pub fn mark(&self) -> Result<Mark, Trouble> {
        self.plain(self.needed("mark")?, "--mark").map(Mark)
    }

    pub fn cell(&self) -> Result<Cell, Trouble> {
        self.plain(self.needed("cell")?, "--cell").map(Cell)
    }

    pub fn facet(&self) -> Result<u32, Trouble> {
        self.plain(self.needed("facet")?, "--facet")
    }

    pub fn needed_day(&self, name: &str) -> Result<Day, Trouble> {
        let word = self.needed(name)?;
        self.read_day(name, word)
    }

    /// The day, where one is said.
    pub fn day(&self) -> Result<Option<Day>, Trouble> {
        let word = self.value("day");
        word.map(|word| self.read_day("day", word)).transpose()
    }

    fn read_day(&self, name: &str, word: &str) -> Result<Day, Trouble> {
        let day = Day::read(word);
        day.ok_or_else(|| {
            self.wrong(format!(
                "--{name}: `{word}` is no day. Say a date as 2026-04-17 (1970-01-01 to 2149-06-06), or a day's number"
            ))
        })
    }
}

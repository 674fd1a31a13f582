//! What a command says, in words and for programs, and how it ended.

use std::fmt::Display;

use mengkiloh::Refusal;

use crate::json::Json;

/// How a command ended, with the program's exit status.
#[derive(Clone, Copy, Debug, PartialEq, Eq)]
pub enum Status {
    Done = 0,
    Refused = 1,
    WrongUse = 2,
    /// Input, output or a damaged file.
    Broken = 3,
}

/// An answer, and behind it the trouble that ended the command, if any did.
#[derive(Debug, Default)]
pub struct Answer {
    pub words: String,
    pub fields: Vec<(&'static str, Json)>,
    pub trouble: Option<Trouble>,
}

/// Why a command was not answered, or not wholly.
#[derive(Debug)]
pub struct Trouble {
    pub status: Status,
    pub words: String,
    pub refusal: Option<Refusal>,
}

impl Answer {
    pub fn new(words: impl Into<String>) -> Answer {
        Answer {
            words: words.into(),
            ..Answer::default()
        }
    }

    pub fn with(mut self, name: &'static str, held: impl Into<Json>) -> Answer {
        self.fields.push((name, held.into()));
        self
    }

    pub fn status(&self) -> Status {
        self.trouble
            .as_ref()
            .map_or(Status::Done, |trouble| trouble.status)
    }

    /// The answer for programs, on one line.
    pub fn json(&self) -> Json {
        let mut fields = vec![("status", Json::Number(self.status() as u64))];
        fields.extend(self.fields.iter().cloned());
        if let Some(trouble) = &self.trouble {
            let number = trouble.refusal.map(|refusal| u32::from(refusal.number()));
            fields.push(("refused", number.into()));
            fields.push(("said", trouble.words.as_str().into()));
        }
        Json::Object(fields)
    }
}

impl From<Trouble> for Answer {
    fn from(trouble: Trouble) -> Answer {
        Answer {
            trouble: Some(trouble),
            ..Answer::default()
        }
    }
}

impl Trouble {
    pub fn wrong_use(words: impl Display) -> Trouble {
        Trouble {
            status: Status::WrongUse,
            words: words.to_string(),
            refusal: None,
        }
    }

    pub fn broken(words: impl Display) -> Trouble {
        Trouble {
            status: Status::Broken,
            words: words.to_string(),
            refusal: None,
        }
    }

    /// Refused by the program itself, as where a file is in use.
    pub fn turned_away(words: impl Display) -> Trouble {
        Trouble {
            status: Status::Refused,
            words: words.to_string(),
            refusal: None,
        }
    }

    /// Refused by the library, with its number and what it means here.
    pub fn refused(refusal: Refusal, meaning: impl Display) -> Trouble {
        Trouble {
            status: Status::Refused,
            words: format!("refused with {}: {meaning}", refusal.number()),
            refusal: Some(refusal),
        }
    }

    /// The same trouble, with where it was met before its words.
    pub fn at(mut self, place: impl Display) -> Trouble {
        self.words = format!("{place}: {}", self.words);
        self
    }
}

impl From<Refusal> for Trouble {
    fn from(refusal: Refusal) -> Trouble {
        Trouble::refused(refusal, refusal.meaning())
    }
}

/// A count with its word: `1 cell`, `2 cells`.
pub fn counted(count: usize, word: &str) -> String {
    format!("{count} {word}{}", if count == 1 { "" } else { "s" })
}

/// Numbers with commas between them.
pub fn listed<T: Display>(list: impl IntoIterator<Item = T>, between: &str) -> String {
    let words: Vec<String> = list.into_iter().map(|item| item.to_string()).collect();
    words.join(between)
}

//! The complaint desk: a map kept safe in a file, for people.
//!
//! The program `mengkiloh` is [`program::run`]; everything that it knows of a map
//! it asks of the proved library, through the wrapper. What is its own:
//!
//! - [`days`]: a day's number, and its date.
//! - [`lines`]: edits as lines of words.
//! - [`map`]: mesh, positions, journal and starting map together.
//! - [`file`](mod@file): the map as the bytes of a file, and what is wrong with other bytes.
//! - [`sum`]: the checksum of a file.
//! - [`disk`]: what is asked of a disk, and how a file is put in the place of another.
//! - [`store`]: a file opened and held against other programs, and saved.
//! - [`ask`]: the questions, and their answers in words and as JSON.
//! - [`change`]: what changes a file: a new one, edits, a fold.
//! - [`plan`]: planned changes, and their check.
//! - [`help`]: the commands, each with its words, its page and an example.
//! - [`words`]: the words of a command.
//! - [`progress`]: how far it is, on anything over a second.
//! - [`program`]: a command run, and the prompt.

pub mod ask;
pub mod change;
pub mod days;
pub mod disk;
pub mod file;
pub mod help;
pub mod json;
pub mod lines;
pub mod map;
pub mod plan;
pub mod program;
pub mod progress;
pub mod said;
pub mod store;
pub mod sum;
pub mod words;

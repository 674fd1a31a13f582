//! A map's file, opened and held against other programs, and saved.
//!
//! One program at a time holds the file, whether it changes it or asks; a program that ends, however
//! it ends, holds nothing any more.

use std::fs::{self, File, OpenOptions, TryLockError};
use std::io::{self, Read};
use std::os::unix::fs::MetadataExt;
use std::path::{Path, PathBuf};
use std::thread;
use std::time::{Duration, Instant};

use crate::disk::{self, System, Unsaved};
use crate::map::Map;
use crate::progress::Progress;
use crate::said::Trouble;

/// Another program may be at its end: so long it is waited for.
const PATIENCE: Duration = Duration::from_millis(500);
const TURN: Duration = Duration::from_millis(20);

/// What a command does with a file.
#[derive(Clone, Copy, Debug, PartialEq, Eq)]
pub enum Access {
    Ask,
    Change,
}

/// A file that is held.
pub struct Store {
    /// As the officer named it.
    name: String,
    path: PathBuf,
    held: File,
}

impl Store {
    /// The file, held, and its map. A damaged file is refused with what is wrong.
    pub fn open(name: &str, access: Access, progress: &Progress) -> Result<(Store, Map), Trouble> {
        let broken = |fault: io::Error| Trouble::broken(format!("{name}: {}", told(&fault)));
        // of a link the file that it leads to
        let path = fs::canonicalize(name).map_err(broken)?;
        if !fs::metadata(&path).map_err(broken)?.is_file() {
            return Err(Trouble::broken(format!("{name} is no file")));
        }
        let mut held = hold(name, &path, access)?;
        let mut bytes = Vec::new();
        progress
            .during("reading the file", || held.read_to_end(&mut bytes))
            .map_err(broken)?;
        let map = Map::from_bytes(&bytes, progress).map_err(|damage| {
            let kept = "Nothing was written to it; take the last good copy of it";
            Trouble::broken(format!("{name} is damaged: {damage}. {kept}."))
        })?;
        let name = name.to_string();
        Ok((Store { name, path, held }, map))
    }

    /// A new file with this map.
    pub fn make(name: &str, map: &Map, progress: &Progress) -> Result<(), Trouble> {
        let bytes = map.to_bytes();
        let made = progress.during("writing the file", || {
            disk::make(&mut System, Path::new(name), &bytes)
        });
        match made {
            Ok(_) => Ok(()),
            Err(Unsaved::Before(fault)) if fault.kind() == io::ErrorKind::AlreadyExists => {
                let what = "Choose another name, or move that file away";
                Err(Trouble::turned_away(format!(
                    "{name} is there already, and is left as it is. {what}."
                )))
            }
            Err(unsaved) => Err(not_saved(name, unsaved, "The file was not made")),
        }
    }

    /// Puts the map in the file; what an earlier program left beside it is cleared away.
    pub fn save(&mut self, map: &Map, progress: &Progress) -> Result<(), Trouble> {
        progress.during("writing the file", || {
            for left in disk::left_beside(&self.path) {
                let _ = fs::remove_file(left);
            }
            let saved = disk::replace(&mut System, &self.path, &map.to_bytes());
            self.held = saved.map_err(|unsaved| {
                not_saved(
                    &self.name,
                    unsaved,
                    "Nothing was made; the file is as it was",
                )
            })?;
            Ok(())
        })
    }

    /// Whether a path leads to the file that is held.
    pub fn is(&self, other: &Path) -> bool {
        fs::canonicalize(other).is_ok_and(|other| other == self.path)
    }

    pub fn name(&self) -> &str {
        &self.name
    }
}

fn not_saved(name: &str, unsaved: Unsaved, before: &str) -> Trouble {
    Trouble::broken(match unsaved {
        Unsaved::Before(fault) => {
            format!("{name} could not be written: {}. {before}.", told(&fault))
        }
        Unsaved::After(fault) => format!(
            "{name} has the change, but its folder could not be synced: {}. \
             Ask `mengkiloh count {name}` before you go on.",
            told(&fault)
        ),
    })
}

/// The file, held. Where another program has put a new one in its place meanwhile, that one.
fn hold(name: &str, path: &Path, access: Access) -> Result<File, Trouble> {
    let broken = |fault: io::Error| Trouble::broken(format!("{name}: {}", told(&fault)));
    let begin = Instant::now();
    loop {
        let file = OpenOptions::new()
            .read(true)
            // a file that may not be written is not replaced either
            .write(access == Access::Change)
            .open(path)
            .map_err(broken)?;
        match file.try_lock() {
            Ok(()) if same(&file, path).map_err(broken)? => return Ok(file),
            Ok(()) => {}
            Err(TryLockError::Error(fault)) => {
                let why = told(&fault);
                let words = format!("{name} cannot be held against other programs: {why}");
                return Err(Trouble::broken(words));
            }
            Err(TryLockError::WouldBlock) if begin.elapsed() > PATIENCE => {
                return Err(Trouble::turned_away(format!(
                    "{name} is in use by another mengkiloh. Nothing was done. \
                     Wait until that one is through, or end its prompt with `quit`, and try again."
                )));
            }
            Err(TryLockError::WouldBlock) => thread::sleep(TURN),
        }
    }
}

/// The file that is open is still the one of this name.
fn same(file: &File, path: &Path) -> io::Result<bool> {
    let (open, named) = (file.metadata()?, fs::metadata(path)?);
    Ok((open.dev(), open.ino()) == (named.dev(), named.ino()))
}

/// A system's fault in words, without its number.
pub fn told(fault: &io::Error) -> String {
    let words = fault.to_string();
    match words.find(" (os error") {
        Some(end) => words[..end].to_lowercase(),
        None => words,
    }
}

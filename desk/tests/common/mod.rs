//! What the runs share: a folder of their own, the program called, and small maps.
#![allow(dead_code)] // each run uses a part

use std::fs;
use std::io::Write;
use std::path::{Path, PathBuf};
use std::process::{Command, Output, Stdio};
use std::sync::atomic::{AtomicU32, Ordering};

pub const PROGRAM: &str = env!("CARGO_BIN_EXE_mengkiloh");

/// The root of the repository.
pub fn root() -> PathBuf {
    Path::new(env!("CARGO_MANIFEST_DIR")).join("..")
}

/// A folder that goes when it is no longer used.
pub struct Folder(pub PathBuf);

impl Folder {
    pub fn new() -> Folder {
        static COUNT: AtomicU32 = AtomicU32::new(0);
        let count = COUNT.fetch_add(1, Ordering::Relaxed);
        let name = format!("mengkiloh-{}-{count}", std::process::id());
        let path = std::env::temp_dir().join(name);
        fs::create_dir(&path).expect("a folder for the run");
        Folder(path)
    }

    pub fn file(&self, name: &str) -> String {
        let path = self.0.join(name);
        path.to_str().expect("a plain name").to_string()
    }

    /// The names of its files.
    pub fn names(&self) -> Vec<String> {
        let entries = fs::read_dir(&self.0).expect("the folder");
        let names = entries.map(|entry| entry.expect("a file").file_name());
        let mut names: Vec<String> = names
            .map(|name| name.into_string().expect("plain"))
            .collect();
        names.sort();
        names
    }
}

impl Drop for Folder {
    fn drop(&mut self) {
        let _ = fs::remove_dir_all(&self.0);
    }
}

/// How the program ended, and what it wrote.
#[derive(Debug, PartialEq, Eq)]
pub struct Ran {
    pub status: Option<i32>,
    pub out: String,
    pub err: String,
}

impl From<Output> for Ran {
    fn from(output: Output) -> Ran {
        Ran {
            status: output.status.code(),
            out: String::from_utf8(output.stdout).expect("text"),
            err: String::from_utf8(output.stderr).expect("text"),
        }
    }
}

/// The program, called with these words.
pub fn ran(words: &[&str]) -> Ran {
    fed(words, "")
}

/// The same, with this for standard input.
pub fn fed(words: &[&str], input: &str) -> Ran {
    fed_to(Command::new(PROGRAM).args(words), input)
}

pub fn fed_to(command: &mut Command, input: &str) -> Ran {
    let mut child = command
        .stdin(Stdio::piped())
        .stdout(Stdio::piped())
        .stderr(Stdio::piped())
        .spawn()
        .expect("the program");
    let mut to = child.stdin.take().expect("its input");
    // a program that reads nothing may have ended before
    let _ = to.write_all(input.as_bytes());
    drop(to);
    child.wait_with_output().expect("its end").into()
}

/// The program, called and ended with 0; what it wrote.
pub fn done(words: &[&str]) -> String {
    done_with(words, "")
}

pub fn done_with(words: &[&str], input: &str) -> String {
    let ran = fed(words, input);
    assert_eq!(ran.status, Some(0), "{words:?}: {ran:?}");
    ran.out
}

/// A small map in a file: two triangles and a bar of two days.
pub fn small(file: &str) {
    done(&["new", file, "--marks", "6", "--cells", "4"]);
    let first = "insert 0 triangle 0 1 2 licence 7\ninsert 1 triangle 2 1 3 licence 9\n";
    done_with(&["edit", file, "--day", "100"], first);
    done_with(
        &["edit", file, "--day", "130"],
        "insert 2 bar 1 4 licence 7\n",
    );
}

pub fn bytes(file: &str) -> Vec<u8> {
    fs::read(file).expect("the file")
}

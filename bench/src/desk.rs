//! The complaint desk: its commands from start to end, as an officer waits for them, and
//! what an edit costs on this disk by either way of keeping it: the file written beside,
//! synced and renamed, or an edit appended to a log and synced. Milliseconds on the clock
//! and of the processor, the middle of several rounds.

use crate::clock::of_others;
use crate::maps::{triangles, Body, Chance, Map};
use std::fs::{self, File, OpenOptions};
use std::io::{BufRead, BufReader, Write};
use std::path::{Path, PathBuf};
use std::process::{Command, Stdio};
use std::time::Instant;

const ROUNDS: usize = 5;
/// Cells, and edits in the journal.
const SIZES: [usize; 2] = [1_000, 50_000];
const A_LIST: usize = 10_000;

/// The bytes of an edit in a journal.
const EDIT_BYTES: usize = 64;

/// A folder on this disk, and not in memory.
fn folder() -> PathBuf {
    let made = Path::new(env!("CARGO_MANIFEST_DIR")).join("../target/bench-desk");
    let _ = fs::remove_dir_all(&made);
    fs::create_dir_all(&made).expect("a folder");
    made
}

pub fn run() {
    println!(
        "the complaint desk on {}: milliseconds on the clock, and of the processor",
        std::env::consts::ARCH
    );
    println!("{:<44}{:>18}{:>18}", "cells and edits", SIZES[0], SIZES[1]);
    let columns = SIZES.map(measured);
    for (at, (name, _)) in columns[0].iter().enumerate() {
        print!("{name:<44}");
        for column in &columns {
            let Times { clock, processor } = column[at].1;
            print!("{clock:>9.1}{processor:>9.1}");
        }
        println!();
    }
}

/// Milliseconds.
#[derive(Clone, Copy)]
struct Times {
    clock: f64,
    /// Of programs that were started and ended.
    processor: f64,
}

/// The middle of the times of several rounds, what comes before each aside.
fn middle_after(mut before: impl FnMut(), mut round: impl FnMut()) -> Times {
    let times = [(); ROUNDS].map(|()| {
        before();
        let (begin, worked) = (Instant::now(), of_others());
        round();
        [begin.elapsed().as_secs_f64() * 1e3, of_others() - worked]
    });
    let [clock, processor] = [0, 1].map(|which| {
        let mut times = times.map(|times| times[which]);
        times.sort_by(f64::total_cmp);
        times[ROUNDS / 2]
    });
    Times { clock, processor }
}

fn middle(round: impl FnMut()) -> Times {
    middle_after(|| {}, round)
}

fn measured(size: usize) -> Vec<(&'static str, Times)> {
    let folder = folder();
    let file = |name: &str| {
        folder
            .join(name)
            .to_str()
            .expect("a plain name")
            .to_string()
    };
    let beside = std::env::current_exe().expect("this program");
    let program = beside.with_file_name("mengkiloh");
    let call = |words: &[&str]| {
        let ended = Command::new(&program)
            .args(words)
            .stdout(Stdio::null())
            .status();
        assert!(ended.expect("the desk").success(), "{words:?}");
    };
    let map = triangles(size);
    let (surface, kept) = (file("surface.off"), file("map"));
    fs::write(&surface, off(&map)).expect("a file");
    let mut rows = Vec::new();
    let made = middle(|| {
        let _ = fs::remove_file(&kept);
        call(&["new", &kept, "--from", &surface]);
    });

    let mut lists = Lists::new(&map);
    let edits = file("edits");
    let mut entered = 0;
    for day in 1..=5 {
        fs::write(&edits, lists.next(size / 5)).expect("a file");
        call(&["edit", &kept, "--day", &day.to_string(), &edits]);
        entered += size / 5;
    }
    assert_eq!(entered, size);
    let megabytes = fs::metadata(&kept).expect("the file").len() as f64 / 1e6;
    let size_told = Times {
        clock: megabytes,
        processor: 0.0,
    };
    rows.push(("the file, megabytes", size_told));
    rows.push(("new, from OFF text", made));
    let mark = (map.marks / 2).to_string();
    for (name, day) in [
        ("a complaint on the last day", "5"),
        ("a complaint before the first edit", "0"),
    ] {
        rows.push((
            name,
            middle(|| call(&["complaint", &kept, "--mark", &mark, "--day", day])),
        ));
    }
    rows.push((
        "the same at a prompt, on the last day",
        prompted(&program, &kept, &mark),
    ));
    rows.push(("check", middle(|| call(&["check", &kept]))));
    fs::write(&edits, lists.next(1)).expect("a file");
    rows.push((
        "one edit, tried and not written",
        middle(|| call(&["edit", &kept, "--day", "6", "--dry-run", &edits])),
    ));
    let before = fs::read(&kept).expect("the file");
    let again = || fs::write(&kept, &before).expect("the file");
    let edit = || call(&["edit", &kept, "--day", "6", &edits]);
    rows.push(("one edit", middle_after(again, edit)));
    let list = lists.next(A_LIST);
    let first = fs::read_to_string(&edits).expect("the edit");
    fs::write(&edits, first + &list).expect("a file");
    rows.push(("10,001 edits of a file", middle_after(again, edit)));

    // the two ways by themselves
    let bytes = fs::read(&kept).expect("the file");
    rows.push((
        "kept by: written beside, synced, renamed",
        middle(|| {
            let part = file("part");
            let mut to = File::create(&part).expect("a file");
            to.write_all(&bytes).expect("room");
            to.sync_all().expect("a sync");
            fs::rename(&part, file("copy")).expect("a name");
            File::open(&folder)
                .and_then(|folder| folder.sync_all())
                .expect("a sync");
        }),
    ));
    let mut log = OpenOptions::new()
        .create(true)
        .append(true)
        .open(file("log"))
        .expect("a file");
    rows.push((
        "kept by: appended to a log, synced",
        middle(|| {
            log.write_all(&[7; EDIT_BYTES]).expect("room");
            log.sync_all().expect("a sync");
        }),
    ));
    let _ = fs::remove_dir_all(&folder);
    rows
}

/// A complaint at a prompt that holds the file.
fn prompted(program: &Path, file: &str, mark: &str) -> Times {
    let mut child = Command::new(program)
        .args(["desk", file, "--json"])
        .stdin(Stdio::piped())
        .stdout(Stdio::piped())
        .spawn()
        .expect("the desk");
    let mut input = child.stdin.take().expect("its input");
    let mut out = BufReader::new(child.stdout.take().expect("its output"));
    let mut ask = || {
        writeln!(input, "complaint --mark {mark} --day 5").expect("a question");
        let mut line = String::new();
        out.read_line(&mut line).expect("an answer");
        assert!(line.starts_with("{\"status\": 0"), "{line}");
    };
    ask();
    let time = middle(&mut ask);
    drop(input);
    child.wait().expect("its end");
    time
}

fn off(map: &Map) -> String {
    let mut text = format!("OFF\n{} {} 0\n", map.marks, map.cells.len());
    text += &"0 0 0\n".repeat(map.marks as usize);
    for Body { marks, .. } in &map.cells {
        let list: Vec<String> = marks.iter().map(|mark| mark.to_string()).collect();
        text += &format!("{} {}\n", list.len(), list.join(" "));
    }
    text
}

/// Removals and insertions mixed at random, as lines; the cells are all live before.
struct Lists<'a> {
    map: &'a Map,
    chance: Chance,
    live: Vec<u32>,
    gone: Vec<u32>,
}

impl Lists<'_> {
    fn new(map: &Map) -> Lists<'_> {
        Lists {
            map,
            chance: Chance::new(26),
            live: (0..map.cells.len() as u32).collect(),
            gone: Vec::new(),
        }
    }

    fn next(&mut self, count: usize) -> String {
        let mut text = String::new();
        let mut made = 0;
        while made < count {
            let comes = self.chance.below(2) == 0;
            let (from, to) = match comes {
                true => (&mut self.gone, &mut self.live),
                false => (&mut self.live, &mut self.gone),
            };
            if from.is_empty() {
                continue;
            }
            let cell = from.swap_remove(self.chance.below(from.len()));
            to.push(cell);
            made += 1;
            let Body { marks, .. } = &self.map.cells[cell as usize];
            text += &match comes {
                true => {
                    let list: Vec<String> = marks.iter().map(|mark| mark.to_string()).collect();
                    format!(
                        "insert {cell} triangle {} licence {}\n",
                        list.join(" "),
                        3_000 + cell % 500
                    )
                }
                false => format!("remove {cell}\n"),
            };
        }
        text
    }
}

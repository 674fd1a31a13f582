//! Writes a stream of frames for the frame program, made from a seed: good
//! ones, refused ones and malformed ones.
//!
//! The map is drawn in phases, each with a map of its own kind: few marks and
//! many cells (edges with many sharers, sheets that touch in a mark), solids,
//! bars, all of them mixed; cubes and what they are cut into; a mark with its 128th and 129th cell; a map of 384
//! cells and one more; a cell that comes and goes until the journal is full. Cells are removed and come back throughout. Days
//! mostly stay or go on, and are now and then before the last.

mod frames;

use frames::{malformed, Frame};
use std::io::{self, BufWriter, Write};
use std::process::ExitCode;
use streams::chance::Chance;
use streams::lattice;

const USAGE: &str = "usage: streams SEED FRAMES [small | grid]";
const MOST: u32 = 384;
const LAST_DAY: u32 = 65_535;
const LONG_LINE: usize = 1 << 20;

/// A map that the frames of one phase are about.
struct Phase {
    marks: u32,
    cells: u32,
    /// Marks are mostly drawn below this.
    pool: u32,
    codes: &'static [u8],
    /// The part of inserts among the edits, of 16.
    inserts: u32,
    frames: u32,
    /// Cells are mostly drawn from so many cubes on a side, if any.
    side: u32,
}

/// The day of the edits, as it goes on.
struct Day {
    now: u32,
}

impl Day {
    fn draw(&mut self, chance: &mut Chance) -> u32 {
        match chance.below(400) {
            0..=19 => chance.below(self.now + 1),
            20 => {
                self.now = self.now.max(chance.below(LAST_DAY + 1));
                self.now
            }
            21..=60 => {
                self.now = (self.now + 1 + chance.below(9)).min(LAST_DAY);
                self.now
            }
            _ => self.now,
        }
    }
}

fn main() -> ExitCode {
    let words: Vec<String> = std::env::args().skip(1).collect();
    let numbers: Vec<u64> = words.iter().map_while(|word| word.parse().ok()).collect();
    let mut out = BufWriter::new(io::stdout().lock());
    let done = match (numbers.as_slice(), words.get(2).map(String::as_str)) {
        (&[seed, count], None) => stream(seed, count, false, &mut out),
        (&[seed, count], Some("small")) => stream(seed, count, true, &mut out),
        (&[seed, count], Some("grid")) => grid(seed, count, &mut out),
        _ => {
            eprintln!("{USAGE}");
            return ExitCode::from(2);
        }
    };
    match done {
        Ok(()) => ExitCode::SUCCESS,
        Err(fault) => {
            eprintln!("streams: {fault}");
            ExitCode::FAILURE
        }
    }
}

/// `small` leaves out what is slow on purpose: full marks, full maps and lines
/// of a megabyte.
fn stream(seed: u64, count: u64, small: bool, out: &mut impl Write) -> io::Result<()> {
    let mut chance = Chance::from_seed(seed);
    let mut left = count;
    while left > 0 {
        let kind = if small {
            chance.below(6)
        } else {
            chance.below(12)
        };
        let phase = draw_phase(&mut chance, kind);
        let mut day = Day {
            now: chance.below(1000),
        };
        left -= 1;
        writeln!(out, "{}", format_frame(&mut chance, &phase))?;
        for turn in 0..u64::from(phase.frames).min(left) {
            let line = draw_line(&mut chance, &phase, kind, turn as u32, &mut day);
            out.write_all(&line)?;
            out.write_all(b"\n")?;
        }
        left -= u64::from(phase.frames).min(left);
    }
    if !small {
        long_lines(&mut chance, out)?;
    }
    if chance.one_in(2) {
        out.write_all(b"5002")?;
    }
    out.flush()
}

/// A sheet of triangles, six at most around a mark: each comes and goes, and is
/// asked about.
fn grid(seed: u64, count: u64, out: &mut impl Write) -> io::Result<()> {
    const WIDE: u32 = 16;
    const HIGH: u32 = 12;
    const GRID_FORMAT: u64 = 4000;
    let mut chance = Chance::from_seed(seed);
    let (marks, cells) = ((WIDE + 1) * (HIGH + 1), 2 * WIDE * HIGH);
    let mut day = Day { now: 0 };
    for turn in 0..count {
        // the journal is full now and then, and begun again
        if turn % GRID_FORMAT == 0 {
            writeln!(out, "{}", Frame::Format { marks, cells }.digits())?;
            day.now = 0;
            continue;
        }
        let cell = chance.below(cells);
        let mark = chance.below(marks);
        let frame = match chance.below(10) {
            0 | 1 => Frame::Remove {
                day: day.draw(&mut chance),
                cell,
            },
            2..=4 => Frame::Insert {
                day: day.draw(&mut chance),
                cell,
                code: 2,
                marks: grid_triangle(cell, WIDE),
            },
            5 | 6 => Frame::Star { dimension: 2, mark },
            7 => Frame::Anchors { dimension: 2, mark },
            _ => Frame::Sibling {
                cell,
                facet: chance.below(3) as u8,
            },
        };
        writeln!(out, "{}", frame.digits())?;
    }
    out.flush()
}

/// The triangles of a grid of squares, each cut in two.
fn grid_triangle(cell: u32, wide: u32) -> Vec<u32> {
    let (square, half) = (cell / 2, cell % 2);
    let corner = square / wide * (wide + 1) + square % wide;
    let [a, b] = [corner, corner + 1];
    let [c, d] = [a + wide + 1, b + wide + 1];
    if half == 0 {
        vec![a, b, c]
    } else {
        vec![b, d, c]
    }
}

fn draw_phase(chance: &mut Chance, kind: u32) -> Phase {
    const ALL: &[u8] = &[1, 2, 3, 4, 5, 6, 7];
    const SOLIDS: &[u8] = &[4, 5, 6, 7];
    let phase = |marks, cells, pool, codes, inserts, frames| Phase {
        marks,
        cells,
        pool,
        codes,
        inserts,
        frames,
        side: 0,
    };
    let cubes = |marks, cells, frames| Phase {
        side: lattice::side(marks),
        ..phase(marks, cells, marks, ALL, 10, frames)
    };
    match kind {
        0 => phase(6, 12, 6, &[2], 11, 300),
        1 => phase(9, 30, 9, &[2, 3], 10, 500),
        2 => phase(10, 20, 10, SOLIDS, 10, 400),
        3 => phase(12, 40, 10, ALL, 10, 900),
        4 => phase(40, 60, 40, ALL, 12, 600),
        5 => cubes(28, 40, 600),
        6 => phase(MOST, MOST, 200, &[1], 16, 170),
        7 => phase(MOST, MOST, 30, ALL, 15, 1500),
        8 => phase(MOST, MOST, MOST, ALL, 14, 2500),
        9 => cubes(MOST, MOST, 2500),
        10 => phase(2, 2, 2, &[1], 8, 1200),
        _ => phase(chance.below(5), chance.below(5), 4, ALL, 8, 60),
    }
}

/// Now and then a format that is refused.
fn format_frame(chance: &mut Chance, phase: &Phase) -> String {
    let (marks, cells) = match chance.below(40) {
        0 => (MOST + 1, phase.cells),
        1 => (phase.marks, MOST + 1),
        2 => (65_535, 65_535),
        _ => (phase.marks, phase.cells),
    };
    Frame::Format { marks, cells }.digits()
}

fn draw_line(chance: &mut Chance, phase: &Phase, kind: u32, turn: u32, day: &mut Day) -> Vec<u8> {
    if kind == 6 && turn < 150 {
        return full_mark(chance, turn, day);
    }
    if kind == 10 && turn < 1100 {
        return come_and_go(turn, day);
    }
    let frame = match chance.below(100) {
        0..=49 => draw_edit(chance, phase, day),
        50..=64 => Frame::Star {
            dimension: draw_dimension(chance),
            mark: draw_mark(chance, phase),
        },
        65..=79 => Frame::Anchors {
            dimension: draw_dimension(chance),
            mark: draw_mark(chance, phase),
        },
        80..=94 => Frame::Sibling {
            cell: draw_cell(chance, phase),
            facet: draw_facet(chance),
        },
        _ => {
            let good = draw_edit(chance, phase, day).digits();
            return malformed(chance, good.into_bytes());
        }
    };
    frame.digits().into_bytes()
}

/// Bars from mark 0 to each other mark: the 128th is the last that fits.
fn full_mark(chance: &mut Chance, turn: u32, day: &mut Day) -> Vec<u8> {
    let frame = if chance.one_in(8) {
        Frame::Anchors {
            dimension: 1,
            mark: 0,
        }
    } else {
        Frame::Insert {
            day: day.now,
            cell: turn,
            code: 1,
            marks: vec![0, turn + 1],
        }
    };
    frame.digits().into_bytes()
}

/// A bar inserted and removed, turn by turn: the journal's 1,000th edit is the last that fits.
fn come_and_go(turn: u32, day: &mut Day) -> Vec<u8> {
    if turn.is_multiple_of(50) {
        day.now += 1;
    }
    let (day, cell) = (day.now, 0);
    let frame = if turn.is_multiple_of(2) {
        Frame::Insert {
            day,
            cell,
            code: 1,
            marks: vec![0, 1],
        }
    } else {
        Frame::Remove { day, cell }
    };
    frame.digits().into_bytes()
}

fn draw_edit(chance: &mut Chance, phase: &Phase, day: &mut Day) -> Frame {
    let day = day.draw(chance);
    let cell = draw_cell(chance, phase);
    if chance.below(16) >= phase.inserts {
        return Frame::Remove { day, cell };
    }
    if phase.side > 0 && !chance.one_in(8) {
        let (code, marks) = lattice::draw(chance, phase.side);
        let code = code as u8;
        return Frame::Insert {
            day,
            cell,
            code,
            marks,
        };
    }
    let code = match chance.below(60) {
        0 => chance.below(256) as u8,
        _ => phase.codes[chance.below(phase.codes.len() as u32) as usize],
    };
    let right = [0, 2, 3, 4, 4, 5, 6, 8].get(usize::from(code)).copied();
    let count = match chance.below(40) {
        0 => chance.below(14),
        _ => right.unwrap_or(3),
    };
    let mut marks: Vec<u32> = Vec::new();
    while (marks.len() as u32) < count {
        let mark = draw_mark(chance, phase);
        if !marks.contains(&mark) || chance.one_in(20) {
            marks.push(mark);
        }
    }
    Frame::Insert {
        day,
        cell,
        code,
        marks,
    }
}

fn draw_mark(chance: &mut Chance, phase: &Phase) -> u32 {
    match chance.below(60) {
        0 => phase.marks,
        1 => chance.below(65_536),
        _ => chance.below(phase.pool.max(1)),
    }
}

fn draw_cell(chance: &mut Chance, phase: &Phase) -> u32 {
    match chance.below(60) {
        0 => phase.cells,
        1 => chance.below(65_536),
        _ => chance.below(phase.cells.max(1)),
    }
}

fn draw_dimension(chance: &mut Chance) -> u8 {
    match chance.below(30) {
        0 => 0,
        1 => 4,
        2 => chance.below(256) as u8,
        _ => 1 + chance.below(3) as u8,
    }
}

fn draw_facet(chance: &mut Chance) -> u8 {
    match chance.below(30) {
        0 => chance.below(256) as u8,
        _ => chance.below(7) as u8,
    }
}

/// A line of a megabyte of digits, one of other characters, and a good frame
/// behind them.
fn long_lines(chance: &mut Chance, out: &mut impl Write) -> io::Result<()> {
    for character in [b'0', b'z', chance.below(10) as u8 + b'0'] {
        out.write_all(&vec![character; LONG_LINE])?;
        out.write_all(b"\n50020000\n")?;
    }
    Ok(())
}

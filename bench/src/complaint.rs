//! A complaint: the licences to ask on a map of 50,000 triangles with 50,000 edits in
//! its journal, beside that day's map written into second memory, which a complaint
//! makes first; and the list alone, at marks of one cell and of 128. Processor time,
//! the best of several rounds.

use crate::clock::{best, busy};
use crate::journal::{mixed, A_DAY};
use crate::maps::{triangles, Body, Map};
use mengkiloh::{journal_words, room, Cell, Journal, Licence, Mark, Mesh, Records, Type};
use std::hint::black_box;

const ROUNDS: usize = 5;
const CELLS: usize = 50_000;
const EDITS: usize = 50_000;
/// Cells of one licence.
const A_LICENCE: u32 = 10;
/// Calls for the list alone.
const CALLS: usize = 1_000;
const MOST_AROUND: u32 = 128;

type Kept = Journal<Vec<u32>, Vec<u32>>;

pub fn run() {
    let map = triangles(CELLS);
    let (journal, mut second) = kept(&map);
    println!(
        "a complaint, {} and {EDITS} edits on {}",
        map.name,
        std::env::consts::ARCH
    );
    println!("{:<36}{:>14}{:>14}", "", "complaint, us", "the map, us");
    let last = EDITS.div_ceil(A_DAY) as u32;
    for (name, day) in [
        ("for the day before the first edit", 0),
        ("for the middle day", last / 2),
        ("for the last day", last),
    ] {
        let mark = map.body(Cell(CELLS as u32 / 2)).marks[0];
        let mut figures = [f64::INFINITY; 2];
        for _ in 0..ROUNDS {
            let whole = busy(|| {
                let named = journal.licences(black_box(day), mark, &mut second);
                assert!(!black_box(named).expect("no fold").is_empty());
            });
            let made = busy(|| journal.on(black_box(day), &mut second).expect("no fold"));
            best(&mut figures, [whole, made]);
        }
        let [whole, made] = figures.map(|figure| figure / 1_000.0);
        println!("{name:<36}{whole:>14.0}{made:>14.0}");
    }
    println!("{:<36}{:>14}", "", "the list, ns");
    for (name, mark, licences) in [
        ("at a mark of 1 cell", 1, MOST_AROUND),
        ("at a mark of 128 cells, 1 licence", 0, 1),
        ("at a mark of 128 cells, 128 licences", 0, MOST_AROUND),
    ] {
        println!("{name:<36}{:>14.0}", list_alone(Mark(mark), licences));
    }
}

/// The journal of the map and its edits, and second memory.
fn kept(map: &Map) -> (Kept, Mesh<Vec<u32>>) {
    let cells = map.cells.len() as u32;
    let exact = room(map.marks, cells);
    let licence = |cell: Cell| Licence(1 + cell.0 / A_LICENCE);
    let mut records = Records::new();
    for (cell, Body { code, marks }) in map.numbered() {
        records.add(cell, *code, licence(cell), marks);
    }
    let mut mesh = Mesh::over(vec![0; exact]);
    mesh.build(map.marks, cells, &records)
        .expect("the map is sound");
    let mut journal = Journal::over(vec![0; journal_words(EDITS)], vec![0; exact]);
    journal.begin(&mesh).expect("the room fits");
    for (k, (cell, comes)) in mixed(map, EDITS).into_iter().enumerate() {
        let Body { code, marks } = map.body(cell);
        let day = 1 + (k / A_DAY) as u32;
        let answer = match comes {
            true => journal.insert(&mut mesh, day, cell, *code, licence(cell), marks),
            false => journal.remove(&mut mesh, day, cell),
        };
        answer.expect("the edit is accepted");
    }
    (journal, Mesh::over(vec![1; exact]))
}

/// Nanoseconds of a complaint less those of its day's map, on a small map: 128 bars
/// from mark 0, of so many licences.
fn list_alone(mark: Mark, licences: u32) -> f64 {
    let exact = room(MOST_AROUND + 1, MOST_AROUND);
    let mut mesh = Mesh::with_room(MOST_AROUND + 1, MOST_AROUND).expect("memory of its own");
    for cell in 0..MOST_AROUND {
        let licence = Licence(1 + (MOST_AROUND - cell) % licences);
        mesh.insert_licensed(Cell(cell), Type::Bar, licence, &[0, 1 + cell].map(Mark))
            .expect("the bars are sound");
    }
    let mut journal: Kept = Journal::over(vec![0; journal_words(0)], vec![0; exact]);
    journal.begin(&mesh).expect("the room fits");
    let mut out = [Licence(0); MOST_AROUND as usize];
    let mut figures = [f64::INFINITY; 2];
    for _ in 0..ROUNDS {
        let whole = busy(|| {
            for _ in 0..CALLS {
                let named = journal.licences_into(black_box(0), mark, &mut mesh, &mut out);
                black_box(named).expect("no fold");
            }
        });
        let made = busy(|| {
            for _ in 0..CALLS {
                journal.on(black_box(0), &mut mesh).expect("no fold");
            }
        });
        best(&mut figures, [whole, made]);
    }
    (figures[0] - figures[1]) / CALLS as f64
}

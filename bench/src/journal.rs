//! The map on any day: a query after 1,000 and after 50,000 edits, and what it
//! costs a replayed edit beside a plain one. Processor time, the best of several
//! rounds.

use crate::clock::{best, busy};
use crate::maps::{triangles, Body, Chance, Map};
use mengkiloh::{journal_words, room, Cell, Journal, Licence, Mesh};
use std::hint::black_box;

const ROUNDS: usize = 5;
const CELLS: usize = 10_000;
const EDITS: [usize; 2] = [1_000, 50_000];
/// Edits a day.
pub const A_DAY: usize = 300;

/// Nanoseconds: a plain edit, an entry, a query for the day before the first edit,
/// one for the last day, the whole check of the journal.
type Figures = [f64; 5];

pub fn run() {
    let map = triangles(CELLS);
    println!(
        "the map on a day, {} on {}",
        map.name,
        std::env::consts::ARCH
    );
    println!("{:<36}{:>14}{:>14}", "edits", EDITS[0], EDITS[1]);
    let figures = EDITS.map(|edits| measured(&map, edits));
    let row = |name: &str, figure: &dyn Fn(&Figures, f64) -> f64| {
        print!("{name:<36}");
        for (figures, edits) in figures.iter().zip(EDITS) {
            print!("{:>14.0}", figure(figures, edits as f64));
        }
        println!();
    };
    row("a query for the last day, us", &|of, _| of[3] / 1_000.0);
    row("  before the first edit, us", &|of, _| of[2] / 1_000.0);
    row("  the rest, ns a replayed edit", &|of, n| {
        (of[3] - of[2]) / n
    });
    row("a plain edit, ns", &|of, n| of[0] / n);
    row("an entry, ns", &|of, n| of[1] / n);
    row("whole check of the journal, us", &|of, _| of[4] / 1_000.0);
}

fn measured(map: &Map, edits: usize) -> Figures {
    let cells = map.cells.len() as u32;
    let exact = room(map.marks, cells);
    let list = mixed(map, edits);
    let mut figures = [f64::INFINITY; 5];
    for _ in 0..ROUNDS {
        let mut plain = Mesh::over(vec![0; exact]);
        plain
            .build(map.marks, cells, &map.records())
            .expect("the map is sound");
        let mut mesh = plain.clone();
        let mut journal = Journal::over(vec![0; journal_words(edits)], vec![0; exact]);
        journal.begin(&mesh).expect("the room fits");
        let edited = busy(|| {
            for &(cell, comes) in &list {
                let Body { code, marks } = map.body(cell);
                let answer = match comes {
                    true => plain.insert(cell, *code, marks),
                    false => plain.remove(cell),
                };
                answer.expect("the edit is accepted");
            }
        });
        let entered = busy(|| {
            for (k, &(cell, comes)) in list.iter().enumerate() {
                let Body { code, marks } = map.body(cell);
                let day = 1 + (k / A_DAY) as u32;
                let answer = match comes {
                    true => journal.insert(&mut mesh, day, cell, *code, Licence(0), marks),
                    false => journal.remove(&mut mesh, day, cell),
                };
                answer.expect("the edit is accepted");
            }
        });
        let mut second = Mesh::over(vec![1; exact]);
        let first = busy(|| journal.on(black_box(0), &mut second).expect("no fold"));
        let last = busy(|| journal.on(black_box(65_535), &mut second).expect("no fold"));
        assert!(second.words() == mesh.words() && mesh.words() == plain.words());
        let whole = busy(|| assert!(black_box(&journal).whole()));
        best(&mut figures, [edited, entered, first, last, whole]);
    }
    figures
}

/// Removals and insertions mixed at random; the cells are all live before.
pub fn mixed(map: &Map, edits: usize) -> Vec<(Cell, bool)> {
    let mut chance = Chance::new(9);
    let mut live: Vec<u32> = (0..map.cells.len() as u32).collect();
    let mut gone = Vec::new();
    let mut list = Vec::with_capacity(edits);
    while list.len() < edits {
        let comes = chance.below(2) == 0;
        let (from, to) = match comes {
            true => (&mut gone, &mut live),
            false => (&mut live, &mut gone),
        };
        if from.is_empty() {
            continue;
        }
        let cell: u32 = from.swap_remove(chance.below(from.len()));
        to.push(cell);
        list.push((Cell(cell), comes));
    }
    list
}

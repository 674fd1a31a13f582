//! Request 12: a plan for a list of wanted cells, and its check, beside plain Rust with
//! a std hash map of cells and, to try the edits on, one of facet sets. The wanted list
//! is in no order. Processor time, the best of several rounds, both in turn; what the
//! hash maps have copied is freed outside the timing.

use crate::clock::{best, busy};
use crate::facet_sets::FacetSets;
use crate::maps::{grid, mixed, Body, Map};
use mengkiloh::{room, Edits, Licence, Mesh, Records};
use std::collections::HashMap;
use std::hint::black_box;

const ROUNDS: usize = 9;
const SMALL: usize = 1_000;
const LARGE: usize = 20_000;

/// How many of a hundred wanted cells do not stand so: none, some, all.
const NIGHTS: [u32; 4] = [0, 1, 10, 100];

const STANDS: Licence = Licence(1);
const WANTED: Licence = Licence(2);

/// A map of any size, and its name.
type Named = (&'static str, fn(usize) -> Map);

/// Ours and theirs, of a plan and of its check.
type Figures = [f64; 4];

pub fn run() {
    println!(
        "plans and their checks, {LARGE} wanted cells on {}",
        std::env::consts::ARCH
    );
    println!("milliseconds; growth is our time a wanted cell, over that at {SMALL}");
    println!(
        "{:<36}{:>9}{:>9}{:>9}{:>9}{:>9}{:>9}{:>9}{:>9}",
        "", "plan", "hash map", "ratio", "growth", "check", "hash map", "ratio", "growth"
    );
    let maps: [Named; 3] = [
        ("grid", grid),
        ("grid, shuffled", |cells| grid(cells).shuffled()),
        ("mixed", mixed),
    ];
    for (name, map) in maps {
        for night in NIGHTS {
            let small = measured(&map(SMALL), night);
            let figures = measured(&map(LARGE), night);
            print!("{:<36}", format!("{name}, {night} in a hundred changed"));
            for at in [0, 2] {
                let [ours, theirs] = [figures[at], figures[at + 1]];
                let grown = ours / LARGE as f64 / (small[at] / SMALL as f64);
                print!("{:>9.3}{:>9.3}", ours / 1e6, theirs / 1e6);
                print!("{:>9.2}{grown:>9.2}", ours / theirs);
            }
            println!();
        }
    }
}

fn measured(map: &Map, night: u32) -> Figures {
    let cells = map.cells.len() as u32;
    let mut today = Mesh::over(vec![0; room(map.marks, cells)]);
    let stands = records(map, 0);
    today
        .build(map.marks, cells, &stands)
        .expect("the map is sound");
    let plain = Plain::of(stands.words(), map.cells.len());
    let wanted = records(map, night);
    let mut out = vec![0; 2 * map.cells.len() + 2 * wanted.words().len()];
    let mut their_plan = Vec::with_capacity(out.len());
    let mut second = Mesh::over(vec![1; today.words().len()]);
    let mut figures = [f64::INFINITY; 4];
    for _ in 0..ROUNDS {
        let mut count = 0;
        let planned = busy(|| {
            count = today
                .plan_into(black_box(&wanted), &mut out)
                .expect("it fits");
        });
        let their_planned = busy(|| plain.plan(black_box(wanted.words()), &mut their_plan));
        assert!(out[..count] == their_plan);
        let plan = Edits::from(out[..count].to_vec());
        let checked = busy(|| {
            today
                .check_plan(black_box(&plan), &wanted, &mut second)
                .expect("it passes");
        });
        let mut then = None;
        let their_checked = busy(|| then = plain.check(black_box(plan.words()), wanted.words()));
        assert!(then.is_some());
        best(
            &mut figures,
            [planned, their_planned, checked, their_checked],
        );
    }
    figures
}

/// The cells in no order, so many of a hundred of them with another licence.
fn records(map: &Map, night: u32) -> Records {
    let mut records = Records::new();
    for cell in map.some_cells(map.cells.len()) {
        let Body { code, marks } = map.body(cell);
        let licence = match cell.0 % 100 < night {
            true => WANTED,
            false => STANDS,
        };
        records.add(cell, *code, licence, marks);
    }
    records
}

/// How many marks each type has.
const MARKS: [usize; 8] = [0, 2, 3, 4, 4, 5, 6, 8];

/// A cell behind its number: type, licence and marks, the rest filled up.
type Cell = [u32; 10];

/// The record that words begin with, and the words behind it.
fn record(words: &[u32]) -> ((u32, Cell), &[u32]) {
    let end = 3 + MARKS[words[1] as usize];
    let mut cell = [u32::MAX; 10];
    cell[..end - 1].copy_from_slice(&words[1..end]);
    ((words[0], cell), &words[end..])
}

fn listed(words: &[u32]) -> impl Iterator<Item = (u32, Cell)> + '_ {
    let mut left = words;
    std::iter::from_fn(move || {
        let (first, rest) = (!left.is_empty()).then(|| record(left))?;
        left = rest;
        Some(first)
    })
}

fn marks_of(cell: &Cell) -> &[u32] {
    &cell[2..2 + MARKS[cell[0] as usize]]
}

/// Today's map in plain Rust: the cells by number, and the facet sets.
#[derive(Clone)]
struct Plain {
    cells: HashMap<u32, Cell>,
    sets: FacetSets,
}

impl Plain {
    fn of(records: &[u32], most: usize) -> Plain {
        let mut plain = Plain {
            cells: HashMap::new(),
            sets: FacetSets::new(most),
        };
        for (number, cell) in listed(records) {
            assert!(plain.insert(number, cell));
        }
        plain
    }

    fn insert(&mut self, number: u32, cell: Cell) -> bool {
        let taken = self.sets.insert(number, cell[0], marks_of(&cell));
        if taken {
            self.cells.insert(number, cell);
        }
        taken
    }

    fn plan(&self, wanted: &[u32], plan: &mut Vec<u32>) {
        let list: HashMap<u32, Cell> = listed(wanted).collect();
        plan.clear();
        let unwanted = |it: &(&u32, &Cell)| list.get(it.0) != Some(it.1);
        let gone = self.cells.iter().filter(unwanted);
        let mut numbers: Vec<u32> = gone.map(|(number, _)| *number).collect();
        numbers.sort_unstable();
        for number in numbers {
            plan.extend([2, number]);
        }
        for (number, cell) in listed(wanted) {
            if self.cells.get(&number) != Some(&cell) {
                plan.extend([1, number]);
                plan.extend(&cell[..2 + marks_of(&cell).len()]);
            }
        }
    }

    /// The map after the edits, if all are accepted and it is the wanted one.
    fn check(&self, edits: &[u32], wanted: &[u32]) -> Option<Plain> {
        let mut then = self.clone();
        let mut left = edits;
        while let Some((kind, rest)) = left.split_first() {
            if *kind == 2 {
                if !then.sets.remove(rest[0]) {
                    return None;
                }
                then.cells.remove(&rest[0]);
                left = &rest[1..];
            } else {
                let ((number, cell), behind) = record(rest);
                if !then.insert(number, cell) {
                    return None;
                }
                left = behind;
            }
        }
        let list: HashMap<u32, Cell> = listed(wanted).collect();
        let count = listed(wanted).count();
        (list.len() == count && list == then.cells).then_some(then)
    }
}

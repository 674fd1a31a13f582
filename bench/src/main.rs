//! Nanoseconds a call: the proved library beside a plain-Rust hash map of
//! facet sets, in one run on one machine; with `switchboard` and files of surfaces,
//! what request 11 asks; with `once` and the name of a map, its edits made once, to be
//! counted from outside; with `journal`, the map on any day; with `complaint`, the
//! licences to ask; with `plan`, planned changes and their check; with `off` and files
//! of surfaces, surfaces read and written; with `desk`, the complaint desk's commands.

mod clock;
mod complaint;
mod desk;
mod facet_map;
mod facet_sets;
mod journal;
mod maps;
mod off;
mod plan;
mod switchboard;

use facet_map::FacetMap;
use maps::{mixed, triangles, Body, Map};
use mengkiloh::{room, Cell, Half, Mesh};
use std::hint::black_box;
use std::time::Instant;

/// How often each call is made; the best of three rounds counts.
const CALLS: usize = 20_000;
const ROUNDS: usize = 3;

const ROWS: [&str; 8] = [
    "build, a cell",
    "insert",
    "remove",
    "star",
    "anchors",
    "sibling",
    "lookup",
    "whole check, a cell",
];

fn main() {
    let words: Vec<String> = std::env::args().skip(1).collect();
    match words.split_first() {
        Some((word, files)) if word == "switchboard" => switchboard::run(files),
        Some((word, names)) if word == "once" => switchboard::once(names),
        Some((word, _)) if word == "journal" => journal::run(),
        Some((word, _)) if word == "complaint" => complaint::run(),
        Some((word, _)) if word == "plan" => plan::run(),
        Some((word, files)) if word == "off" => {
            if let Err(why) = off::run(files) {
                eprintln!("{why}");
                std::process::exit(1);
            }
        }
        Some((word, _)) if word == "desk" => desk::run(),
        _ => calls(),
    }
}

fn calls() {
    let maps = [
        triangles(1_000),
        triangles(10_000),
        triangles(50_000),
        mixed(20_000),
    ];
    println!("nanoseconds a call on {}", std::env::consts::ARCH);
    print!("{:<28}", "");
    for map in &maps {
        print!("{:>18}", map.name);
    }
    println!("{:>12}", "growth");
    let ours: Vec<[f64; 8]> = maps.iter().map(library).collect();
    let theirs: Vec<[f64; 8]> = maps.iter().map(hash_map).collect();
    for (row, name) in ROWS.iter().enumerate() {
        line(name, row, &ours);
        line("  hash map of facet sets", row, &theirs);
    }
    print!("{:<28}", "bytes a cell");
    for map in &maps {
        let bytes = 4 * room(map.marks, map.cells.len() as u32);
        print!("{:>18.1}", bytes as f64 / map.cells.len() as f64);
    }
    println!();
}

/// The growth is that from 1,000 to 50,000 triangles.
fn line(name: &str, row: usize, figures: &[[f64; 8]]) {
    if figures.iter().all(|figure| figure[row] == 0.0) {
        return;
    }
    print!("{name:<28}");
    for figure in figures {
        print!("{:>18.0}", figure[row]);
    }
    println!("{:>12.2}", figures[2][row] / figures[0][row]);
}

/// Nanoseconds for each of `count` things that `work` does, the best round.
fn each(count: usize, mut work: impl FnMut()) -> f64 {
    (0..ROUNDS)
        .map(|_| {
            let begin = Instant::now();
            work();
            begin.elapsed().as_nanos() as f64 / count as f64
        })
        .fold(f64::INFINITY, f64::min)
}

fn library(map: &Map) -> [f64; 8] {
    let n = map.cells.len() as u32;
    let mut mesh = Mesh::over(vec![0; room(map.marks, n)]);
    let records = map.records();
    let build = each(map.cells.len(), || {
        mesh.build(map.marks, n, black_box(&records))
            .expect("the map is sound");
    });
    let order = map.some_cells(CALLS.min(map.cells.len() / 2));
    let (mut insert, mut remove) = (f64::INFINITY, f64::INFINITY);
    for _ in 0..ROUNDS {
        let begin = Instant::now();
        for &cell in &order {
            mesh.remove(cell).expect("the cell is live");
        }
        remove = remove.min(begin.elapsed().as_nanos() as f64 / order.len() as f64);
        let begin = Instant::now();
        for &cell in &order {
            let Body { code, marks } = map.body(cell);
            mesh.insert(cell, *code, marks).expect("the cell is free");
        }
        insert = insert.min(begin.elapsed().as_nanos() as f64 / order.len() as f64);
    }
    let asked = map.some_cells(CALLS);
    let mut out = [Cell(0); 128];
    let star = each(asked.len(), || {
        for &cell in &asked {
            let mark = map.body(cell).marks[0];
            black_box(mesh.star_into(2, mark, &mut out)).expect("the mark is there");
        }
    });
    let mut out = [Half(0); 128];
    let anchors = each(asked.len(), || {
        for &cell in &asked {
            let mark = map.body(cell).marks[0];
            black_box(mesh.anchors_into(2, mark, &mut out)).expect("the mark is there");
        }
    });
    let sibling = each(asked.len(), || {
        for &cell in &asked {
            black_box(mesh.sibling(cell, 0)).expect("the cell is live");
        }
    });
    let lookup = each(asked.len(), || {
        for &cell in &asked {
            black_box(mesh.lookup(map.facet(cell))).expect("the facet is there");
        }
    });
    let whole = each(map.cells.len(), || assert!(black_box(mesh.whole())));
    [build, insert, remove, star, anchors, sibling, lookup, whole]
}

fn hash_map(map: &Map) -> [f64; 8] {
    let mut facets = FacetMap::new(map.marks, map.cells.len());
    let build = each(map.cells.len(), || {
        facets = FacetMap::new(map.marks, map.cells.len());
        for (cell, Body { code, marks }) in map.numbered() {
            facets.insert(cell, *code, marks);
        }
    });
    let order = map.some_cells(CALLS.min(map.cells.len() / 2));
    let (mut insert, mut remove) = (f64::INFINITY, f64::INFINITY);
    for _ in 0..ROUNDS {
        let begin = Instant::now();
        for &cell in &order {
            facets.remove(cell);
        }
        remove = remove.min(begin.elapsed().as_nanos() as f64 / order.len() as f64);
        let begin = Instant::now();
        for &cell in &order {
            let Body { code, marks } = map.body(cell);
            facets.insert(cell, *code, marks);
        }
        insert = insert.min(begin.elapsed().as_nanos() as f64 / order.len() as f64);
    }
    let asked = map.some_cells(CALLS);
    let mut out = Vec::new();
    let star = each(asked.len(), || {
        for &cell in &asked {
            facets.star(2, map.body(cell).marks[0], &mut out);
            black_box(&out);
        }
    });
    let sibling = each(asked.len(), || {
        for &cell in &asked {
            black_box(facets.sibling(cell, 0));
        }
    });
    let lookup = each(asked.len(), || {
        for &cell in &asked {
            black_box(facets.lookup(map.facet(cell)));
        }
    });
    [build, insert, remove, star, 0.0, sibling, lookup, 0.0]
}

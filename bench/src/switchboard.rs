//! Request 11 as it is written: our build and 10,000 mixed edits beside those of a
//! hash map of facet sets in plain Rust, at 1,000 and at 50,000 cells, memory
//! cleared first. All in turn in one run, processor time, the best of several.

use crate::clock::{best, busy};
use crate::facet_sets::FacetSets;
use crate::maps::{bricks, crowded, grid, surface, tetrahedra, Body, Chance, Map};
use mengkiloh::{Cell, Lines, Mesh};
use std::hint::black_box;

/// "10,000 mixed edits"
const EDITS: usize = 10_000;
const ROUNDS: usize = 25;
const SMALL: usize = 1_000;
const LARGE: usize = 50_000;
/// How many cells a cluster has.
const CLUSTER: usize = 400;

/// Nanoseconds a cell of a build, an edit anywhere, an edit in one cluster.
type Figures = [f64; 3];

pub fn run(files: &[String]) {
    println!(
        "request 11 on {}: ours over the hash map's",
        std::env::consts::ARCH
    );
    println!(
        "{:<30}{:>8}{:>8}{:>8}{:>9}{:>9}{:>9}{:>9}{:>28}{:>28}",
        "",
        "build",
        "edits",
        "cluster",
        "growth",
        "(theirs)",
        "cluster",
        "(theirs)",
        "ours, ns",
        "theirs, ns"
    );
    row("grid", grid(SMALL), grid(LARGE));
    let (small, large) = (grid(SMALL).shuffled(), grid(LARGE).shuffled());
    row("grid, shuffled", small, large);
    for file in files {
        match surface(file) {
            Ok(map) => {
                let name = format!("{} of {file}", map.cells.len());
                row(&name, grid(SMALL).shuffled(), map);
            }
            Err(why) => println!("{file}: {why}"),
        }
    }
    row("4 to 6 cells an edge", crowded(SMALL), crowded(LARGE));
    let (small, large) = (crowded(SMALL).shuffled(), crowded(LARGE).shuffled());
    row("4 to 6, shuffled", small, large);
    row("tetrahedra", tetrahedra(SMALL), tetrahedra(LARGE));
    row("bricks", bricks(SMALL), bricks(LARGE));
}

/// The edits anywhere of each named map, at 50,000 cells, made once: of each round
/// the calls that are counted are those of the library.
pub fn once(names: &[String]) {
    for name in names {
        let map = match name.as_str() {
            "grid" => grid(LARGE),
            "shuffled" => grid(LARGE).shuffled(),
            "crowded" => crowded(LARGE),
            "tetrahedra" => tetrahedra(LARGE),
            "bricks" => bricks(LARGE),
            _ => panic!("no map of that name: {name}"),
        };
        let mut chance = Chance::new(11);
        let anywhere = Edits::among(&mut chance, (0..map.cells.len() as u32).collect());
        let nowhere = Edits {
            before: vec![],
            mixed: vec![],
            after: vec![],
        };
        our_round(&map, &anywhere, &nowhere);
        println!("{}", anywhere.before.len() + EDITS + anywhere.after.len());
    }
}

fn row(name: &str, small: Map, large: Map) {
    let [(our_small, their_small), (ours, theirs)] = measured([small, large]);
    print!("{name:<30}");
    for (our, their) in ours.iter().zip(theirs) {
        print!("{:>8.2}", our / their);
    }
    // growth of an edit anywhere, and of one in a cluster
    for at in [1, 2] {
        print!("{:>9.2}", ours[at] / our_small[at]);
        print!("{:>9.2}", theirs[at] / their_small[at]);
    }
    println!("{:>28}{:>28}", listed(ours), listed(theirs));
}

fn listed(figures: Figures) -> String {
    figures.map(|figure| format!("{figure:.0}")).join(" ")
}

/// Ours and theirs of both maps, all four in turn, so that a busy while tells on each.
fn measured(maps: [Map; 2]) -> [(Figures, Figures); 2] {
    let edits = [0, 1].map(|at| {
        let map = &maps[at];
        let mut chance = Chance::new(11);
        let anywhere = Edits::among(&mut chance, (0..map.cells.len() as u32).collect());
        (anywhere, Edits::among(&mut chance, map.cluster(CLUSTER)))
    });
    let mut figures = [([f64::INFINITY; 3], [f64::INFINITY; 3]); 2];
    for _ in 0..ROUNDS {
        for ((map, (anywhere, clustered)), (ours, theirs)) in
            maps.iter().zip(&edits).zip(&mut figures)
        {
            best(ours, our_round(map, anywhere, clustered));
            best(theirs, their_round(map, anywhere, clustered));
        }
    }
    figures
}

fn our_round(map: &Map, anywhere: &Edits, clustered: &Edits) -> Figures {
    let cells = map.cells.len() as u32;
    let records = map.records();
    let mut words = Lines::of(map.marks, cells);
    words.as_mut().fill(black_box(1));
    words.as_mut().fill(black_box(0));
    let mut mesh = Mesh::over(words);
    let build = busy(|| {
        let built = mesh.build(map.marks, cells, black_box(&records));
        built.expect("the map is sound");
    });
    let mut edit = |cell: u32, comes: bool| {
        let Body { code, marks } = &map.cells[cell as usize];
        let answer = match comes {
            true => mesh.insert(Cell(cell), *code, marks),
            false => mesh.remove(Cell(cell)),
        };
        answer.expect("the edit is accepted");
    };
    let anywhere = anywhere.made(&mut edit);
    let clustered = clustered.made(&mut edit);
    [build / cells as f64, anywhere, clustered]
}

fn their_round(map: &Map, anywhere: &Edits, clustered: &Edits) -> Figures {
    let bodies = map.plain();
    let mut sets = FacetSets::new(bodies.len());
    let build = busy(|| {
        for (number, (code, marks)) in (0..).zip(black_box(&bodies)) {
            assert!(sets.insert(number, *code, marks));
        }
    });
    let mut edit = |cell: u32, comes: bool| {
        let (code, marks) = &bodies[cell as usize];
        let done = match comes {
            true => sets.insert(cell, *code, marks),
            false => sets.remove(cell),
        };
        assert!(done, "the edit is made");
    };
    let anywhere = anywhere.made(&mut edit);
    let clustered = clustered.made(&mut edit);
    // `sets` is freed here, outside of what is timed
    [build / bodies.len() as f64, anywhere, clustered]
}

/// A list of edits, and what is taken out before so that some cells can come.
struct Edits {
    before: Vec<u32>,
    mixed: Vec<(u32, bool)>,
    after: Vec<u32>,
}

impl Edits {
    /// Removals and insertions mixed at random, among these cells, all live: a
    /// tenth of them is gone when they begin.
    fn among(chance: &mut Chance, mut live: Vec<u32>) -> Edits {
        chance.shuffle(&mut live);
        let mut gone = live.split_off(live.len() - live.len() / 10);
        let before = gone.clone();
        let mut mixed = Vec::with_capacity(EDITS);
        while mixed.len() < EDITS {
            let comes = chance.below(2) == 0;
            let (from, to) = match comes {
                true => (&mut gone, &mut live),
                false => (&mut live, &mut gone),
            };
            if from.is_empty() {
                continue;
            }
            let cell = from.swap_remove(chance.below(from.len()));
            to.push(cell);
            mixed.push((cell, comes));
        }
        Edits {
            before,
            mixed,
            after: gone,
        }
    }

    /// Nanoseconds an edit of the mixed ones; the cells are all live again after.
    fn made(&self, mut edit: impl FnMut(u32, bool)) -> f64 {
        for &cell in &self.before {
            edit(cell, false);
        }
        let time = busy(|| {
            for &(cell, comes) in &self.mixed {
                edit(cell, comes);
            }
        });
        for &cell in &self.after {
            edit(cell, true);
        }
        time / self.mixed.len() as f64
    }
}

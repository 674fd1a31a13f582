//! The maps that are measured.

use mengkiloh::{Cell, Licence, Mark, Records};
use std::collections::VecDeque;

/// What a cell is: its type's code and its marks.
pub struct Body {
    pub code: u32,
    pub marks: Vec<Mark>,
}

pub struct Map {
    pub name: String,
    pub marks: u32,
    /// By cell number.
    pub cells: Vec<Body>,
}

impl Map {
    pub fn numbered(&self) -> impl Iterator<Item = (Cell, &Body)> {
        (0..).map(Cell).zip(&self.cells)
    }

    pub fn body(&self, cell: Cell) -> &Body {
        &self.cells[cell.0 as usize]
    }

    /// The cells as build records.
    pub fn records(&self) -> Records {
        let mut records = Records::new();
        for (cell, Body { code, marks }) in self.numbered() {
            records.add(cell, *code, Licence(0), marks);
        }
        records
    }

    /// So many cell numbers from all over the map, each once as long as they
    /// last.
    pub fn some_cells(&self, count: usize) -> Vec<Cell> {
        let cells = self.cells.len();
        let step = (cells * 61 / 100..)
            .find(|&step| coprime(step, cells))
            .unwrap_or(1);
        (0..count)
            .map(|turn| Cell((turn * step % cells) as u32))
            .collect()
    }

    /// Each cell as its code and its marks' numbers.
    pub fn plain(&self) -> Vec<(u32, Vec<u32>)> {
        let numbers = |marks: &[Mark]| marks.iter().map(|mark| mark.0).collect();
        let plain = |body: &Body| (body.code, numbers(&body.marks));
        self.cells.iter().map(plain).collect()
    }

    /// The same map with marks and cells numbered by chance.
    pub fn shuffled(mut self) -> Map {
        let mut chance = Chance::new(7);
        let mut numbers: Vec<u32> = (0..self.marks).collect();
        chance.shuffle(&mut numbers);
        for mark in self.cells.iter_mut().flat_map(|body| &mut body.marks) {
            *mark = Mark(numbers[mark.0 as usize]);
        }
        chance.shuffle(&mut self.cells);
        self
    }

    /// So many cells around the middle one, going from a cell to those that share
    /// a mark with it.
    pub fn cluster(&self, count: usize) -> Vec<u32> {
        let mut at_mark = vec![Vec::new(); self.marks as usize];
        for (cell, body) in self.numbered() {
            for mark in &body.marks {
                at_mark[mark.0 as usize].push(cell.0);
            }
        }
        let middle = self.cells.len() / 2;
        let mut seen = vec![false; self.cells.len()];
        seen[middle] = true;
        let mut next = VecDeque::from([middle as u32]);
        let mut cluster = Vec::new();
        while let Some(cell) = next.pop_front() {
            cluster.push(cell);
            if cluster.len() == count {
                break;
            }
            for mark in &self.cells[cell as usize].marks {
                for &other in &at_mark[mark.0 as usize] {
                    if !std::mem::replace(&mut seen[other as usize], true) {
                        next.push_back(other);
                    }
                }
            }
        }
        cluster
    }

    /// The marks of the first facet of a cell.
    pub fn facet(&self, cell: Cell) -> &[Mark] {
        let Body { code, marks } = self.body(cell);
        &marks[..[0, 1, 2, 2, 3][*code as usize]]
    }
}

fn coprime(a: usize, b: usize) -> bool {
    match b {
        0 => a == 1,
        _ => coprime(b, a % b),
    }
}

/// The first triangles of a grid of squares, each cut in two.
pub fn triangles(count: usize) -> Map {
    let side = (1..).find(|side| 2 * side * side >= count).unwrap_or(1) as u32;
    let mark = |x: u32, y: u32| Mark(y * (side + 1) + x);
    let squares = (0..side).flat_map(|y| (0..side).map(move |x| (x, y)));
    let cells = squares
        .flat_map(|(x, y)| {
            [
                vec![mark(x, y), mark(x + 1, y), mark(x, y + 1)],
                vec![mark(x + 1, y), mark(x + 1, y + 1), mark(x, y + 1)],
            ]
        })
        .take(count)
        .map(|marks| Body { code: 2, marks })
        .collect();
    Map {
        name: format!("{count} triangles"),
        marks: (side + 1) * (side + 1),
        cells,
    }
}

/// Blocks of a quad, two triangles on it, a tetrahedron and a bar, in rows.
pub fn mixed(count: usize) -> Map {
    let blocks = count.div_ceil(5) as u32;
    let row = blocks + 1;
    let cells = (0..blocks)
        .flat_map(|block| {
            let [a, b] = [block, block + 1].map(Mark);
            let [c, d] = [row + block, row + block + 1].map(Mark);
            let top = Mark(2 * row + block);
            [
                (3, vec![a, b, d, c]),
                (2, vec![a, b, top]),
                (2, vec![b, d, top]),
                (4, vec![a, b, c, top]),
                (1, vec![top, d]),
            ]
        })
        .take(count)
        .map(|(code, marks)| Body { code, marks })
        .collect();
    Map {
        name: format!("{count} mixed"),
        marks: 3 * row,
        cells,
    }
}

/// The triangles of a grid of squares, as `triangles`.
pub fn grid(count: usize) -> Map {
    triangles(count)
}

/// Triangles on all triples of 6, 7 and 8 marks in turn: 4, 5 and 6 of them on each
/// edge.
pub fn crowded(count: usize) -> Map {
    let mut cells = Vec::new();
    let mut first = 0;
    for size in [6, 7, 8].into_iter().cycle() {
        if count <= cells.len() {
            break;
        }
        for a in first..first + size {
            for b in a + 1..first + size {
                for c in b + 1..first + size {
                    let marks = [a, b, c].map(Mark).to_vec();
                    cells.push(Body { code: 2, marks });
                }
            }
        }
        first += size;
    }
    cells.truncate(count);
    Map {
        name: format!("{count} crowded triangles"),
        marks: first,
        cells,
    }
}

/// The corners of the cubes of a lattice with so many cubes, row by row.
fn cubes(count: usize) -> (u32, impl Iterator<Item = [Mark; 8]>) {
    let side = (1..).find(|side| side * side * side >= count).unwrap_or(1) as u32;
    let mark = move |x: u32, y: u32, z: u32| Mark((z * (side + 1) + y) * (side + 1) + x);
    let corners = move |cube: u32| {
        let (x, y, z) = (cube % side, cube / side % side, cube / side / side);
        [0, 1].map(|up| {
            let z = z + up;
            [
                mark(x, y, z),
                mark(x + 1, y, z),
                mark(x + 1, y + 1, z),
                mark(x, y + 1, z),
            ]
        })
    };
    let all = (0..side * side * side).map(move |cube| {
        let [[a, b, c, d], [e, f, g, h]] = corners(cube);
        [a, b, c, d, e, f, g, h]
    });
    ((side + 1) * (side + 1) * (side + 1), all)
}

pub fn bricks(count: usize) -> Map {
    let (marks, cubes) = cubes(count);
    let brick = |corners: [Mark; 8]| Body {
        code: 7,
        marks: corners.to_vec(),
    };
    Map {
        name: format!("{count} bricks"),
        marks,
        cells: cubes.take(count).map(brick).collect(),
    }
}

/// Each cube of a lattice cut in six along one of its diagonals.
pub fn tetrahedra(count: usize) -> Map {
    const CUTS: [[usize; 2]; 6] = [[1, 2], [2, 3], [3, 7], [7, 4], [4, 5], [5, 1]];
    let (marks, cubes) = cubes(count.div_ceil(6));
    let cut = |corners: [Mark; 8]| {
        CUTS.map(|[one, other]| Body {
            code: 4,
            marks: [0, one, other, 6].map(|place| corners[place]).to_vec(),
        })
    };
    Map {
        name: format!("{count} tetrahedra"),
        marks,
        cells: cubes.flat_map(cut).take(count).collect(),
    }
}

/// The triangles and quads of an OFF file, with as many marks as it has vertices;
/// a twin, and a face with a mark twice, is left out.
pub fn surface(file: &str) -> Result<Map, String> {
    let text = std::fs::read_to_string(file).map_err(|why| why.to_string())?;
    let lines = text
        .lines()
        .map(|line| line.split('#').next().unwrap_or(""));
    let mut words = lines.flat_map(str::split_whitespace);
    let mut number = |what: &str| {
        let word = words.next().ok_or("it ends early")?;
        match what {
            "word" => (word == "OFF").then_some(0).ok_or("it is no OFF file"),
            "coordinate" => Ok(0),
            _ => word.parse::<u32>().map_err(|_| "a number is none"),
        }
    };
    number("word")?;
    let (marks, faces) = (number("vertices")?, number("faces")?);
    number("edges")?;
    for _ in 0..3 * marks {
        number("coordinate")?;
    }
    let mut cells = Vec::new();
    let mut seen = std::collections::HashSet::new();
    for _ in 0..faces {
        let corners: Vec<u32> = (0..number("corners")?)
            .map(|_| number("mark"))
            .collect::<Result<_, _>>()?;
        let mut set = corners.clone();
        set.sort_unstable();
        set.dedup();
        let whole = set.len() == corners.len() && matches!(set.len(), 3 | 4);
        if whole && seen.insert(set) {
            let code = corners.len() as u32 - 1;
            let marks = corners.into_iter().map(Mark).collect();
            cells.push(Body { code, marks });
        }
    }
    Ok(Map {
        name: file.to_string(),
        marks,
        cells,
    })
}

/// Numbers by a seed.
pub struct Chance(u64);

impl Chance {
    pub fn new(seed: u64) -> Chance {
        Chance(seed.wrapping_mul(0x9e37_79b9_7f4a_7c15) | 1)
    }

    /// A number below `end`.
    pub fn below(&mut self, end: usize) -> usize {
        self.0 ^= self.0 << 13;
        self.0 ^= self.0 >> 7;
        self.0 ^= self.0 << 17;
        (self.0.wrapping_mul(0x2545_f491_4f6c_dd1d) >> 33) as usize % end
    }

    pub fn shuffle<T>(&mut self, list: &mut [T]) {
        for last in (1..list.len()).rev() {
            list.swap(last, self.below(last + 1));
        }
    }
}

//! Surfaces in and out: megabytes a second of OFF text, read into lent memory and
//! written from it, of sheets of triangles and of the files that are named.
//! Processor time, the best of several rounds.

use crate::clock::{best, busy};
use crate::maps::triangles;
use mengkiloh::{off_room, room, Licence, Mesh, OffError, Records, Refusal, Surface};
use std::hint::black_box;

const ROUNDS: usize = 5;
const FACES: [usize; 2] = [1_000, 50_000];

/// A text and what it costs, in nanoseconds: a read, the build alone of the same
/// faces, a write.
struct Column {
    faces: usize,
    bytes: f64,
    written: f64,
    costs: [f64; 3],
}

pub fn run(files: &[String]) -> Result<(), OffError> {
    println!("surfaces as text on {}", std::env::consts::ARCH);
    let mut columns = Vec::new();
    for faces in FACES {
        columns.push(measured(&sheet(faces).map_err(OffError::Surface)?)?);
    }
    for file in files {
        columns.push(measured(&std::fs::read(file)?)?);
    }
    print!("{:<36}", "faces");
    for column in &columns {
        print!("{:>14}", column.faces);
    }
    println!();
    let row = |name: &str, figure: &dyn Fn(&Column) -> f64| {
        print!("{name:<36}");
        for column in &columns {
            print!("{:>14.1}", figure(column));
        }
        println!();
    };
    row("the text, kilobytes", &|of| of.bytes / 1e3);
    row("read, megabytes a second", &|of| {
        1e3 * of.bytes / of.costs[0]
    });
    row("  without the build of its faces", &|of| {
        1e3 * of.bytes / (of.costs[0] - of.costs[1])
    });
    row("written, megabytes a second", &|of| {
        1e3 * of.written / of.costs[2]
    });
    Ok(())
}

/// The text of a sheet of so many triangles.
fn sheet(faces: usize) -> Result<Vec<u8>, Refusal> {
    let map = triangles(faces);
    let cells = map.cells.len() as u32;
    let metre = |at: u32| (at.wrapping_mul(40_503) % 65_536) as u16 as i16;
    let positions: Vec<i16> = (0..3 * map.marks).map(metre).collect();
    let mut mesh = Mesh::over(vec![0; room(map.marks, cells)]);
    mesh.build(map.marks, cells, &map.records())
        .map_err(|refused| refused.refusal)?;
    mesh.write_off(&positions)
}

fn measured(text: &[u8]) -> Result<Column, OffError> {
    let refused = OffError::Surface;
    let mut surface = Surface::read(text)?;
    let ours = surface.mesh.write_off(&surface.positions);
    let ours = ours.map_err(refused)?;
    let Surface { mesh, positions } = &mut surface;
    let (marks, cells) = mesh.capacities().map_err(refused)?;
    let mut records = Records::new();
    for cell in mesh.live().map_err(refused)? {
        let code = mesh.type_of(cell).map_err(refused)?;
        let marks = mesh.marks_of(cell).map_err(refused)?;
        records.add(cell, code, Licence(0), marks);
    }
    let mut out = vec![0; off_room(marks, cells)];
    let mut costs = [f64::INFINITY; 3];
    for _ in 0..ROUNDS {
        let mut answer = Ok(());
        let read = busy(|| answer = mesh.read_off(positions, black_box(text)));
        answer.map_err(OffError::Text)?;
        let mut answer = Ok(());
        let build = busy(|| answer = mesh.build(marks, cells, black_box(&records)));
        answer.map_err(|refused| OffError::Surface(refused.refusal))?;
        let mut length = Ok(0);
        let write = busy(|| length = mesh.write_off_into(positions, black_box(&mut out)));
        assert_eq!(out[..length.map_err(refused)?], ours);
        best(&mut costs, [read, build, write]);
    }
    Ok(Column {
        faces: cells as usize,
        bytes: text.len() as f64,
        written: ours.len() as f64,
        costs,
    })
}

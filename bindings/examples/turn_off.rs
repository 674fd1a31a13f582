//! An OFF file turned round: read into a mesh and its positions, and written back
//! in our form, to standard output where no second file is named.
//!
//! `cargo run --example turn_off -- FROM.off [TO.off]`

use std::fs::File;
use std::io::{self, BufWriter};
use std::process::ExitCode;

use mengkiloh::{OffError, Surface};

fn turn(from: &str, to: Option<&str>) -> Result<Surface, OffError> {
    let surface = Surface::read(File::open(from)?)?;
    match to {
        Some(to) => surface.write(BufWriter::new(File::create(to)?))?,
        None => surface.write(io::stdout().lock())?,
    }
    Ok(surface)
}

fn main() -> ExitCode {
    let named: Vec<String> = std::env::args().skip(1).collect();
    let (from, to) = match &named[..] {
        [from] => (from, None),
        [from, to] => (from, Some(to.as_str())),
        _ => {
            eprintln!("usage: turn_off FROM.off [TO.off]");
            return ExitCode::from(2);
        }
    };
    match turn(from, to) {
        Ok(surface) => {
            let marks = surface.positions.len() / 3;
            let faces = surface.mesh.live().map_or(0, |cells| cells.len());
            eprintln!("{from}: {marks} marks, {faces} faces");
            ExitCode::SUCCESS
        }
        Err(fault) => {
            eprintln!("{from}: {fault}");
            ExitCode::FAILURE
        }
    }
}

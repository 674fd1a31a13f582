//! Without an argument: frames on standard input, answers on standard output.
//! With the argument `shapes`: the facet numbering. With `cases`: the outline's
//! cases, and everything that can be asked of them.

use second::cases;
use second::frames::Program;
use second::shapes::numbering;
use std::io::{self, ErrorKind, Read, Write};
use std::process::ExitCode;

const USAGE: &str = "usage: second [shapes | cases]";
const USAGE_STATUS: u8 = 2;
const PART_OF_INPUT: usize = 4096;

fn main() -> ExitCode {
    let arguments: Vec<_> = std::env::args_os().skip(1).collect();
    let done = match arguments.as_slice() {
        [] => answer_frames(),
        [word] if word == "shapes" => io::stdout().write_all(numbering().as_bytes()),
        [word] if word == "cases" => io::stdout().write_all(cases::text().as_bytes()),
        _ => {
            eprintln!("{USAGE}");
            return ExitCode::from(USAGE_STATUS);
        }
    };
    match done {
        Ok(()) => ExitCode::SUCCESS,
        Err(fault) => {
            eprintln!("second: {fault}");
            ExitCode::FAILURE
        }
    }
}

/// Answers go out before more input is awaited, so that a partner who waits
/// for the answer to a line gets it.
fn answer_frames() -> io::Result<()> {
    let mut input = io::stdin().lock();
    let mut output = io::stdout().lock();
    let mut program = Program::new();
    let mut part = [0; PART_OF_INPUT];
    let mut answers = Vec::new();
    loop {
        let length = match input.read(&mut part) {
            Ok(0) => break,
            Ok(length) => length,
            Err(fault) if fault.kind() == ErrorKind::Interrupted => continue,
            Err(fault) => return Err(fault),
        };
        program.read(&part[..length], &mut answers);
        output.write_all(&answers)?;
        output.flush()?;
        answers.clear();
    }
    program.end(&mut answers);
    output.write_all(&answers)?;
    output.flush()
}

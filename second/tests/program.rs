//! The program as it is started: its arguments, its standard input and output.

use std::io::{BufRead, BufReader, Write};
use std::process::{Child, Command, Output, Stdio};
use std::sync::mpsc;
use std::time::Duration;

fn start(arguments: &[&str]) -> Child {
    Command::new(env!("CARGO_BIN_EXE_second"))
        .args(arguments)
        .stdin(Stdio::piped())
        .stdout(Stdio::piped())
        .stderr(Stdio::piped())
        .spawn()
        .expect("the program starts")
}

fn run(arguments: &[&str], input: &[u8]) -> Output {
    let mut program = start(arguments);
    let mut to_program = program.stdin.take().expect("its input is ours");
    // It may end without reading; what it then answers is what is tested.
    let _ = to_program.write_all(input);
    drop(to_program);
    program.wait_with_output().expect("the program ends")
}

#[test]
fn without_an_argument_it_answers_frames() {
    let output = run(&[], b"f000060004\na00001000002000000010002\n50020001\n\nd0");
    assert_eq!(output.stdout, b"00\n00\n0000010000\n0f\n0f\n");
    assert_eq!(output.stderr, b"");
    assert_eq!(output.status.code(), Some(0));
}

#[test]
fn empty_input_gives_empty_output() {
    let output = run(&[], b"");
    assert_eq!(output.stdout, b"");
    assert_eq!(output.status.code(), Some(0));
}

#[test]
fn a_long_input_is_answered_as_a_whole() {
    let line = [b"0".repeat(1 << 20), b"\n".to_vec()].concat();
    let input = [line, b"f000060004\n".repeat(3000)].concat();
    let output = run(&[], &input);
    let due = [b"0f\n".to_vec(), b"00\n".repeat(3000)].concat();
    assert!(output.stdout == due, "{} bytes", output.stdout.len());
}

/// A partner who waits for each answer gets it while the input is open.
#[test]
fn a_complete_line_is_answered_before_the_input_ends() {
    let mut program = start(&[]);
    let mut to_program = program.stdin.take().expect("its input is ours");
    let from_program = program.stdout.take().expect("its output is ours");
    let (answers, wait) = mpsc::channel();
    let reader = std::thread::spawn(move || {
        for line in BufReader::new(from_program).lines() {
            let _ = answers.send(line.expect("a line of text"));
        }
    });
    for (frame, due) in [("f000060004\n", "00"), ("d000010000\n", "05")] {
        to_program.write_all(frame.as_bytes()).expect("it reads");
        let answer = wait.recv_timeout(Duration::from_secs(10));
        assert_eq!(answer.as_deref(), Ok(due));
    }
    drop(to_program);
    reader.join().expect("the output ends with the program");
    assert!(program.wait().expect("it ends").success());
}

#[test]
fn with_shapes_it_prints_the_facet_numbering() {
    let output = run(&["shapes"], b"");
    let due = "\
1 BAR_2 dimension 1 marks 2 facets (0) (1)
2 TRI_3 dimension 2 marks 3 facets (0,1) (1,2) (2,0)
3 QUAD_4 dimension 2 marks 4 facets (0,1) (1,2) (2,3) (3,0)
4 TETRA_4 dimension 3 marks 4 facets (0,2,1) (0,1,3) (1,2,3) (2,0,3)
5 PYRA_5 dimension 3 marks 5 facets (0,3,2,1) (0,1,4) (1,2,4) (2,3,4) (3,0,4)
6 PENTA_6 dimension 3 marks 6 facets (0,1,4,3) (1,2,5,4) (2,0,3,5) (0,2,1) (3,4,5)
7 HEXA_8 dimension 3 marks 8 facets (0,3,2,1) (0,1,5,4) (1,2,6,5) (2,3,7,6) (0,4,7,3) (4,5,6,7)
";
    assert_eq!(String::from_utf8(output.stdout).as_deref(), Ok(due));
    assert_eq!(output.status.code(), Some(0));
}

/// The answers that the outline's twelve cases name, P1's by their count.
#[test]
fn with_cases_it_prints_the_cases() {
    let output = run(&["cases"], b"");
    let text = String::from_utf8(output.stdout).expect("text");
    for due in [
        "P2 mark 2 dimension 2: star 0, anchors 1, first 1",
        "P3 half 0 1: sibling 8 way 2, border no, cycle 1 8, ways 2 2, step 8 way 2",
        "P3 half 1 0: sibling 1 way 2, border no, cycle 8 1, ways 2 2, step 1 way 2",
        "P4 half 0 0: sibling 8 way 1, border no, cycle 0 8 16, ways 1 1 1, step 8 way 1",
        "P4 half 1 0: sibling 16 way 1, border no, cycle 8 16 0, ways 1 1 1, step 16 way 1",
        "P4 half 2 0: sibling 0 way 1, border no, cycle 16 0 8, ways 1 1 1, step 0 way 1",
        "P5 mark 0 dimension 2: star 0 1, anchors 0 8, first 0",
        "P6 half 0 0: sibling 8 way 2, border no, cycle 0 8, ways 2 2, step 8 way 2",
        "P6 mark 0 dimension 3: star 0 1, anchors 1, first 1",
        "P7 mark 3 dimension 2: star 1 2 3, anchors 9, first 9",
        "P8 half 0 1: sibling 8 way 2, border no, cycle 1 8, ways 2 2, step 8 way 2",
        "P8 mark 1 dimension 1: star 0 1, anchors 1, first 1",
        "P9 half 0 0: sibling 16 way 1, border no, cycle 0 16, ways 1 1, step 16 way 1",
        "P9 half 1 0: sibling refused 5, border refused 5, cycle refused 5, step refused 5",
        "P10 insert 1 type 2 licence 7 marks 2 0 1: refused 10",
        "P11 insert 0 type 2 marks 0 1 1: refused 9",
        "P12 cell 0: type 2, licence 0, marks 0 1 2, neighbours none",
        "bound insert 127: accepted",
        "bound insert 128: refused 11",
    ] {
        assert_eq!(text.lines().filter(|line| *line == due).count(), 1, "{due}");
    }
    let with = |start: &str, end: &str| {
        let is_one = |line: &&str| line.starts_with(start) && line.contains(end);
        text.lines().filter(is_one).count()
    };
    assert_eq!(with("P1 mark", "star none, anchors none, first none"), 15);
    assert_eq!(with("P2 half 0", "border yes"), 3);
    assert_eq!(with("P7 half", "border yes"), 0);
    assert_eq!(with("P12 half", "border yes"), 7);
    assert_eq!(output.status.code(), Some(0));
}

#[test]
fn any_other_argument_gives_the_usage() {
    for arguments in [
        &["shape"][..],
        &["Shapes"],
        &[""],
        &["shapes", "shapes"],
        &["case"],
        &["cases", "shapes"],
    ] {
        let output = run(arguments, b"f000060004\n");
        assert_eq!(output.status.code(), Some(2), "{arguments:?}");
        assert_eq!(output.stdout, b"");
        let usage = String::from_utf8(output.stderr).expect("text");
        assert!(usage.starts_with("usage: second"), "{usage}");
        assert_eq!(usage.lines().count(), 1);
    }
}

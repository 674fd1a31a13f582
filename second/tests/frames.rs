//! The frame program, from input bytes to output bytes.

use second::frames::{run, Program};

/// The outline's worked case, input left, output right; "an edit's code is
/// followed by two bytes of day": 1, and from the first remove on 2.
const WORKED: [(&str, &str); 10] = [
    ("f000060004", "00"),
    ("a00001000002000000010002", "00"),
    ("a00001000102000200010003", "00"),
    ("50020001", "00000200000001"),
    ("51020001", "000001000000"),
    ("5b000001", "0000010002"),
    ("d000020000", "00"),
    ("50020001", "0000010001"),
    ("d000020000", "05"),
    ("", "0f"),
];

/// The first lines of most tests: the map of the worked case, cells 0 and 1.
const MAP: [(&str, &str); 3] = [WORKED[0], WORKED[1], WORKED[2]];

/// Runs the lines left and compares with the lines right.
fn check(lines: &[(&str, &str)]) {
    let input: String = lines.iter().map(|(line, _)| format!("{line}\n")).collect();
    let output: String = lines.iter().map(|(_, line)| format!("{line}\n")).collect();
    assert_eq!(text(&run(input.as_bytes())), output);
}

fn check_on_map(lines: &[(&str, &str)]) {
    check(&[&MAP[..], lines].concat());
}

fn text(bytes: &[u8]) -> String {
    String::from_utf8(bytes.to_vec()).expect("answers are digits and line ends")
}

/// A line that is a bad frame gives 0f, changes nothing, and the next line is
/// read as usual.
fn check_bad(line: &[u8]) {
    let mut input = Vec::new();
    for (good, _) in MAP {
        input.extend([good.as_bytes(), b"\n"].concat());
    }
    input.extend([line, b"\n50020001\n5b000001\n"].concat());
    let output = text(&run(&input));
    let due = "00\n00\n00\n0f\n00000200000001\n0000010002\n";
    assert_eq!(output, due, "{:?}", String::from_utf8_lossy(line));
}

#[test]
fn the_worked_case_byte_for_byte() {
    let input = b"f000060004\na00001000002000000010002\na00001000102000200010003\n\
        50020001\n51020001\n5b000001\nd000020000\n50020001\nd000020000\n\n";
    let output = "00\n00\n00\n00000200000001\n000001000000\n0000010002\n00\n0000010001\n05\n0f\n";
    assert_eq!(text(&run(input)), output);
    check(&WORKED);
}

#[test]
fn the_input_may_be_cut_anywhere() {
    let input: String = WORKED.iter().map(|(line, _)| format!("{line}\n")).collect();
    let due = run(input.as_bytes());
    for place in 0..=input.len() {
        let (first, second) = input.as_bytes().split_at(place);
        let mut output = Vec::new();
        let mut program = Program::new();
        program.read(first, &mut output);
        let answered = output.iter().filter(|&&byte| byte == b'\n').count();
        let ended = first.iter().filter(|&&byte| byte == b'\n').count();
        assert_eq!(answered, ended, "each complete line is answered at once");
        program.read(second, &mut output);
        program.end(&mut output);
        assert_eq!(text(&output), text(&due), "cut at {place}");
    }
}

#[test]
fn empty_input_writes_nothing() {
    assert_eq!(run(b""), b"");
}

#[test]
fn it_starts_with_capacities_0_and_0() {
    check(&[
        ("50020000", "08"),
        ("5b000000", "03"),
        ("a00001000002000000010002", "03"),
        ("d000010000", "03"),
    ]);
}

#[test]
fn rule_an_empty_line() {
    check_bad(b"");
    check(&[("", "0f"), ("", "0f"), ("f000060004", "00")]);
}

#[test]
fn rule_an_odd_count_of_digits() {
    for line in [
        "f",
        "f00006000",
        "f0000600040",
        "a0000100030200030004000",
        "5",
    ] {
        check_bad(line.as_bytes());
    }
}

#[test]
fn rule_another_character() {
    for line in [
        "F000060004",
        "f00006000A",
        "D000010000",
        "f000060004\r",
        "\r",
        " ",
        " f000060004",
        "f000060004 ",
        "f0 0006 0004",
        "f000\t060004",
        "0xf000060004",
        "f00006000g",
        "f00006000`",
        "f00006000/",
        "f00006000:",
        "f00006000@",
        "d00001000\u{0}",
        "d00001é0",
    ] {
        check_bad(line.as_bytes());
    }
    check_bad(b"d00001\xff0");
    check_bad(b"\xff");
}

#[test]
fn every_byte_but_a_digit_and_the_line_end_is_another_character() {
    for byte in 0..=255u8 {
        if byte != b'\n' && !b"0123456789abcdef".contains(&byte) {
            check_bad(&[b"d00001000".as_slice(), &[byte]].concat());
            check_bad(&[b"d000010000".as_slice(), &[byte]].concat());
        }
    }
}

#[test]
fn rule_an_unknown_code() {
    let known = [0xf0, 0xa0, 0xd0, 0x50, 0x51, 0x5b];
    for code in 0..=255u8 {
        if !known.contains(&code) {
            for fields in ["", "0000", "000001", "020001", "00060004"] {
                check_bad(format!("{code:02x}{fields}").as_bytes());
            }
        }
    }
}

/// Every frame cut before each byte of its fixed fields.
#[test]
fn rule_a_frame_that_stops_before_its_fixed_fields() {
    for whole in [
        "f000060004",
        "a00001000302",
        "d000010000",
        "50020001",
        "51020001",
        "5b000001",
    ] {
        for length in (2..whole.len()).step_by(2) {
            check_bad(&whole.as_bytes()[..length]);
        }
    }
}

#[test]
fn rule_trailing_bytes() {
    for whole in [
        "f000060004",
        "d000010000",
        "50020001",
        "51020001",
        "5b000001",
    ] {
        for trailing in ["00", "ff", "0000", "000000"] {
            check_bad(format!("{whole}{trailing}").as_bytes());
        }
    }
}

#[test]
fn rule_half_a_mark() {
    check_bad(b"a0000100030200");
    check_bad(b"a00001000302000000010003ff");
    // Also where the type is unknown or the cell is not below the capacity.
    check_bad(b"a0000100030900");
    check_bad(b"a00001ffff0200");
}

/// 64 digits are an insert with 13 marks.
#[test]
fn rule_more_than_64_digits() {
    let insert = |marks: usize| format!("a00001000302{}", "0005".repeat(marks));
    assert_eq!(insert(13).len(), 64);
    check_on_map(&[(&insert(13), "07")]);
    check_bad(insert(14).as_bytes());
    check_bad(format!("{}0", insert(13)).as_bytes());
    check_bad(format!("{}00", insert(13)).as_bytes());
    // A whole frame in the first 64 digits is not obeyed.
    check_bad(format!("d000010000{}", "0".repeat(60)).as_bytes());
}

#[test]
fn rule_a_last_line_without_its_end() {
    for last in ["f000060004", "f", "zz", "d000010000", "a0"] {
        let input = format!("f000060004\n{last}");
        assert_eq!(text(&run(input.as_bytes())), "00\n0f\n");
        assert_eq!(text(&run(last.as_bytes())), "0f\n");
    }
    assert_eq!(text(&run(b"f000060004\n")), "00\n");
}

#[test]
fn a_line_of_a_megabyte_is_one_bad_frame() {
    let megabyte = 1 << 20;
    for character in [b'0', b'f', b'z', b' '] {
        let line = vec![character; megabyte];
        check_bad(&line);
        assert_eq!(text(&run(&line)), "0f\n");
    }
    // Read byte by byte: the line is not kept.
    let mut program = Program::new();
    let mut output = Vec::new();
    for _ in 0..megabyte {
        program.read(b"d", &mut output);
    }
    assert_eq!(output, b"");
    program.read(b"\nf000060004\n", &mut output);
    assert_eq!(text(&output), "0f\n00\n");
}

/// Two faults of the frame are one 0f.
#[test]
fn a_line_has_one_answer() {
    check_bad(b"Z");
    check_bad(b"F00");
    check_bad(b"520000000000000000000000000000000000000000000000000000000000000000000\r");
}

/// "The program keeps at most 384 marks and 384 cells; more is refused with 1."
#[test]
fn capacities_384_and_385() {
    check(&[
        ("f001800180", "00"),
        ("a00001017f01017f0000", "00"),
        ("a0000101800100010002", "03"),
        ("a0000100000101800000", "08"),
        ("f001810180", "01"),
        ("f001800181", "01"),
        ("f0ffffffff", "01"),
        ("f001810000", "01"),
        ("f000000181", "01"),
        // The refused formats changed nothing.
        ("5001017f", "000001017f"),
        ("5b017f00", "00017f0000"),
        ("f001800000", "00"),
        ("5001017f", "000000"),
        ("f000000180", "00"),
        ("50010000", "08"),
    ]);
}

#[test]
fn refusal_3_by_each_frame() {
    check_on_map(&[
        ("a00001000402000000010003", "03"),
        ("d000010004", "03"),
        ("5b000400", "03"),
        ("d00001ffff", "03"),
    ]);
}

#[test]
fn refusals_4_and_5_by_each_frame() {
    check_on_map(&[
        ("a00001000002000300040005", "04"),
        ("d000010003", "05"),
        ("5b000300", "05"),
    ]);
}

/// "A mark list of whole marks but wrong count is 7; an unknown type is 6 even
/// so."
#[test]
fn refusals_6_and_7_by_each_frame() {
    check_on_map(&[
        ("a00001000302", "07"),
        ("a0000100030200000001", "07"),
        ("a000010003020000000100030004", "07"),
        ("a00001000309", "06"),
        ("a0000100030000000001", "06"),
        ("a000010003ff0000000100030004", "06"),
        ("50000001", "06"),
        ("50040001", "06"),
        ("51000001", "06"),
        ("51ff0001", "06"),
    ]);
}

#[test]
fn refusals_8_to_11_by_each_frame() {
    check_on_map(&[
        ("a00001000302000000010006", "08"),
        ("50020006", "08"),
        ("51020006", "08"),
        ("a00001000302000000010001", "09"),
        ("a00001000302000200000001", "0a"),
    ]);
    let mut lines = vec![("f001800180".to_string(), "00".to_string())];
    for cell in 0..128 {
        lines.push((
            format!("a00001{cell:04x}010000{:04x}", cell + 1),
            "00".into(),
        ));
    }
    lines.push(("a00001008001000000ff".into(), "0b".into()));
    let cells: String = (0..128).map(|cell| format!("{cell:04x}")).collect();
    lines.push(("50010000".into(), format!("000080{cells}")));
    lines.push(("5b007f00".into(), "0000000001".into()));
    let lines: Vec<(&str, &str)> = lines
        .iter()
        .map(|(line, answer)| (line.as_str(), answer.as_str()))
        .collect();
    check(&lines);
}

#[test]
fn refusal_13_by_its_frame() {
    check_on_map(&[
        ("5b000002", "0000000200"),
        ("5b000003", "0d"),
        ("5b000008", "0d"),
        ("5b0000ff", "0d"),
    ]);
}

/// "frame 5b, which gets one more byte (0 to 3 in that order)": lone, same,
/// opposite, neither; "a refusal is its byte alone".
#[test]
fn a_sibling_is_followed_by_its_way() {
    check(&[
        ("f0000b0004", "00"),
        // a brick, and on its face of the marks 4 to 7 a pyramid that runs the
        // same way, one in crossed order and one that runs the opposite way
        ("a0000100000700000001000200030004000500060007", "00"),
        ("a0000100010500070006000500040008", "00"),
        ("a0000100020500070004000600050009", "00"),
        ("a000010003050004000500060007000a", "00"),
        ("5b000000", "0000000000"),
        ("5b000005", "0000010001"),
        ("5b000100", "0000020003"),
        ("5b000200", "0000030003"),
        ("5b000300", "0000000502"),
        ("d000010002", "00"),
        ("5b000100", "0000030002"),
        ("5b000200", "05"),
    ]);
}

/// Pairs of faults in one frame: the earlier in the listed order is answered.
#[test]
fn the_earlier_fault_is_answered() {
    check_on_map(&[
        ("50040006", "06"),
        ("51000006", "06"),
        ("5b0004ff", "03"),
        ("5b0003ff", "05"),
        ("a00001000409", "03"),
        ("a00001000009", "04"),
        ("a000010003020006", "07"),
        ("a00001000302000000000006", "08"),
    ]);
}

/// A bad frame is no call, so its 15 comes before every refusal of a call.
#[test]
fn a_bad_frame_is_answered_before_any_other_fault() {
    let refused = [
        ("f0ffffffff", "01"),
        ("a00001ffff02000000010003", "03"),
        ("a00001000002000300040005", "04"),
        ("d000010003", "05"),
        ("a00001000309", "06"),
        ("50090000", "06"),
        ("a00001000302", "07"),
        ("51020006", "08"),
        ("a00001000302000000010001", "09"),
        ("a00001000302000200000001", "0a"),
        ("5b0000ff", "0d"),
    ];
    check_on_map(&refused);
    for (line, _) in refused {
        for fault in ["0", "00", "\r", "G"] {
            check_bad(format!("{line}{fault}").as_bytes());
        }
        check_bad(format!("{line}{}", "0".repeat(66 - line.len())).as_bytes());
        check_bad(&line.as_bytes()[1..]);
    }
}

/// Two sheets in a mark, and a second dimension at it.
#[test]
fn anchors_are_listed_with_cell_and_facet() {
    check(&[
        ("f000060004", "00"),
        ("a00001000002000000010002", "00"),
        ("a00001000302000400030000", "00"),
        ("a0000100010100050000", "00"),
        ("51020000", "000002000000000301"),
        ("51010000", "000001000101"),
        ("51030000", "000000"),
        ("50020000", "00000200000003"),
        ("50010000", "0000010001"),
        ("50030000", "000000"),
    ]);
}

/// "an edit's code is followed by two bytes of day": the frames of before
/// request 9 stop before their fixed fields, or have another meaning.
#[test]
fn a_frame_without_its_day_is_bad() {
    check_bad(b"d00000");
    check_bad(b"a0000302");
}

/// "entry 20 for a day before the last, then the mesh's own": refused edits
/// enter no day, questions have none.
#[test]
fn refusal_20_by_each_frame() {
    check(&[
        ("f000060004", "00"),
        ("a00007000002000000010002", "00"),
        ("a0000600010100030004", "14"),
        ("d000060000", "14"),
        // before the mesh's own: a dead cell, a number beyond the capacity
        ("d000000003", "14"),
        ("a00006000409", "14"),
        // but half a mark is a bad frame
        ("a0000600040900", "0f"),
        // the mesh's own refusal enters no day
        ("d0ffff0003", "05"),
        ("a0000700010100030004", "00"),
        ("d0ffff0000", "00"),
        ("a0fffe00000100000001", "14"),
        ("a0ffff00000100000001", "00"),
        ("50010000", "0000010000"),
    ]);
}

/// "In the frame program its start and each accepted f0 begin one", so days
/// begin again; a refused f0 changes nothing.
#[test]
fn an_accepted_format_begins_a_journal() {
    check(&[
        ("f000060004", "00"),
        ("a0000900000100000001", "00"),
        ("f001810004", "01"),
        ("d000080000", "14"),
        ("50010000", "0000010000"),
        ("f000060004", "00"),
        ("50010000", "000000"),
        ("a0000100000100000001", "00"),
        ("d000000000", "14"),
        ("d000010000", "00"),
    ]);
}

/// "The program's journal holds 1,000 edits": the mesh's own refusal before 23,
/// and "20 for a day before the last" before both; the next accepted f0 makes
/// room.
#[test]
fn the_journal_is_full_after_1000_edits() {
    let mut lines = vec![("f000020002".to_string(), "00".to_string())];
    for day in 0..500 {
        lines.push((format!("a0{day:04x}00000100000001"), "00".into()));
        // refused edits take no room
        lines.push((format!("a0{day:04x}00000100000001"), "04".into()));
        lines.push((format!("d0{day:04x}0000"), "00".into()));
    }
    for (line, answer) in [
        ("a001f300000100000001", "17"),
        ("a001f200000100000001", "14"),
        ("a001f300000100000002", "08"),
        ("d001f30000", "05"),
        ("d0ffff0002", "03"),
        ("a0ffff00010100010000", "17"),
        ("50010000", "000000"),
        ("f001810000", "01"),
        ("a0ffff00010100010000", "17"),
        ("f000020002", "00"),
        ("a0000000010100010000", "00"),
        ("50010000", "0000010001"),
    ] {
        lines.push((line.into(), answer.into()));
    }
    let lines: Vec<(&str, &str)> = lines
        .iter()
        .map(|(line, answer)| (line.as_str(), answer.as_str()))
        .collect();
    check(&lines);
}

/// The start begins a journal too: before the first f0 an edit gets the mesh's
/// own refusal.
#[test]
fn the_start_begins_a_journal() {
    check(&[("d0ffff0000", "03"), ("d000000000", "03")]);
}

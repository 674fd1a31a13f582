//! One name for one refusal: in the proved crate, the header, the second
//! program and here.

use std::path::Path;

use mengkiloh::{Cell, Edition, Edits, Licence, Mark, Refusal, Type, Way};

/// What stands between the braces behind `opening` in a file of the repository.
fn braced(file: &str, opening: &str) -> String {
    let path = Path::new(env!("CARGO_MANIFEST_DIR")).join("..").join(file);
    let text = std::fs::read_to_string(path).expect("the file is there");
    let (_, behind) = text.split_once(opening).expect("the enum is there");
    let (inside, _) = behind.split_once('}').expect("the enum ends");
    inside.to_string()
}

/// CapacityAbove as CAPACITY_ABOVE.
fn upper(name: &str) -> String {
    let mut words = String::new();
    for letter in name.chars() {
        if letter.is_uppercase() && !words.is_empty() {
            words.push('_');
        }
        words.extend(letter.to_uppercase());
    }
    words
}

fn ours() -> Vec<String> {
    Refusal::ALL.map(|refusal| format!("{refusal:?}")).to_vec()
}

#[test]
fn numbers_are_those_of_the_table() {
    let numbers = Refusal::ALL.map(Refusal::number);
    assert!(numbers.iter().copied().eq((1..=14).chain(16..=24)));
}

#[test]
fn the_proved_crate_has_these_names() {
    let inside = braced("crates/map/src/lib.rt", "pub enum Refusal {");
    let mut theirs: Vec<&str> = inside.split(',').map(str::trim).collect();
    theirs.retain(|name| !name.is_empty());
    // the frame program's own
    assert!(theirs.contains(&"BadFrame"));
    theirs.retain(|&name| name != "BadFrame");
    // errors of a surface's two calls alone, `NotRead` and `NotWritten`, and of a plan's
    // check, `Flaw`
    let mut ours = ours();
    ours.retain(|name| !["OffBroken", "NotSurface", "PlanWrong"].contains(&name.as_str()));
    assert_eq!(theirs, ours);
}

#[test]
fn the_header_has_these_names() {
    let inside = braced("include/mengkiloh.h", "enum mk_refusal {");
    let theirs: Vec<String> = inside
        .lines()
        .filter_map(|line| line.trim().strip_prefix("MK_")?.split([',', '/']).next())
        .map(|row| row.trim().to_string())
        .collect();
    let accepted = ["ACCEPTED = 0".to_string()];
    let refused = Refusal::ALL.map(|refusal| {
        let name = upper(&format!("{refusal:?}"));
        format!("{name} = {}", refusal.number())
    });
    assert_eq!(theirs, Vec::from_iter(accepted.into_iter().chain(refused)));
}

/// The strings of C that stand between `opening` and the next semicolon, as one.
fn string_behind(text: &str, opening: &str) -> String {
    let (_, behind) = text.split_once(opening).expect("the case is there");
    let (inside, _) = behind.split_once(';').expect("the case ends");
    inside.split('"').skip(1).step_by(2).collect()
}

#[test]
fn the_header_has_these_meanings() {
    let inside = braced("include/mengkiloh.h", "switch (refusal) {");
    for refusal in Refusal::ALL {
        let case = format!("case MK_{}:", upper(&format!("{refusal:?}")));
        assert_eq!(string_behind(&inside, &case), refusal.meaning());
    }
    assert_eq!(string_behind(&inside, "case MK_ACCEPTED:"), "accepted");
    assert_eq!(inside.matches("case ").count(), Refusal::ALL.len() + 1);
}

/// Each type's line of the header: code, dimension, marks, facets, and the
/// facets by their places.
#[test]
fn the_header_has_the_types_of_the_second_program() {
    let inside = braced("include/mengkiloh.h", "enum mk_code {");
    let theirs: Vec<String> = inside
        .lines()
        .map(|line| line.split_whitespace().collect::<Vec<_>>().join(" "))
        .filter(|line| !line.is_empty())
        .map(|line| line.replace(", /*", " /*"))
        .collect();
    let lines = second::shapes::TYPES.iter().map(|row| {
        let places = |facet: &&[usize]| {
            let places: Vec<String> = facet.iter().map(usize::to_string).collect();
            format!(" ({})", places.join(","))
        };
        let facets: String = row.facets.iter().map(places).collect();
        let (code, dimension, marks) = (row.code, row.dimension, row.marks);
        let count = row.facets.len();
        format!(
            "MK_{} = {code} /* {dimension}, {marks}, {count}:{facets} */",
            row.name
        )
    });
    assert_eq!(theirs, Vec::from_iter(lines));
}

#[test]
fn every_code_of_the_table_is_a_type_and_no_other() {
    for code in 0..10 {
        let known = second::shapes::type_with_code(code).is_some();
        assert_eq!(
            Type::try_from(code).map(u32::from),
            known.then_some(code).ok_or(code)
        );
    }
}

#[test]
fn every_edition_of_the_second_program_is_one_and_no_other() {
    for number in 0..5 {
        let known = second::calls::EDITIONS.contains(&number);
        assert_eq!(
            Edition::try_from(number).map(u32::from),
            known.then_some(number).ok_or(number)
        );
    }
}

/// Lone, same, opposite, neither: 0 to 3, here, in the header and in the second
/// program.
#[test]
fn the_ways_are_0_to_3() {
    let ways = [Way::Lone, Way::Same, Way::Opposite, Way::Neither];
    assert_eq!(ways.map(u32::from), [0, 1, 2, 3]);
    assert_eq!([0, 1, 2, 3].map(Way::try_from), ways.map(Ok));
    assert_eq!(Way::try_from(4), Err(4));
    let inside = braced("include/mengkiloh.h", "enum mk_way {");
    let header = inside
        .lines()
        .filter_map(|line| line.trim().strip_prefix("MK_")?.split([',', '/']).next())
        .map(|row| row.trim().to_string());
    let named = ways.map(|way| format!("{} = {}", upper(&format!("{way:?}")), u32::from(way)));
    assert_eq!(Vec::from_iter(header), named);
    use second::Way::*;
    let theirs = [Lone, Same, Opposite, Neither].map(|way| (format!("{way:?}"), way.number()));
    assert_eq!(theirs, ways.map(|way| (format!("{way:?}"), way.into())));
}

/// The kinds of a listed edit: here, in the header and in the second program.
#[test]
fn the_kinds_of_edits_are_1_and_2() {
    let mut edits = Edits::new();
    edits.remove(Cell(7));
    assert_eq!(edits.words(), [second::calls::REMOVE, 7]);
    edits.insert(Cell(8), Type::Bar, Licence(9), &[5, 6].map(Mark));
    assert_eq!(edits.words()[2..], [second::calls::INSERT, 8, 1, 9, 5, 6]);
    let inside = braced("include/mengkiloh.h", "enum mk_kind {");
    let rows: Vec<&str> = inside
        .lines()
        .filter_map(|line| line.trim().strip_prefix("MK_")?.split([',', '/']).next())
        .map(str::trim)
        .collect();
    assert_eq!(rows, ["INSERT = 1", "REMOVE = 2"]);
}

/// The header's version is the library's.
#[test]
fn the_header_has_the_version_of_the_library() {
    let path = Path::new(env!("CARGO_MANIFEST_DIR")).join("../include/mengkiloh.h");
    let text = std::fs::read_to_string(path).expect("the file is there");
    let defined = text
        .lines()
        .find_map(|line| line.strip_prefix("#define MK_VERSION 0x"));
    let digits = defined.expect("the version is there").trim_end_matches('u');
    assert_eq!(u32::from_str_radix(digits, 16), Ok(mengkiloh::version()));
    assert_eq!(mengkiloh::version().to_be_bytes(), [0, 5, 1, 0]);
}

#[test]
fn the_second_program_has_these_names() {
    let numbered = |refusal: second::Refusal| (refusal.number(), format!("{refusal:?}"));
    let mut theirs = second::Refusal::ALL.map(numbered).to_vec();
    theirs.retain(|(_, name)| name != "BadFrame");
    let numbers = Refusal::ALL.map(Refusal::number);
    assert_eq!(theirs, Vec::from_iter(numbers.into_iter().zip(ours())));
}

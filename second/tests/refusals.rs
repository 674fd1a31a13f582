//! Every refusal number, at every call that can give it, at the edge of its
//! condition: the last value accepted and the first one refused.

mod common;

use common::maps::*;
use second::{room, Memory, Refusal, Walker};

/// The number of the refusal, or 0.
fn number<T>(answer: Result<T, Refusal>) -> u8 {
    answer.err().map_or(0, Refusal::number)
}

/// The number of a build's refusal and the record place, or 0 and 0.
fn at_place(answer: Result<(), (Refusal, usize)>) -> (u8, usize) {
    answer.map_or_else(|(refusal, place)| (refusal.number(), place), |()| (0, 0))
}

/// Each query about a cell, with its refusal number.
fn about_cell(memory: &Memory, cell: u32) -> Vec<(&'static str, u8)> {
    vec![
        ("type", number(memory.type_of(cell))),
        ("licence", number(memory.licence(cell))),
        ("sibling", number(memory.sibling(cell, 0))),
        ("cycle", number(memory.cycle(cell, 0, PLENTY, PLENTY))),
        ("border", number(memory.border(cell, 0))),
        ("neighbours", number(memory.neighbours(cell, PLENTY))),
        ("walker", number(walker_at(cell, 0).step(memory))),
    ]
}

/// Each query about a mark, with its refusal number.
fn about_mark(memory: &Memory, dimension: u32, mark: u32) -> Vec<(&'static str, u8)> {
    vec![
        ("star", number(memory.star(dimension, mark, PLENTY))),
        ("anchors", number(memory.anchors(dimension, mark, PLENTY))),
        ("first anchor", number(memory.first_anchor(dimension, mark))),
    ]
}

fn walker_at(cell: u32, facet: u32) -> Walker {
    Walker {
        half: 8 * cell + facet,
    }
}

fn assert_all(answers: Vec<(&'static str, u8)>, due: u8) {
    for (call, given) in answers {
        assert_eq!(given, due, "{call}");
    }
}

#[test]
fn refusal_1_a_capacity_above_65535() {
    let mut memory = Memory::lent(room(65_536, 65_536));
    assert_eq!(number(memory.format(65_535, 65_535)), 0);
    assert_eq!(number(memory.format(65_536, 0)), 1);
    assert_eq!(number(memory.format(0, 65_536)), 1);
    assert_eq!(number(memory.format(u32::MAX, u32::MAX)), 1);
    assert_eq!(at_place(memory.build(65_536, 0, &[])), (1, 0));
    assert_eq!(at_place(memory.build(0, 65_536, &[])), (1, 0));
    assert_eq!(at_place(memory.build(65_535, 65_535, &[])), (0, 0));
}

#[test]
fn refusal_2_memory_shorter_than_the_room() {
    for (marks, cells, exact) in [(0, 0, 16), (6, 4, 192), (1, 0, 24), (0, 1, 48)] {
        let mut short = Memory::lent(exact - 1);
        assert_eq!(number(short.format(marks, cells)), 2);
        assert_eq!(at_place(short.build(marks, cells, &[])), (2, 0));
        let mut enough = Memory::lent(exact);
        assert_eq!(number(enough.format(marks, cells)), 0);
        assert_eq!(at_place(enough.build(marks, cells, &[])), (0, 0));
    }
    assert_eq!(number(Memory::lent(0).format(0, 0)), 2);
}

#[test]
fn refusal_3_a_cell_number_not_below_the_capacity() {
    let mut memory = mesh(6, 4, &[(3, TRI, &[0, 1, 2])]);
    assert_all(about_cell(&memory, 3), 0);
    // 65,536 and 65,539 cut to 16 bits would be 0 and 3.
    for cell in [4, 65_535, 65_536, 65_539] {
        assert_all(about_cell(&memory, cell), 3);
        assert_eq!(number(memory.remove(cell)), 3);
        assert_eq!(number(memory.insert(cell, TRI, &[0, 1, 3])), 3);
        assert_eq!(memory.marks_of(cell), []);
        let records = words(&[(0, TRI, &[0, 1, 2]), (cell, TRI, &[0, 1, 3])]);
        assert_eq!(at_place(memory.clone().build(6, 4, &records)), (3, 1));
    }
    assert_eq!(number(memory.insert(2, TRI, &[0, 1, 3])), 0);
    assert_eq!(number(memory.type_of(u32::MAX)), 3);
    assert_eq!(number(Walker { half: u32::MAX }.step(&memory)), 3);
    assert_eq!(number(formatted(6, 0).type_of(0)), 3);
}

#[test]
fn refusal_4_the_number_is_live() {
    let mut memory = p2();
    assert_eq!(number(memory.insert(0, TRI, &[3, 4, 5])), 4);
    assert_eq!(number(memory.insert(0, BAR, &[3, 4])), 4);
    assert_eq!(number(memory.insert(1, TRI, &[3, 4, 5])), 0);
    let records = words(&[(0, TRI, &[0, 1, 2]), (0, TRI, &[3, 4, 5])]);
    assert_eq!(at_place(memory.build(6, 4, &records)), (4, 1));
}

#[test]
fn refusal_5_the_cell_is_not_live() {
    let mut memory = p4();
    assert_all(about_cell(&memory, 1), 0);
    assert_eq!(number(memory.remove(1)), 0);
    for cell in [1, 3] {
        assert_all(about_cell(&memory, cell), 5);
        assert_eq!(number(memory.remove(cell)), 5);
        assert_eq!(memory.marks_of(cell), []);
    }
}

#[test]
fn refusal_6_an_unknown_type_or_dimension() {
    let mut memory = p2();
    // 258 cut to 8 bits would be 2.
    for code in [0, 8, 255, 256, 258, u32::MAX] {
        assert_eq!(number(memory.insert(1, code, &[3, 4, 5])), 6);
        assert_eq!(number(memory.cells_of_type(code, PLENTY)), 6);
        assert_eq!(number(memory.count_of_type(code)), 6);
        let records = words(&[(0, TRI, &[0, 1, 2]), (1, code, &[3, 4, 5])]);
        assert_eq!(at_place(memory.clone().build(6, 4, &records)), (6, 1));
    }
    for code in 1..=7 {
        assert_eq!(number(memory.cells_of_type(code, PLENTY)), 0);
        assert_eq!(number(memory.count_of_type(code)), 0);
    }
    for dimension in [0, 4, 255, 258, u32::MAX] {
        assert_all(about_mark(&memory, dimension, 0), 6);
    }
    for dimension in 1..=3 {
        assert_all(about_mark(&memory, dimension, 0), 0);
    }
}

#[test]
fn refusal_6_another_edition() {
    let memory = p2();
    // 257 and 258 cut to 8 bits would be 1 and 2.
    for edition in [0, 3, 257, 258, u32::MAX] {
        let mut memory = memory.clone();
        assert_eq!(number(memory.format_edition(6, 4, edition)), 6);
        let built = memory.build_edition(6, 4, edition, &[0, BAR, 7, 0, 1]);
        assert_eq!(at_place(built), (6, 0));
    }
    for edition in [1, 2] {
        let mut memory = memory.clone();
        assert_eq!(number(memory.format_edition(6, 4, edition)), 0);
        let built = memory.build_edition(6, 4, edition, &[0, BAR, 7, 0, 1]);
        assert_eq!(at_place(built), (0, 0));
    }
}

#[test]
fn refusal_7_a_wrong_count_of_marks() {
    let all = [0, 1, 2, 3, 4, 5, 6, 7, 8];
    let types = [
        (BAR, 2),
        (TRI, 3),
        (QUAD, 4),
        (TETRA, 4),
        (PYRA, 5),
        (PENTA, 6),
        (HEXA, 8),
    ];
    for (code, due) in types {
        for count in 0..=9 {
            let answer = number(formatted(9, 4).insert(0, code, &all[..count]));
            assert_eq!(
                answer,
                if count == due { 0 } else { 7 },
                "{count} for {code}"
            );
        }
    }
    for (count, due) in [(0, 7), (1, 0), (2, 0), (3, 0), (4, 0), (5, 7), (6, 7)] {
        assert_eq!(
            number(p2().lookup(&all[..count])),
            due,
            "{count} for lookup"
        );
    }
}

#[test]
fn refusal_7_a_build_record_cut_short() {
    let two = words(&[(0, TRI, &[0, 1, 2]), (1, QUAD, &[0, 1, 3, 4])]);
    let mut memory = p1();
    assert_eq!(at_place(memory.build(6, 4, &two)), (0, 0));
    let first = 6;
    for length in 1..two.len() {
        let due = match length.cmp(&first) {
            std::cmp::Ordering::Less => (7, 0),
            std::cmp::Ordering::Equal => (0, 0),
            std::cmp::Ordering::Greater => (7, 1),
        };
        assert_eq!(
            at_place(memory.build(6, 4, &two[..length])),
            due,
            "{length}"
        );
    }
}

#[test]
fn refusal_8_a_mark_not_below_the_capacity() {
    let mut memory = p2();
    // 65,536 and 65,541 cut to 16 bits would be 0 and 5.
    for mark in [6, 65_536, 65_541, u32::MAX] {
        for place in 0..3 {
            let mut marks = [3, 4, 5];
            marks[place] = mark;
            assert_eq!(number(memory.insert(1, TRI, &marks)), 8);
            assert_eq!(number(memory.lookup(&marks)), 8);
            let records = words(&[(0, TRI, &[0, 1, 2]), (1, TRI, &marks)]);
            assert_eq!(at_place(memory.clone().build(6, 4, &records)), (8, 1));
        }
        assert_all(about_mark(&memory, 2, mark), 8);
    }
    assert_all(about_mark(&memory, 2, 5), 0);
    assert_eq!(number(memory.lookup(&[5])), 0);
    assert_eq!(number(memory.insert(1, TRI, &[3, 4, 5])), 0);
}

#[test]
fn refusal_9_a_mark_occurs_twice() {
    let mut memory = p1();
    for marks in [[0, 0, 1], [0, 1, 0], [1, 0, 0], [2, 2, 2]] {
        assert_eq!(number(memory.insert(0, TRI, &marks)), 9);
        assert_eq!(number(memory.lookup(&marks)), 9);
        let records = words(&[(0, BAR, &[0, 1]), (1, TRI, &marks)]);
        assert_eq!(at_place(memory.clone().build(6, 4, &records)), (9, 1));
    }
    assert_eq!(number(memory.insert(0, QUAD, &[0, 1, 2, 0])), 9);
    assert_eq!(number(memory.insert(0, PYRA, &[0, 1, 2, 3, 0])), 9);
    assert_eq!(number(memory.insert(0, PENTA, &[0, 1, 2, 3, 4, 3])), 9);
    assert_eq!(number(memory.insert(0, HEXA, &[0, 1, 2, 3, 4, 5, 1, 0])), 9);
    assert_eq!(number(memory.insert(0, BAR, &[5, 5])), 9);
    assert_eq!(number(memory.lookup(&[3, 3])), 9);
    assert_eq!(number(memory.lookup(&[3, 2, 1, 3])), 9);
}

/// By type and by set: quads that run differently through the same marks are
/// the same, a quad and a tetrahedron are not.
#[test]
fn refusal_10_a_live_cell_of_that_type_has_the_same_set() {
    let mut memory = mesh(6, 4, &[(0, QUAD, &[0, 1, 2, 3])]);
    assert_eq!(number(memory.insert(1, QUAD, &[0, 2, 1, 3])), 10);
    assert_eq!(number(memory.insert(1, TETRA, &[0, 2, 1, 3])), 0);
    assert_eq!(number(memory.insert(2, TETRA, &[3, 2, 1, 0])), 10);
    assert_eq!(number(memory.insert(2, TRI, &[0, 1, 2])), 0);
    assert_eq!(number(memory.insert(3, BAR, &[0, 1])), 0);
    assert_eq!(number(memory.remove(0)), 0);
    assert_eq!(number(memory.insert(0, BAR, &[1, 0])), 10);
    assert_eq!(number(memory.insert(0, QUAD, &[0, 2, 1, 3])), 0);
    let records = words(&[(0, TRI, &[0, 1, 2]), (1, TRI, &[2, 0, 1])]);
    assert_eq!(at_place(memory.build(6, 4, &records)), (10, 1));
}

#[test]
fn refusal_11_a_mark_stands_in_128_cells_already() {
    let mut memory = with_full_mark();
    for marks in [[10, 3, 4], [3, 10, 4], [3, 4, 10]] {
        assert_eq!(number(memory.insert(150, TRI, &marks)), 11);
    }
    assert_eq!(number(memory.insert(150, TRI, &[20, 3, 4])), 0);
    let mut records = Vec::new();
    for (cell, code, marks) in full_mark_records() {
        records.extend(words(&[(cell, code, &marks)]));
    }
    assert_eq!(at_place(memory.build(200, 200, &records)), (0, 0));
    records.extend([150, TRI, 7, 3, 10, 4]);
    assert_eq!(at_place(memory.build(200, 200, &records)), (11, 129));
}

#[test]
fn refusal_12_the_list_does_not_fit() {
    let memory = p4();
    assert_eq!(number(memory.cycle(0, 0, 2, 2)), 12);
    assert_eq!(number(memory.cycle(0, 0, 2, 3)), 12);
    assert_eq!(number(memory.cycle(0, 0, 3, 2)), 12);
    assert_eq!(number(memory.cycle(0, 0, 3, 3)), 0);
    assert_eq!(number(memory.star(2, 0, 2)), 12);
    assert_eq!(number(memory.neighbours(0, 1)), 12);
    assert_eq!(number(memory.cells_of_type(TRI, 2)), 12);
    assert_eq!(number(memory.live(2)), 12);
    assert_eq!(number(memory.live(3)), 0);
    assert_eq!(number(p5().anchors(2, 0, 1)), 12);
}

#[test]
fn refusal_13_a_local_facet_not_below_the_types_count() {
    let records: [Record; 7] = [
        (0, BAR, &[0, 1]),
        (1, TRI, &[0, 1, 2]),
        (2, QUAD, &[0, 1, 2, 3]),
        (3, TETRA, &[0, 1, 2, 3]),
        (4, PYRA, &[0, 1, 2, 3, 4]),
        (5, PENTA, &[0, 1, 2, 3, 4, 5]),
        (6, HEXA, &[0, 1, 2, 3, 4, 5, 6, 7]),
    ];
    let memory = mesh(8, 7, &records);
    for (cell, count) in [(0, 2), (1, 3), (2, 4), (3, 4), (4, 5), (5, 5), (6, 6)] {
        for facet in 0..8 {
            let due = if facet < count { 0 } else { 13 };
            assert_eq!(number(memory.sibling(cell, facet)), due);
            assert_eq!(number(memory.cycle(cell, facet, PLENTY, PLENTY)), due);
            assert_eq!(number(memory.border(cell, facet)), due);
            assert_eq!(number(walker_at(cell, facet).step(&memory)), due);
        }
        // Never read as a half-facet of the next cell, nor cut to 8 bits.
        for facet in [8, 255, 256, u32::MAX] {
            assert_eq!(number(memory.sibling(cell, facet)), 13);
            assert_eq!(number(memory.cycle(cell, facet, PLENTY, PLENTY)), 13);
            assert_eq!(number(memory.border(cell, facet)), 13);
        }
    }
}

#[test]
fn refusal_14_memory_is_not_a_mesh() {
    let mut shortened = p4();
    shortened.words -= 1;
    let mut under_16 = formatted(0, 0);
    under_16.words = 15;
    let never_formatted = Memory::lent(1000);
    for mut memory in [Memory::lent(0), never_formatted, shortened, under_16] {
        assert!(!memory.whole());
        assert_all(about_cell(&memory, 0), 14);
        assert_all(about_mark(&memory, 2, 0), 14);
        assert_eq!(number(memory.lookup(&[0])), 14);
        assert_eq!(number(memory.cells_of_type(TRI, PLENTY)), 14);
        assert_eq!(number(memory.count_of_type(TRI)), 14);
        assert_eq!(number(memory.edition()), 14);
        assert_eq!(number(memory.capacities()), 14);
        assert_eq!(number(memory.free()), 14);
        assert_eq!(number(memory.live(PLENTY)), 14);
        assert_eq!(number(memory.insert(3, TRI, &[0, 1, 2])), 14);
        assert_eq!(number(memory.remove(0)), 14);
        assert_eq!(memory.marks_of(0), []);
    }
}

/// "14 first, save for format and build".
#[test]
fn format_and_build_need_no_mesh() {
    let mut memory = Memory::lent(16);
    assert_eq!(number(memory.format(0, 0)), 0);
    let mut memory = Memory::lent(16);
    assert_eq!(at_place(memory.build(0, 0, &[])), (0, 0));
    let mut memory = Memory::lent(15);
    assert_eq!(number(memory.format(0, 0)), 2);
    assert_eq!(at_place(memory.build(0, 0, &[])), (2, 0));
}

#[test]
fn refusal_15_a_bad_frame() {
    assert_eq!(second::frames::run(b"\n"), b"0f\n");
}

#[test]
fn refusal_19_a_third_solid_on_a_face_under_edition_2() {
    let solids: [Record; 3] = [
        (0, TETRA, &[0, 1, 2, 3]),
        (1, TETRA, &[0, 1, 2, 4]),
        (2, TETRA, &[0, 1, 2, 5]),
    ];
    for (edition, due) in [(1, 0), (2, 19)] {
        let mut memory = formatted_edition(6, 4, edition);
        assert_eq!(number(memory.insert(0, TETRA, solids[0].2)), 0);
        assert_eq!(number(memory.insert(1, TETRA, solids[1].2)), 0);
        assert_eq!(number(memory.insert(2, TETRA, solids[2].2)), due);
        let built = at_place(memory.build_edition(6, 4, edition, &words(&solids)));
        assert_eq!(built, (due, if due == 0 { 0 } else { 2 }));
    }
}

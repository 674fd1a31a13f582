//! Every pair of faults that can occur together in one call: the one earlier
//! in the listed order is answered. Each argument takes a good value and small
//! changes of it, each with the faults it brings; every combination is called.
//!
//! Without a mesh there are no capacities, so what stands for 3 or 8 there is
//! a number above every capacity.

mod common;

use common::maps::*;
use common::pairs::*;
use second::{room, Memory, Refusal, Walker};

const NO_CELL_OF_IT: &str = "no live cell is of an unknown type";
const NO_FACE_OF_IT: &str = "an unknown type has no faces";
const LIVE_MARKS_ARE_BELOW: &str = "the marks of a live cell are below the capacity";
const LIVE_MARKS_DIFFER: &str =
    "the marks of a live cell are all different, so a list of the right \
     count with a repeat is another set; with a wrong count 7 comes first";

/// P9: cells 0 and 2 share an edge, 1 was removed, 4 is the capacity; and
/// memory without a mesh.
fn memories() -> [Choice<Memory>; 2] {
    [(p9(), &[]), (Memory::lent(1000), &[14])]
}

/// A number that is not below the capacity is not live either.
fn cells() -> [Choice<u32>; 4] {
    [(0, &[]), (1, &[5]), (4, &[3, 5]), (ABOVE_ALL, &[3, 5])]
}

fn facets() -> [Choice<u32>; 3] {
    [(0, &[]), (8, &[13]), (u32::MAX, &[13])]
}

/// No list asked for here is empty unless something else is wrong.
fn rooms() -> [Choice<usize>; 2] {
    [(PLENTY, &[]), (0, &[12])]
}

fn dimensions() -> [Choice<u32>; 4] {
    [(2, &[]), (0, &[6]), (4, &[6]), (258, &[6])]
}

fn marks() -> [Choice<u32>; 3] {
    [(0, &[]), (6, &[8]), (ABOVE_ALL, &[8])]
}

fn codes() -> [Choice<u32>; 4] {
    [(TRI, &[]), (0, &[6]), (9, &[6]), (258, &[6])]
}

/// Capacities and words.
fn lent_for_200() -> [Choice<(u32, u32, usize)>; 6] {
    let exact = room(200, 200);
    let plenty = 10_000_000;
    [
        ((200, 200, exact), &[]),
        ((ABOVE_ALL, 200, plenty), &[1]),
        ((200, ABOVE_ALL, plenty), &[1]),
        ((200, 200, exact - 1), &[2]),
        ((ABOVE_ALL, 200, exact), &[1, 2]),
        ((200, ABOVE_ALL, 0), &[1, 2]),
    ]
}

#[test]
fn format_1_2() {
    let mut pairs = Pairs::in_order(&[1, 2]);
    for ((marks, cells, words), faults) in lent_for_200() {
        let mut memory = Memory::lent(words);
        let answer = memory.format(marks, cells);
        assert_eq!(memory.mesh.is_some(), answer.is_ok());
        pairs.see(&[faults], answer.err());
    }
    pairs.end(&[]);
}

fn editions() -> [Choice<u32>; 5] {
    [
        (2, &[]),
        (0, &[EDITION]),
        (3, &[EDITION]),
        (258, &[EDITION]),
        (u32::MAX, &[EDITION]),
    ]
}

#[test]
fn format_edition_6_1_2() {
    let mut pairs = Pairs::in_order(&[EDITION, 1, 2]);
    for ((marks, cells, words), faults) in lent_for_200() {
        for (edition, of_edition) in editions() {
            let mut memory = Memory::lent(words);
            let answer = memory.format_edition(marks, cells, edition);
            assert_eq!(memory.mesh.is_some(), answer.is_ok());
            pairs.see(&[of_edition, faults], answer.err());
        }
    }
    pairs.end(&[]);
}

#[test]
fn edition_14() {
    let mut pairs = Pairs::in_order(&[14]);
    for (memory, of_memory) in memories() {
        pairs.see(&[of_memory], memory.edition().err());
    }
    pairs.end(&[]);
}

#[test]
fn capacities_and_free_14() {
    let mut pairs = Pairs::in_order(&[14]);
    for (memory, of_memory) in memories() {
        pairs.see(&[of_memory], memory.capacities().err());
        pairs.see(&[of_memory], memory.free().err());
    }
    pairs.end(&[]);
}

#[test]
fn live_14_12() {
    let mut pairs = Pairs::in_order(&[14, 12]);
    for (memory, of_memory) in memories() {
        for (room, of_room) in rooms() {
            pairs.see(&[of_memory, of_room], memory.live(room).err());
        }
    }
    pairs.end(&[]);
}

/// Type and marks of an insert into the map with a full mark, mark 10.
fn types_and_marks() -> Vec<Choice<(u32, &'static [u32])>> {
    vec![
        ((TRI, &[3, 4, 5]), &[]),
        ((258, &[3, 4, 5]), &[6]),
        ((0, &[3, 4, 5]), &[6]),
        ((TRI, &[3, 4]), &[7]),
        ((TRI, &[3, 4, 5, 6]), &[7]),
        ((TRI, &[3, 4, ABOVE_ALL]), &[8]),
        ((TRI, &[200, 4, 5]), &[8]),
        ((TRI, &[3, 4, 4]), &[9]),
        ((TRI, &[2, 0, 1]), &[10]),
        ((TRI, &[3, 4, 10]), &[11]),
        // "an unknown type is 6 even so"
        ((258, &[]), &[6, 7]),
        ((258, &[3, 4, ABOVE_ALL]), &[6, 8]),
        ((258, &[3, 3, 4]), &[6, 9]),
        ((258, &[10, 4, 5]), &[6, 11]),
        ((TRI, &[ABOVE_ALL, 4]), &[7, 8]),
        ((TRI, &[3, 3]), &[7, 9]),
        ((TRI, &[0, 1, 2, 2]), &[7, 9, 10]),
        ((TRI, &[10, 3]), &[7, 11]),
        // Each check looks at all marks before the next check starts.
        ((TRI, &[3, 3, ABOVE_ALL]), &[8, 9]),
        ((TRI, &[10, 3, ABOVE_ALL]), &[8, 11]),
        ((TRI, &[10, 3, 3]), &[9, 11]),
        ((BAR, &[30, 10]), &[10, 11]),
    ]
}

/// The same of an insert that would put a third solid on a face: of the marks
/// 160, 161 and 162, or of the full mark and the marks 165 and 166.
fn third_solids() -> Vec<Choice<(u32, &'static [u32])>> {
    vec![
        ((TETRA, &[170, 162, 160, 161]), &[19]),
        ((PYRA, &[160, 170, 171, 161, 162]), &[19]),
        ((PENTA, &[170, 171, 172, 162, 161, 160]), &[19]),
        ((TETRA, &[160, 161, 162, 170, 171]), &[7, 19]),
        ((TETRA, &[160, 161, 162, ABOVE_ALL]), &[8, 19]),
        ((TETRA, &[160, 161, 162, 160]), &[9, 19]),
        ((TETRA, &[163, 162, 161, 160]), &[10, 19]),
        ((TETRA, &[10, 165, 166, 170]), &[19, 11]),
        ((TETRA, &[166, 165, 10, 167]), &[10, 19, 11]),
    ]
}

/// Calls an insert into the memory, and into memory without a mesh, of each
/// cell number, type and marks.
fn over_inserts(
    pairs: &mut Pairs,
    full: Memory,
    types_and_marks: &[Choice<(u32, &'static [u32])>],
) {
    let memories: [Choice<Memory>; 2] = [(full, &[]), (Memory::lent(room(200, 200)), &[14])];
    let cells: [Choice<u32>; 4] = [(150, &[]), (200, &[3]), (ABOVE_ALL, &[3]), (0, &[4])];
    for (memory, of_memory) in &memories {
        for (cell, of_cell) in cells {
            for ((code, marks), of_marks) in types_and_marks {
                let faults = [of_cell, of_marks].concat();
                let needs_live_cell = faults.iter().any(|fault| [4, 10, 19, 11].contains(fault));
                if memory.mesh.is_none() && needs_live_cell {
                    continue;
                }
                let mut after = memory.clone();
                let answer = after.insert(cell, *code, marks);
                assert_eq!(after == *memory, answer.is_err());
                pairs.see(&[of_memory, of_cell, of_marks], answer.err());
            }
        }
    }
}

#[test]
fn insert_3_4_6_7_8_9_10_11() {
    let mut pairs = Pairs::in_order(&[14, 3, 4, 6, 7, 8, 9, 10, 11]);
    over_inserts(&mut pairs, with_full_mark(), &types_and_marks());
    pairs.end(&[
        (14, 4, NO_LIVE_CELL),
        (14, 10, NO_LIVE_CELL),
        (14, 11, NO_LIVE_CELL),
        (3, 4, LIVE_IS_BELOW),
        (6, 10, NO_CELL_OF_IT),
        (8, 10, LIVE_MARKS_ARE_BELOW),
        (9, 10, LIVE_MARKS_DIFFER),
    ]);
}

#[test]
fn insert_under_edition_2_3_4_6_7_8_9_10_19_11() {
    let mut pairs = Pairs::in_order(&[14, 3, 4, 6, 7, 8, 9, 10, 19, 11]);
    let inserts = [types_and_marks(), third_solids()].concat();
    over_inserts(&mut pairs, with_full_face(), &inserts);
    pairs.end(&[
        (14, 4, NO_LIVE_CELL),
        (14, 10, NO_LIVE_CELL),
        (14, 19, NO_LIVE_CELL),
        (14, 11, NO_LIVE_CELL),
        (3, 4, LIVE_IS_BELOW),
        (6, 10, NO_CELL_OF_IT),
        (6, 19, NO_FACE_OF_IT),
        (8, 10, LIVE_MARKS_ARE_BELOW),
        (9, 10, LIVE_MARKS_DIFFER),
    ]);
}

/// The faults stand in the last record, after the 129 of the full mark. With 1
/// or 2 no record is read, yet the fault stands in the list.
#[test]
fn build_1_2_then_a_records_7_3_4_6_7_8_9_10_11() {
    let mut pairs = Pairs::in_order(&[1, 2, MISSING, 3, 4, 6, 7, 8, 9, 10, 11]);
    let mut before = Vec::new();
    for (cell, code, marks) in full_mark_records() {
        before.extend(words(&[(cell, code, &marks)]));
    }
    let numbers: [Choice<u32>; 3] = [(150, &[]), (ABOVE_ALL, &[3]), (0, &[4])];
    for ((marks, cells, words), of_memory) in lent_for_200() {
        for (cell, of_cell) in numbers {
            for (record, of_record) in after_the_number() {
                let mut memory = Memory::lent(words);
                let records = [&before, &[cell][..], record].concat();
                let answer = memory.build(marks, cells, &records);
                let place = if of_memory.is_empty() { 129 } else { 0 };
                assert_eq!(answer.err().map_or(place, |(_, place)| place), place);
                let refusal = answer.err().map(|(refusal, _)| refusal);
                pairs.see(&[of_memory, of_cell, of_record], refusal);
            }
        }
    }
    pairs.end(&[
        (MISSING, 7, NO_CODE),
        (MISSING, 8, NO_CODE),
        (MISSING, 9, NO_CODE),
        (MISSING, 10, NO_CODE),
        (MISSING, 11, NO_CODE),
        (3, 4, LIVE_IS_BELOW),
        (6, 10, NO_CELL_OF_IT),
        (7, 10, TOO_FEW),
        (8, 10, LIVE_MARKS_ARE_BELOW),
        (9, 10, LIVE_MARKS_DIFFER),
    ]);
}

const NO_CODE: &str = "a record without its code or its licence has no marks";
const TOO_FEW: &str = "a record cut short has fewer marks than a live cell of its type";

/// The same under edition 2, after the 131 of the full mark and the full faces.
#[test]
fn build_edition_6_1_2_then_a_records_7_3_4_6_7_8_9_10_19_11() {
    let order = &[EDITION, 1, 2, MISSING, 3, 4, 6, 7, 8, 9, 10, 19, 11];
    let mut pairs = Pairs::in_order(order);
    let mut before = Vec::new();
    for (cell, code, marks) in full_face_records() {
        before.extend(words(&[(cell, code, &marks)]));
    }
    let numbers: [Choice<u32>; 3] = [(150, &[]), (ABOVE_ALL, &[3]), (0, &[4])];
    let records = [after_the_number(), third_solids_after_the_number()].concat();
    for ((marks, cells, words), of_memory) in lent_for_200() {
        for (edition, of_edition) in editions() {
            for (cell, of_cell) in numbers {
                for (record, of_record) in &records {
                    let mut memory = Memory::lent(words);
                    let records = [&before, &[cell][..], record].concat();
                    let answer = memory.build_edition(marks, cells, edition, &records);
                    let read = of_edition.is_empty() && of_memory.is_empty();
                    let place = if read { 131 } else { 0 };
                    assert_eq!(answer.err().map_or(place, |(_, place)| place), place);
                    assert_eq!(memory.mesh.is_some(), read);
                    let refusal = answer.err().map(|(refusal, _)| refusal);
                    pairs.see(&[of_edition, of_memory, of_cell, of_record], refusal);
                }
            }
        }
    }
    pairs.end(&[
        (MISSING, 7, NO_CODE),
        (MISSING, 8, NO_CODE),
        (MISSING, 9, NO_CODE),
        (MISSING, 10, NO_CODE),
        (MISSING, 19, NO_CODE),
        (MISSING, 11, NO_CODE),
        (3, 4, LIVE_IS_BELOW),
        (6, 10, NO_CELL_OF_IT),
        (6, 19, NO_FACE_OF_IT),
        (7, 10, TOO_FEW),
        (8, 10, LIVE_MARKS_ARE_BELOW),
        (9, 10, LIVE_MARKS_DIFFER),
    ]);
}

/// Two faulty records: the first one is answered, whatever its number. A
/// record cut short can only be the last.
#[test]
fn build_answers_the_first_refused_record() {
    let whole: [(Record, u8); 6] = [
        ((ABOVE_ALL, TRI, &[3, 4, 5]), 3),
        ((0, TRI, &[3, 4, 5]), 4),
        ((1, 258, &[]), 6),
        ((1, TETRA, &[0, 1, 2, ABOVE_ALL]), 8),
        ((1, TRI, &[3, 3, 4]), 9),
        ((1, TRI, &[2, 0, 1]), 10),
    ];
    let cut_short: (Record, u8) = ((1, TRI, &[]), 7);
    for (first, due) in whole {
        for (second, _) in whole.iter().chain([&cut_short]) {
            let records = words(&[(0, TRI, &[0, 1, 2]), first, *second]);
            let (refusal, place) = p1().build(6, 4, &records).unwrap_err();
            assert_eq!((refusal.number(), place), (due, 1));
        }
    }
}

/// Calls `ask` with every memory and cell.
fn over_cells(pairs: &mut Pairs, ask: impl Fn(&Memory, u32) -> Option<Refusal>) {
    for (memory, of_memory) in memories() {
        for (cell, of_cell) in cells() {
            pairs.see(&[of_memory, of_cell], ask(&memory, cell));
        }
    }
}

#[test]
fn remove_3_5() {
    let mut pairs = Pairs::in_order(&[14, 3, 5]);
    over_cells(&mut pairs, |memory, cell| {
        let mut after = memory.clone();
        let answer = after.remove(cell);
        assert_eq!(after == *memory, answer.is_err());
        answer.err()
    });
    pairs.end(&[]);
}

#[test]
fn type_3_5() {
    let mut pairs = Pairs::in_order(&[14, 3, 5]);
    over_cells(&mut pairs, |memory, cell| {
        let answer = memory.type_of(cell);
        assert_eq!(memory.marks_of(cell).is_empty(), answer.is_err());
        answer.err()
    });
    pairs.end(&[]);
}

#[test]
fn neighbours_3_5_12() {
    let mut pairs = Pairs::in_order(&[14, 3, 5, 12]);
    for (room, of_room) in rooms() {
        for (memory, of_memory) in memories() {
            for (cell, of_cell) in cells() {
                let answer = memory.neighbours(cell, room);
                pairs.see(&[of_memory, of_cell, of_room], answer.err());
            }
        }
    }
    pairs.end(&[]);
}

/// Calls `ask` with every memory, cell and facet.
fn over_half_facets(pairs: &mut Pairs, ask: impl Fn(&Memory, u32, u32) -> Option<Refusal>) {
    for (memory, of_memory) in memories() {
        for (cell, of_cell) in cells() {
            for (facet, of_facet) in facets() {
                let answer = ask(&memory, cell, facet);
                pairs.see(&[of_memory, of_cell, of_facet], answer);
            }
        }
    }
}

#[test]
fn sibling_3_5_13() {
    let mut pairs = Pairs::in_order(&[14, 3, 5, 13]);
    over_half_facets(&mut pairs, |memory, cell, facet| {
        memory.sibling(cell, facet).err()
    });
    pairs.end(&[]);
}

#[test]
fn border_3_5_13() {
    let mut pairs = Pairs::in_order(&[14, 3, 5, 13]);
    over_half_facets(&mut pairs, |memory, cell, facet| {
        memory.border(cell, facet).err()
    });
    pairs.end(&[]);
}

/// A walker's half-facet number has no room for a facet above 7.
#[test]
fn walker_3_5_13() {
    let mut pairs = Pairs::in_order(&[14, 3, 5, 13]);
    let facets: [Choice<u32>; 3] = [(0, &[]), (3, &[13]), (7, &[13])];
    for (memory, of_memory) in memories() {
        for (cell, of_cell) in cells() {
            for (facet, of_facet) in facets {
                let half = 8 * cell + facet;
                let answer = Walker { half }.step(&memory);
                pairs.see(&[of_memory, of_cell, of_facet], answer.err());
            }
        }
    }
    pairs.end(&[]);
}

#[test]
fn cycle_3_5_13_12() {
    let mut pairs = Pairs::in_order(&[14, 3, 5, 13, 12]);
    let both_rooms: [Choice<(usize, usize)>; 4] = [
        ((PLENTY, PLENTY), &[]),
        ((0, PLENTY), &[12]),
        ((PLENTY, 1), &[12]),
        ((1, 0), &[12]),
    ];
    for ((room, ways_room), of_room) in both_rooms {
        for (memory, of_memory) in memories() {
            for (cell, of_cell) in cells() {
                for (facet, of_facet) in facets() {
                    let answer = memory.cycle(cell, facet, room, ways_room);
                    pairs.see(&[of_memory, of_cell, of_facet, of_room], answer.err());
                }
            }
        }
    }
    pairs.end(&[]);
}

type ListAtMark = fn(&Memory, u32, u32, usize) -> Result<Vec<u32>, Refusal>;

#[test]
fn star_and_anchors_6_8_12() {
    for list in [Memory::star as ListAtMark, Memory::anchors] {
        let mut pairs = Pairs::in_order(&[14, 6, 8, 12]);
        for (memory, of_memory) in memories() {
            for (dimension, of_dimension) in dimensions() {
                for (mark, of_mark) in marks() {
                    for (room, of_room) in rooms() {
                        let answer = list(&memory, dimension, mark, room);
                        pairs.see(&[of_memory, of_dimension, of_mark, of_room], answer.err());
                    }
                }
            }
        }
        pairs.end(&[]);
    }
}

#[test]
fn first_anchor_6_8() {
    let mut pairs = Pairs::in_order(&[14, 6, 8]);
    for (memory, of_memory) in memories() {
        for (dimension, of_dimension) in dimensions() {
            for (mark, of_mark) in marks() {
                let answer = memory.first_anchor(dimension, mark);
                pairs.see(&[of_memory, of_dimension, of_mark], answer.err());
            }
        }
    }
    pairs.end(&[]);
}

#[test]
fn lookup_7_8_9() {
    let mut pairs = Pairs::in_order(&[14, 7, 8, 9]);
    let sets: [Choice<&[u32]>; 10] = [
        (&[0, 1], &[]),
        (&[], &[7]),
        (&[0, 1, 2, 3, 4], &[7]),
        (&[0, 6], &[8]),
        (&[ABOVE_ALL], &[8]),
        (&[1, 1], &[9]),
        (&[0, 1, 2, 3, ABOVE_ALL], &[7, 8]),
        (&[0, 0, 1, 2, 3], &[7, 9]),
        (&[1, 1, ABOVE_ALL], &[8, 9]),
        (&[ABOVE_ALL, ABOVE_ALL], &[8, 9]),
    ];
    for (memory, of_memory) in memories() {
        for (set, of_set) in sets {
            pairs.see(&[of_memory, of_set], memory.lookup(set).err());
        }
    }
    pairs.end(&[]);
}

#[test]
fn cells_of_type_6_12() {
    let mut pairs = Pairs::in_order(&[14, 6, 12]);
    for (memory, of_memory) in memories() {
        for (code, of_code) in codes() {
            for (room, of_room) in rooms() {
                let answer = memory.cells_of_type(code, room);
                pairs.see(&[of_memory, of_code, of_room], answer.err());
            }
        }
    }
    pairs.end(&[]);
}

#[test]
fn count_of_type_6() {
    let mut pairs = Pairs::in_order(&[14, 6]);
    for (memory, of_memory) in memories() {
        for (code, of_code) in codes() {
            let answer = memory.count_of_type(code);
            pairs.see(&[of_memory, of_code], answer.err());
        }
    }
    pairs.end(&[]);
}

const NO_TYPE: &str = "a cell that is not live has no type";

/// A triangle 0 and a brick 2, none at 1, and 4 is the capacity; memory without
/// a mesh.
fn measured_memories() -> [Choice<Memory>; 2] {
    let cells: [Record; 2] = [(0, TRI, &[0, 1, 2]), (2, HEXA, &[0, 1, 2, 3, 4, 5, 6, 7])];
    [(mesh(8, 4, &cells), &[]), (Memory::lent(1000), &[14])]
}

/// For eight marks, and one number short. Without a mesh nothing tells how many
/// are due; an empty list is short for any mesh with a mark.
fn lists() -> [Choice<Vec<i16>>; 3] {
    [(vec![1; 24], &[]), (vec![1; 23], &[16]), (vec![], &[16])]
}

#[test]
fn points_14_3_5_16_12() {
    let mut pairs = Pairs::in_order(&[14, 3, 5, 16, 12]);
    for (memory, of_memory) in measured_memories() {
        for (cell, of_cell) in cells() {
            for (positions, of_list) in lists() {
                for (room, of_room) in [(9, &[][..]), (8, &[12]), (0, &[12])] {
                    let answer = memory.points(&positions, cell, room);
                    pairs.see(&[of_memory, of_cell, of_list, of_room], answer.err());
                }
            }
        }
    }
    pairs.end(&[]);
}

#[test]
fn centre_14_3_5_16() {
    let mut pairs = Pairs::in_order(&[14, 3, 5, 16]);
    for (memory, of_memory) in measured_memories() {
        for (cell, of_cell) in cells() {
            for (positions, of_list) in lists() {
                let answer = memory.centre(&positions, cell);
                pairs.see(&[of_memory, of_cell, of_list], answer.err());
            }
        }
    }
    pairs.end(&[]);
}

#[test]
fn measure_14_3_5_6_16() {
    let mut pairs = Pairs::in_order(&[14, 3, 5, 6, 16]);
    for (memory, of_memory) in measured_memories() {
        for (cell, of_cell) in cells() {
            for (positions, of_list) in lists() {
                let answer = memory.measure(&positions, cell);
                pairs.see(&[of_memory, of_cell, of_list], answer.err());
            }
        }
        if memory.mesh.is_some() {
            for (positions, of_list) in lists() {
                pairs.see(&[&[6], of_list], memory.measure(&positions, 2).err());
            }
        }
    }
    pairs.end(&[(14, 6, NO_LIVE_CELL), (3, 6, NO_TYPE), (5, 6, NO_TYPE)]);
}

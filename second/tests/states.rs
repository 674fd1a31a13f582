//! What a call leaves behind.

mod common;

use common::answers::answers;
use common::maps::*;
use second::{room, Memory, Mesh, Refusal};

/// "A refused call changes no lent memory, save a build refused at a record".
#[test]
fn a_refused_edit_changes_nothing() {
    type Edit = fn(&mut Memory) -> Result<(), Refusal>;
    let edits: [(Edit, Refusal); 14] = [
        (|it| it.format_edition(6, 4, 3), Refusal::TypeUnknown),
        (|it| it.format(65_536, 4), Refusal::CapacityAbove),
        (|it| it.format(6, 300), Refusal::MemoryShort),
        (|it| it.insert(200, TRI, &[3, 4, 5]), Refusal::CellOutside),
        (|it| it.insert(0, TRI, &[3, 4, 5]), Refusal::CellLive),
        (|it| it.insert(150, 258, &[3, 4, 5]), Refusal::TypeUnknown),
        (|it| it.insert(150, TRI, &[3, 4]), Refusal::CountWrong),
        (|it| it.insert(150, TRI, &[3, 4, 200]), Refusal::MarkOutside),
        (|it| it.insert(150, TRI, &[3, 4, 3]), Refusal::MarkTwice),
        (|it| it.insert(150, TRI, &[1, 2, 0]), Refusal::CellSame),
        (
            |it| it.insert(150, TETRA, &[160, 161, 162, 3]),
            Refusal::FaceFull,
        ),
        (|it| it.insert(150, TRI, &[3, 10, 4]), Refusal::MarkFull),
        (|it| it.remove(200), Refusal::CellOutside),
        (|it| it.remove(150), Refusal::CellNotLive),
    ];
    let before = with_full_face();
    for (edit, refusal) in edits {
        let mut memory = before.clone();
        assert_eq!(edit(&mut memory), Err(refusal));
        assert_eq!(memory, before, "{refusal}");
    }
}

/// "Refusals 1 and 2 come with place 0 and change nothing."
#[test]
fn a_build_refused_before_its_records_changes_nothing() {
    let before = p4();
    let records = words(&[(0, BAR, &[0, 1])]);
    let mut memory = before.clone();
    let refused = memory.build(65_536, 1, &records);
    assert_eq!(refused, Err((Refusal::CapacityAbove, 0)));
    let refused = memory.build(6, 5, &records);
    assert_eq!(refused, Err((Refusal::MemoryShort, 0)));
    assert_eq!(memory, before);
}

/// "At the first refused record it answers number and record place (from 0)
/// and leaves a formatted mesh with no live cell."
#[test]
fn a_build_refused_at_a_record_leaves_an_empty_formatted_mesh() {
    let good: [Record; 3] = [
        (0, TRI, &[0, 1, 2]),
        (1, BAR, &[0, 1]),
        (2, TETRA, &[0, 1, 2, 3]),
    ];
    for place in 0..=good.len() {
        let mut records = words(&good[..place]);
        records.extend([3, 9, 7]);
        for mut memory in [Memory::lent(room(6, 4)), p4()] {
            let refused = memory.build(5, 4, &records);
            assert_eq!(refused, Err((Refusal::TypeUnknown, place)));
            assert_eq!(memory.words, room(6, 4));
            assert_eq!(memory.mesh, Some(Mesh::formatted(5, 4, 1)));
            assert!(memory.whole());
            assert_eq!(answers(&memory), answers(&formatted(5, 4)));
        }
    }
}

#[test]
fn a_build_is_a_format_and_inserts_in_order() {
    let records: [Record; 3] = [
        (2, TRI, &[0, 1, 2]),
        (0, BAR, &[0, 1]),
        (1, TETRA, &[0, 1, 2, 3]),
    ];
    let mut memory = p4();
    assert_eq!(memory.build(6, 4, &words(&records)), Ok(()));
    assert_eq!(memory, mesh(6, 4, &records));
    assert_eq!(memory.build(6, 4, &[]), Ok(()));
    assert_eq!(memory, formatted(6, 4));
}

#[test]
fn a_format_empties_the_mesh_and_sets_its_capacities() {
    let mut memory = p4();
    assert_eq!(memory.format(3, 2), Ok(()));
    assert_eq!(answers(&memory), answers(&formatted(3, 2)));
    assert_eq!(memory.words, room(6, 4));
}

/// Removal and insertion again, in another order, gives equal answers.
#[test]
fn the_order_of_edits_does_not_show() {
    let records: [Record; 6] = [
        (0, TRI, &[0, 1, 2]),
        (1, TRI, &[2, 1, 3]),
        (2, QUAD, &[1, 2, 4, 5]),
        (3, TETRA, &[0, 1, 2, 3]),
        (4, TETRA, &[0, 2, 1, 4]),
        (5, BAR, &[1, 2]),
    ];
    let due = answers(&mesh(6, 6, &records));
    let mut turned = records;
    for _ in 0..records.len() {
        turned.rotate_left(1);
        assert_eq!(answers(&mesh(6, 6, &turned)), due);
        let mut memory = mesh(6, 6, &records);
        let (out, _) = turned.split_at(4);
        for &(cell, _, _) in out {
            memory.remove(cell).unwrap();
        }
        assert_ne!(answers(&memory), due);
        for &(cell, code, marks) in out.iter().rev() {
            memory
                .insert_licensed(cell, code, licence_of(cell), marks)
                .unwrap();
        }
        assert_eq!(answers(&memory), due);
    }
}

/// A removed number may be given to a cell of another type.
#[test]
fn a_number_is_free_after_its_removal() {
    let mut memory = p4();
    memory.remove(1).unwrap();
    memory
        .insert_licensed(1, TETRA, licence_of(1), &[2, 3, 4, 5])
        .unwrap();
    let afresh = mesh(
        6,
        4,
        &[
            (1, TETRA, &[2, 3, 4, 5]),
            (0, TRI, &[0, 1, 2]),
            (2, TRI, &[0, 1, 4]),
        ],
    );
    assert_eq!(answers(&memory), answers(&afresh));
    assert_eq!(memory.type_of(1), Ok(TETRA));
}

#[test]
fn memory_is_whole_exactly_if_it_holds_a_mesh() {
    let mut memory = Memory::lent(room(6, 4));
    assert!(!memory.whole());
    assert_eq!(memory.format(7, 4), Err(Refusal::MemoryShort));
    assert!(!memory.whole());
    memory.format(6, 4).unwrap();
    assert!(memory.whole());
    assert!(memory.build(6, 4, &[0]).is_err());
    assert!(memory.whole());
    memory.words -= 1;
    assert!(!memory.whole());
}

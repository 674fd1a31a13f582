//! Request 12: plans worked by hand, their refusals in order, and nights by chance.

mod common;

use common::maps::{formatted, mesh, p3, with_full_mark, BAR, QUAD, TETRA, TRI};
use common::pairs::{Pairs, MISSING};
use common::random::{insert_by_chance, map_by_chance, Random};
use second::calls::{INSERT, REMOVE};
use second::map::LiveCell;
use second::{room, Memory, Refusal, Tally};

/// The words of these cells as build records, in this order.
fn records<'a>(cells: impl IntoIterator<Item = &'a LiveCell>) -> Vec<u32> {
    let mut words = Vec::new();
    for cell in cells {
        words.extend([cell.number.0, cell.row.code, cell.licence]);
        words.extend(cell.marks.iter().map(|mark| mark.0));
    }
    words
}

fn live(memory: &Memory) -> &[LiveCell] {
    &memory.mesh.as_ref().expect("a mesh").live
}

/// The check of a plan in memory of just the room: its answer, and the memory.
fn check(today: &Memory, edits: &[u32], wanted: &[u32]) -> (Result<(), usize>, Memory) {
    let mut second = Memory::lent(today.words);
    let answer = today.plan_check(edits, wanted, &mut second);
    let answer = answer.map_err(|(refusal, place)| {
        assert_eq!(refusal, Refusal::PlanWrong);
        place.expect("24 comes with its place")
    });
    (answer, second)
}

/// Today: the triangle (0,1,2) without a licence and (2,1,3) of licence 7. Wanted: the
/// second as it stands, the first turned over, and a bar.
#[rustfmt::skip]
const WANTED: &[u32] = &[
    2, BAR, 9, 3, 4,
    1, TRI, 7, 2, 1, 3,
    0, TRI, 0, 0, 2, 1,
];
const TAKE_DOWN: &[u32] = &[REMOVE, 0];
const BAR_UP: &[u32] = &[INSERT, 2, BAR, 9, 3, 4];
const TURNED: &[u32] = &[INSERT, 0, TRI, 0, 0, 2, 1];

#[test]
fn a_plan_removes_what_is_not_wanted_and_inserts_what_is_missing() {
    let plan = [TAKE_DOWN, BAR_UP, TURNED].concat();
    assert_eq!(p3().plan(WANTED, plan.len()), Ok(plan.clone()));
    assert_eq!(p3().plan(WANTED, plan.len() - 1), Err(Refusal::OutputShort));
    assert_eq!(p3().plan(&[], 4), Ok(vec![REMOVE, 0, REMOVE, 1]));
    assert_eq!(p3().plan(&records(live(&p3())), 0), Ok(vec![]));
    // another licence is another cell, and so is another type
    let other = [0, TRI, 5, 0, 1, 2, 1, TRI, 7, 2, 1, 3];
    let plan = [REMOVE, 0, INSERT, 0, TRI, 5, 0, 1, 2];
    assert_eq!(p3().plan(&other, 99), Ok(plan.to_vec()));
    let other = [0, BAR, 0, 0, 1, 1, TRI, 7, 2, 1, 3];
    let plan = [REMOVE, 0, INSERT, 0, BAR, 0, 0, 1];
    assert_eq!(p3().plan(&other, 99), Ok(plan.to_vec()));
    // removals ascend, whatever the order of insertion was
    let crossed = mesh(6, 4, &[(3, BAR, &[0, 1]), (1, BAR, &[1, 2])]);
    assert_eq!(crossed.plan(&[], 4), Ok(vec![REMOVE, 1, REMOVE, 3]));
}

/// Edits, what the check says of them, and the live cells that they leave.
type Row<'a> = (&'a [&'a [u32]], Result<(), usize>, &'a [u32]);

#[test]
fn a_plan_is_right_or_wrong_at_a_place() {
    let rows: [Row; 9] = [
        (&[TAKE_DOWN, BAR_UP, TURNED], Ok(()), &[0, 1, 2]),
        (&[BAR_UP, TAKE_DOWN, TURNED], Ok(()), &[0, 1, 2]),
        // the number is live, and the two before stay
        (&[BAR_UP, TURNED, TAKE_DOWN], Err(1), &[0, 1, 2]),
        (&[TAKE_DOWN, TAKE_DOWN], Err(1), &[1]),
        // another kind, and edits cut short
        (&[TAKE_DOWN, &[3, 0], BAR_UP], Err(1), &[1]),
        (&[TAKE_DOWN, BAR_UP, &TURNED[..6]], Err(2), &[1, 2]),
        (&[TAKE_DOWN, &[REMOVE]], Err(1), &[1]),
        // the end differs: one is missing, and there are more edits than needed
        (&[TAKE_DOWN, BAR_UP], Err(2), &[1, 2]),
        (&[], Err(0), &[0, 1]),
    ];
    for (edits, answer, cells) in rows {
        let today = p3();
        let (said, second) = check(&today, &edits.concat(), WANTED);
        assert_eq!((said, today), (answer, p3()));
        assert_eq!(second.live(4).as_deref(), Ok(cells));
    }
}

/// One wanted list is right, the others are not, each for one reason.
#[test]
fn only_the_wanted_cells_each_once() {
    let as_it_stands = records(live(&p3()));
    let wanted = [
        [0, TRI, 0, 0, 1, 2, 1, TRI, 7, 2, 1, 3].to_vec(),
        [1, TRI, 7, 2, 1, 3, 0, TRI, 0, 0, 1, 2].to_vec(),
        [0, TRI, 0, 0, 1, 2].to_vec(), // one is missing
        [0, TRI, 0, 1, 2, 0, 1, TRI, 7, 2, 1, 3].to_vec(), // in another order
        [0, TRI, 1, 0, 1, 2, 1, TRI, 7, 2, 1, 3].to_vec(), // of another licence
        [0, BAR, 0, 0, 1, 1, TRI, 7, 2, 1, 3].to_vec(), // of another type
        [2, TRI, 0, 0, 1, 2, 1, TRI, 7, 2, 1, 3].to_vec(), // under another number
        [0, TRI, 0, 0, 1, 2, 0, TRI, 0, 0, 1, 2].to_vec(), // one wanted twice, one missing
        [&as_it_stands[..], &as_it_stands[..6]].concat(), // one wanted twice
        [&as_it_stands[..], &[2, BAR, 0, 0, 1]].concat(), // one more
        [&as_it_stands[..], &[9, BAR, 0, 0, 1]].concat(), // one beyond the capacity
        [&as_it_stands[..], &[0, BAR, 0, 0, 1]].concat(), // two under one number
    ];
    for (place, wanted) in wanted.iter().enumerate() {
        let right = place < 2;
        assert_eq!(check(&p3(), &[], wanted).0.is_ok(), right);
        // and at the end of edits that come back to where they began
        let edits = [REMOVE, 1, INSERT, 1, TRI, 7, 2, 1, 3];
        let expected = if right { Ok(()) } else { Err(2) };
        assert_eq!(check(&p3(), &edits, wanted).0, expected);
    }
    assert_eq!(check(&formatted(6, 4), &[], &[]).0, Ok(()));
    assert_eq!(check(&p3(), &[REMOVE, 1, REMOVE, 0], &[]).0, Ok(()));
}

/// "read record by record: whichever comes first"
#[test]
fn a_wanted_list_is_read_record_by_record() {
    const GOOD: &[u32] = &[0, TRI, 0, 0, 1, 2];
    let rows: [(&[u32], Refusal); 12] = [
        (&[0], Refusal::CountWrong),
        (&[0, TRI], Refusal::CountWrong),
        (&[0, 9], Refusal::CountWrong),
        (&[0, 9, 1], Refusal::TypeUnknown),
        (&[0, 0, 1, 5, 5], Refusal::TypeUnknown),
        (&[0, u32::MAX, 1], Refusal::TypeUnknown),
        (&[0, TRI, 1], Refusal::CountWrong),
        (&[0, TRI, 1, 5, 5], Refusal::CountWrong),
        (&[0, 9, 1, 1, TRI], Refusal::TypeUnknown),
        (&[0, QUAD, 1, 0, 1, 2], Refusal::CountWrong),
        // the marks of the first are the words of what might be a second
        (&[0, QUAD, 1, 1, 9, 1], Refusal::CountWrong),
        (&[0, BAR, 1, 70_000, 70_000, 1, 8, 1], Refusal::TypeUnknown),
    ];
    for (words, refusal) in rows {
        for before in [0, 1, 3] {
            let wanted = [&GOOD.repeat(before), words].concat();
            let mut second = Memory::lent(room(6, 4));
            let answer = p3().plan_check(&[], &wanted, &mut second);
            assert_eq!(answer, Err((refusal, None)));
            assert_eq!(second, Memory::lent(room(6, 4)));
            assert_eq!(p3().plan(&wanted, 0), Err(refusal));
        }
    }
}

#[test]
fn check_14_2_7_6_24() {
    let todays: [(Memory, &[u8]); 2] = [(p3(), &[]), (Memory::lent(room(6, 4)), &[14])];
    let rooms: [(usize, &[u8]); 3] = [
        (room(6, 4), &[]),
        (room(6, 4) + 9, &[]),
        (room(6, 4) - 1, &[2]),
    ];
    let right = records(live(&p3()));
    let list: [(&[u32], &[u8]); 6] = [
        (&right, &[]),
        (&right[..6], &[24]),
        (&right[..5], &[7, 24]),
        (&[0, TRI], &[MISSING, 24]),
        (&[0, 9], &[MISSING, 6, 24]),
        (&[0, 9, 1], &[6, 24]),
    ];
    let plans: [(&[u32], &[u8]); 3] = [(&[], &[]), (&[REMOVE, 9], &[24]), (&[7], &[24])];
    let mut pairs = Pairs::in_order(&[14, 2, MISSING, 6, 7, 24]);
    for (today, a) in &todays {
        for (words, b) in rooms {
            // fault 2 is of a map that there is
            let b = if a.is_empty() { b } else { &[2] };
            for (wanted, c) in list {
                for (edits, d) in plans {
                    let mut second = Memory::lent(words);
                    let answer = today.plan_check(edits, wanted, &mut second);
                    let refusal = answer.err().map(|(refusal, _)| refusal);
                    let faults = [*a, b, c, d].concat();
                    let once: Vec<u8> = faults.iter().copied().fold(Vec::new(), |mut all, it| {
                        if !all.contains(&it) {
                            all.push(it);
                        }
                        all
                    });
                    pairs.see(&[&once], refusal);
                    let reached = matches!(refusal, None | Some(Refusal::PlanWrong));
                    assert_eq!(second.mesh.is_some(), reached);
                    let place = answer.err().and_then(|(_, place)| place);
                    assert_eq!(place.is_some(), refusal == Some(Refusal::PlanWrong));
                }
            }
        }
    }
    pairs.end(&[
        (MISSING, 7, "marks are missed behind the licence"),
        (6, 7, "an unknown type has no marks to count"),
    ]);
}

#[test]
fn planner_14_7_6_12() {
    let todays: [(Memory, &[u8]); 2] = [(p3(), &[]), (Memory::lent(room(6, 4)), &[14])];
    // with no room at all 12 is for every plan that has an edit
    let list: [(&[u32], &[u8]); 4] = [
        (&[0, TRI, 1], &[7, 12]),
        (&[0, 9], &[MISSING, 6, 12]),
        (&[0, 9, 1], &[6, 12]),
        (WANTED, &[12]),
    ];
    let mut pairs = Pairs::in_order(&[14, MISSING, 6, 7, 12]);
    for (today, a) in &todays {
        for (wanted, b) in list {
            pairs.see(&[a, b], today.plan(wanted, 0).err());
        }
    }
    let exact = p3().plan(WANTED, 15);
    pairs.see(&[], exact.err());
    pairs.end(&[
        (MISSING, 7, "marks are missed behind the licence"),
        (6, 7, "an unknown type has no marks to count"),
    ]);
}

/// Removals come first, so that a full mark and a full face make room.
#[test]
fn what_was_full_is_planned_anew() {
    let today = with_full_mark();
    let mut cells = live(&today).to_vec();
    cells[1].marks.reverse();
    cells.remove(2);
    cells.push(LiveCell {
        number: second::map::Cell(150),
        marks: [10, 199].map(second::map::Mark).to_vec(),
        ..cells[3].clone()
    });
    let wanted = records(&cells);
    let plan = today.plan(&wanted, 99).expect("it fits");
    assert_eq!(plan[..4], [REMOVE, 1, REMOVE, 2]);
    assert_eq!(check(&today, &plan, &wanted).0, Ok(()));
    // a third solid on a face is none that can be built under edition 2
    let solids = |third: u32| -> Vec<u32> {
        let first = [0, TETRA, 0, 0, 1, 2, 3, 1, TETRA, 0, 0, 1, 2, 4];
        [&first[..], &[2, TETRA, 0, 0, 1, third, 5]].concat()
    };
    for (edition, third, answer) in [(1, 2, Ok(())), (2, 2, Err(2)), (2, 6, Ok(()))] {
        let mut today = Memory::lent(room(8, 4));
        today.format_edition(8, 4, edition).expect("room");
        let plan = today.plan(&solids(third), 99).expect("it fits");
        assert_eq!(check(&today, &plan, &solids(third)).0, answer);
    }
}

/// A wanted list by chance: some of today's cells, some of another map's, in any order,
/// now and then with a number beyond the capacity or one twice.
fn wanted_by_chance(random: &mut Random, today: &Memory) -> Vec<u32> {
    let mesh = today.mesh.as_ref().expect("a mesh");
    let other = match random.below(3) {
        0 => map_by_chance(random, mesh.marks, mesh.cells, mesh.edition),
        _ => {
            let mut other = today.clone();
            for _ in 0..random.below(8) {
                let _ = other.remove(random.below(mesh.cells as usize) as u32);
                let _ = insert_by_chance(random, &mut other);
            }
            other
        }
    };
    let mut cells = live(&other).to_vec();
    random.shuffle(&mut cells);
    if !cells.is_empty() && random.below(3) == 0 {
        let at = random.below(cells.len());
        match random.below(5) {
            0 => cells.push(cells[at].clone()),
            1 => cells[at].number.0 += mesh.cells / 2,
            2 => cells[at].marks[0] = cells[at].marks[1],
            3 => cells[at].marks[1].0 += 1,
            _ => {
                let mut twin = cells[at].clone();
                twin.number.0 = random.below(mesh.cells as usize) as u32;
                cells.push(twin);
            }
        }
    }
    records(&cells)
}

/// "Whenever the wanted list can be built afresh under the same capacities and
/// edition, its plan passes." And no other plan does: what passes is a map, which can
/// be built.
#[test]
fn a_plan_passes_whenever_the_wanted_list_can_be_built() {
    let mut random = Random::from_seed(12);
    let (mut built, mut not) = (0, 0);
    for round in 0..1_500 {
        let edition = 1 + round % 2;
        let today = map_by_chance(&mut random, 9, 12, edition);
        let wanted = wanted_by_chance(&mut random, &today);
        let plan = today.plan(&wanted, usize::MAX).expect("no record is cut");
        let mut afresh = Memory::lent(today.words);
        let can_be = afresh.build_edition(9, 12, edition, &wanted).is_ok();
        let (answer, second) = check(&today, &plan, &wanted);
        assert_eq!(answer.is_ok(), can_be);
        if can_be {
            built += 1;
            let sorted = |memory: &Memory| {
                let mut cells = live(memory).to_vec();
                cells.sort_by_key(|cell| cell.number);
                cells
            };
            assert_eq!(sorted(&second), sorted(&afresh));
        } else {
            not += 1;
        }
    }
    assert!(built > 500 && not > 100, "{built} built, {not} not");
}

/// Edits by chance, and the list of what they leave: yes; then one fault at each
/// place.
#[test]
fn each_fault_at_every_place() {
    let mut random = Random::from_seed(24);
    for round in 0..16 {
        let today = map_by_chance(&mut random, 9, 12, 1 + round % 2);
        let mut then = today.clone();
        let mut edits: Vec<Vec<u32>> = Vec::new();
        for _ in 0..60 {
            let cell = random.below(12) as u32;
            if random.below(2) == 0 && then.remove(cell).is_ok() {
                edits.push(vec![REMOVE, cell]);
            } else if insert_by_chance(&mut random, &mut then).is_ok() {
                let new = live(&then).last().expect("it was inserted");
                edits.push([&[INSERT], &records([new])[..]].concat());
            }
        }
        let mut after = live(&then).to_vec();
        random.shuffle(&mut after);
        let wanted = records(&after);
        let count = edits.len();
        let (answer, second) = check(&today, &edits.concat(), &wanted);
        assert_eq!((answer, second), (Ok(()), then.clone()));
        for place in 0..=count {
            let (before, behind) = edits.split_at(place);
            // the map after the edits before the fault
            let mut stopped = today.clone();
            let made = stopped.edits(&before.concat(), &mut Tally::default());
            assert_eq!(made, Ok(place));
            let mut faults = vec![
                vec![REMOVE, 12],
                vec![3, 0],
                vec![0],
                vec![INSERT, 0, 8, 0, 1, 2],
                vec![INSERT, 12, BAR, 0, 0, 1],
            ];
            let free = (0..12).find(|&cell| stopped.type_of(cell).is_err());
            faults.extend(free.map(|cell| vec![REMOVE, cell]));
            for fault in faults {
                let planted = [before.concat(), fault, behind.concat()].concat();
                let (answer, second) = check(&today, &planted, &wanted);
                assert_eq!((answer, &second), (Err(place), &stopped));
            }
            if let Some(edit) = behind.first() {
                for cut in 1..edit.len() {
                    let planted = [&before.concat()[..], &edit[..cut]].concat();
                    let (answer, second) = check(&today, &planted, &wanted);
                    assert_eq!((answer, &second), (Err(place), &stopped));
                }
            }
        }
        for at in 0..after.len() {
            for other in other_ends(&after, at) {
                let (answer, second) = check(&today, &edits.concat(), &records(&other));
                assert_eq!((answer, &second), (Err(count), &then));
            }
        }
    }
}

/// The list of cells with one of them wrong: missing, twice, in the place of the
/// next, of another number, licence or type, with its marks in another order.
fn other_ends(cells: &[LiveCell], at: usize) -> Vec<Vec<LiveCell>> {
    let changed = |change: &dyn Fn(&mut LiveCell)| {
        let mut list = cells.to_vec();
        change(&mut list[at]);
        list
    };
    let mut missing = cells.to_vec();
    let cell = missing.remove(at);
    let twice = [cells, std::slice::from_ref(&cell)].concat();
    let mut lists = vec![
        missing,
        twice,
        changed(&|cell| cell.number.0 += 100),
        changed(&|cell| cell.licence ^= 1 << 31),
        changed(&|cell| cell.marks.reverse()),
    ];
    if let Some(next) = cells.get(at + 1) {
        lists.push(changed(&|cell| *cell = next.clone()));
    }
    let same_count = second::shapes::TYPES
        .iter()
        .find(|row| row.marks == cell.row.marks && row.code != cell.row.code);
    lists.extend(same_count.map(|row| changed(&|cell| cell.row = row)));
    lists
}

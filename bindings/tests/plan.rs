//! Request 12 beside the second program: nights by chance, each fault planted at every
//! place, every refusal in its order, the second memory word for word, plans of just
//! the room and one short, damaged memory; and a map of full size.

mod common;

use std::collections::BTreeSet;

use common::{draw_licence, is_map, records, Chance, SENTINEL};
use mengkiloh::{room, Cell, Edits, Licence, Mark, Mesh, PlanRefused, Records, Refusal, Type};
use second::calls::{INSERT, REMOVE};
use second::map::LiveCell;
use second::shapes::TYPES;
use second::{Memory, Tally};
use streams::lattice;

/// Words of sentinels before and behind what is lent.
const EDGE: usize = 4;

/// Marks and cells of the maps by chance.
const OF: (u32, u32) = (27, 24);

fn live(memory: &Memory) -> &[LiveCell] {
    &memory.mesh.as_ref().expect("a mesh").live
}

fn words_of<'a>(cells: impl IntoIterator<Item = &'a LiveCell>) -> Vec<u32> {
    records(cells).words().to_vec()
}

/// Today's map, here and in the second program.
struct Today {
    mesh: Vec<u32>,
    theirs: Memory,
}

impl Today {
    fn of(theirs: Memory) -> Today {
        let mesh = theirs.mesh.as_ref().expect("a mesh");
        let mut words = Mesh::over(vec![SENTINEL; theirs.words]);
        words
            .build_edition(mesh.marks, mesh.cells, mesh.edition, &records(&mesh.live))
            .expect("live cells can be built");
        let mesh = words.into_words();
        Today { mesh, theirs }
    }

    /// The number of the check's refusal, 0 for yes, and its place with 24, in second
    /// memory of so many words: all as the second program says, the second memory
    /// word for word.
    fn check(&self, edits: &[u32], wanted: &[u32], words: usize) -> (u8, Option<usize>) {
        let mut second = vec![SENTINEL; EDGE + words + EDGE];
        let answer = Mesh::over(&self.mesh[..]).check_plan(
            &Edits::from(edits.to_vec()),
            &Records::from(wanted.to_vec()),
            &mut Mesh::over(&mut second[EDGE..EDGE + words]),
        );
        let mut their_second = Memory::lent(words);
        let expected = self.theirs.plan_check(edits, wanted, &mut their_second);
        let used = match &their_second.mesh {
            Some(mesh) => {
                is_map(&second[EDGE..], &their_second);
                room(mesh.marks, mesh.cells)
            }
            None => 0,
        };
        let rest = second[..EDGE].iter().chain(&second[EDGE + used..]);
        assert!(rest.into_iter().all(|&word| word == SENTINEL));
        let ours = match answer {
            Ok(()) => (0, None),
            Err(PlanRefused { refusal, place }) => (refusal.number(), place),
        };
        let theirs = match expected {
            Ok(()) => (0, None),
            Err((refusal, place)) => (refusal.number(), place),
        };
        assert_eq!(ours, theirs);
        ours
    }

    /// The check in memory of just the room.
    fn says(&self, edits: &[u32], wanted: &[u32]) -> (u8, Option<usize>) {
        self.check(edits, wanted, self.mesh.len())
    }

    /// The planner's words in so many places, or the number of its refusal: as the
    /// second program says, and no place beyond them written.
    fn plan(&self, wanted: &[u32], places: usize) -> Result<Vec<u32>, u8> {
        let mut out = vec![SENTINEL; EDGE + places + EDGE];
        let answer = Mesh::over(&self.mesh[..]).plan_into(
            &Records::from(wanted.to_vec()),
            &mut out[EDGE..EDGE + places],
        );
        let expected = self.theirs.plan(wanted, places);
        let count = answer.unwrap_or(0);
        assert!(count <= places);
        let rest = out[..EDGE].iter().chain(&out[EDGE + count..]);
        assert!(rest.into_iter().all(|&word| word == SENTINEL));
        let ours = match answer {
            Ok(count) => Ok(out[EDGE..EDGE + count].to_vec()),
            Err(refusal) => Err(refusal.number()),
        };
        assert_eq!(ours, expected.map_err(|refusal| refusal.number()));
        ours
    }
}

/// An edit that is mostly accepted, as words.
fn draw(chance: &mut Chance, theirs: &Memory) -> Vec<u32> {
    let live = live(theirs);
    if chance.below(OF.1) < live.len() as u32 {
        let cell = live[chance.below(live.len() as u32) as usize].number.0;
        return vec![REMOVE, cell];
    }
    let (code, marks) = lattice::draw(chance, lattice::side(OF.0));
    let head = [INSERT, chance.below(OF.1), code, draw_licence(chance)];
    [&head[..], &marks].concat()
}

/// So many edits tried; those that were accepted, and made.
fn edited(chance: &mut Chance, theirs: &mut Memory, tries: u32) -> Vec<Vec<u32>> {
    let mut edits = Vec::new();
    for _ in 0..tries {
        let edit = draw(chance, theirs);
        if theirs.edits(&edit, &mut Tally::default()).is_ok() {
            edits.push(edit);
        }
    }
    edits
}

fn map_by_chance(chance: &mut Chance, edition: u32) -> Memory {
    let mut theirs = Memory::lent(room(OF.0, OF.1));
    theirs.format_edition(OF.0, OF.1, edition).expect("room");
    let tries = 20 + chance.below(60);
    edited(chance, &mut theirs, tries);
    theirs
}

/// The cells with one of them wrong: missing, twice, in the place of the next, under
/// another number, of another licence or type, with its marks in another order.
fn other_ends(cells: &[LiveCell], at: usize) -> Vec<Vec<LiveCell>> {
    let changed = |change: &dyn Fn(&mut LiveCell)| {
        let mut list = cells.to_vec();
        change(&mut list[at]);
        list
    };
    let mut missing = cells.to_vec();
    let cell = missing.remove(at);
    let mut lists = vec![
        missing,
        [cells, std::slice::from_ref(&cell)].concat(),
        changed(&|cell| cell.number.0 += 0x1_0000),
        changed(&|cell| cell.number.0 = u32::MAX),
        changed(&|cell| cell.licence ^= 1 << 31),
        changed(&|cell| cell.licence = cell.licence.wrapping_add(1)),
        changed(&|cell| cell.marks.reverse()),
        changed(&|cell| cell.marks.swap(0, 1)),
        changed(&|cell| cell.marks.last_mut().expect("marks").0 += 0x1_0000),
    ];
    if let Some(next) = cells.get(at + 1) {
        lists.push(changed(&|cell| *cell = next.clone()));
    }
    let like = |row: &&second::shapes::Type| row.marks == cell.row.marks;
    for row in TYPES.iter().filter(like) {
        if row.code != cell.row.code {
            lists.push(changed(&|cell| cell.row = row));
        }
    }
    lists
}

#[test]
fn each_fault_at_every_place() {
    let (mut edits_wrong, mut ends_wrong) = (0, 0);
    for seed in 0..24 {
        let mut chance = Chance::from_seed(seed);
        let theirs = map_by_chance(&mut chance, 1 + seed as u32 % 2);
        let today = Today::of(theirs.clone());
        let mut then = theirs.clone();
        let edits = edited(&mut chance, &mut then, 30);
        let mut after = live(&then).to_vec();
        chance.shuffle(&mut after);
        let wanted = words_of(&after);
        let all = edits.concat();
        let count = edits.len();
        assert_eq!(today.says(&all, &wanted), (0, None));
        for place in 0..=count {
            let (before, behind) = edits.split_at(place);
            let (before, behind_all) = (before.concat(), behind.concat());
            let mut stopped = theirs.clone();
            let made = stopped.edits(&before, &mut Tally::default());
            assert_eq!(made, Ok(place));
            // refused by each check of an edit that is at hand, or of another kind
            let mut faults = vec![
                vec![REMOVE, OF.1],
                vec![REMOVE, u32::MAX],
                vec![0],
                vec![3, 0],
                vec![u32::MAX, 0],
                vec![INSERT, OF.1, 1, 0, 0, 1],
            ];
            if let Some(free) = stopped.free().expect("a mesh") {
                faults.push(vec![REMOVE, free]);
                faults.push(vec![INSERT, free, 8, 0, 0, 1]);
                faults.push(vec![INSERT, free, 1, 0, 0, OF.0]);
                faults.push(vec![INSERT, free, 1, 0, 5, 5]);
                let twin = live(&stopped).first().map(|cell| words_of([cell]));
                faults.extend(twin.map(|twin| [&[INSERT, free], &twin[1..]].concat()));
            }
            let held = live(&stopped).last().map(|cell| cell.number.0);
            faults.extend(held.map(|cell| vec![INSERT, cell, 1, 0, 0, 1]));
            for fault in faults {
                let planted = [&before, &fault, &behind_all].map(Vec::as_slice).concat();
                assert_eq!(today.says(&planted, &wanted), (24, Some(place)));
                edits_wrong += 1;
            }
            // cut short in each of its words
            for cut in 1..behind.first().map_or(0, Vec::len) {
                let planted = &all[..before.len() + cut];
                assert_eq!(today.says(planted, &wanted), (24, Some(place)));
                edits_wrong += 1;
            }
        }
        for at in 0..after.len() {
            for other in other_ends(&after, at) {
                let said = today.says(&all, &words_of(&other));
                assert_eq!(said, (24, Some(count)));
                ends_wrong += 1;
            }
        }
        // a cell more than there is
        let more = [&wanted[..], &[OF.1 - 1, 1, 0, 0, 1]].concat();
        assert_eq!(today.says(&all, &more), (24, Some(count)));
    }
    println!("{edits_wrong} wrong edits, {ends_wrong} wrong ends");
    assert!(edits_wrong > 5_000 && ends_wrong > 1_000);
}

/// Plans and wanted lists that have little to do with each other, now and then cut or
/// with a word changed.
#[test]
fn nights_by_chance() {
    let mut seen = BTreeSet::new();
    for seed in 0..400 {
        let mut chance = Chance::from_seed(1_000 + seed);
        let theirs = map_by_chance(&mut chance, 1 + seed as u32 % 2);
        let today = Today::of(theirs.clone());
        let mut then = theirs.clone();
        let mut edits = edited(&mut chance, &mut then, 12).concat();
        let mut after = live(&then).to_vec();
        chance.shuffle(&mut after);
        let mut wanted = words_of(&after);
        for list in [&mut edits, &mut wanted] {
            match chance.below(5) {
                0 => list.truncate(chance.below(1 + list.len() as u32) as usize),
                1 if !list.is_empty() => {
                    let at = chance.below(list.len() as u32) as usize;
                    list[at] = match chance.below(3) {
                        0 => chance.below(10),
                        1 => chance.below(30),
                        _ => chance.bits() as u32,
                    };
                }
                2 => list.push(chance.below(4)),
                _ => {}
            }
        }
        let words = today.mesh.len() - 1 + chance.below(8).min(3) as usize;
        seen.insert(today.check(&edits, &wanted, words).0);
        seen.insert(today.says(&edits, &wanted).0);
        let full = today.theirs.plan(&wanted, usize::MAX);
        let full = full.map_or(0, |plan| plan.len());
        for places in [0, full.saturating_sub(1), full, full + 3] {
            seen.extend(today.plan(&wanted, places).err());
        }
    }
    assert!(seen.into_iter().eq([0, 2, 6, 7, 12, 24]));
}

/// The planner's plan passes exactly when the wanted list can be built afresh under the
/// same capacities and edition, and then leaves what that build leaves.
#[test]
fn plans_pass() {
    let (mut passed, mut not) = (0, 0);
    for seed in 0..400 {
        let mut chance = Chance::from_seed(2_000 + seed);
        let edition = 1 + seed as u32 % 2;
        let theirs = map_by_chance(&mut chance, edition);
        let mut other = match chance.below(3) {
            0 => map_by_chance(&mut chance, edition),
            _ => theirs.clone(),
        };
        let tries = chance.below(12);
        edited(&mut chance, &mut other, tries);
        let mut cells = live(&other).to_vec();
        chance.shuffle(&mut cells);
        if !cells.is_empty() && chance.one_in(3) {
            let at = chance.below(cells.len() as u32) as usize;
            let mut again = cells[at].clone();
            match chance.below(4) {
                0 => cells.push(again),
                1 => cells[at].number.0 = OF.1 + chance.below(3),
                2 => cells[at].marks[0] = cells[at].marks[1],
                _ => {
                    again.number.0 = chance.below(OF.1);
                    cells.push(again);
                }
            }
        }
        let today = Today::of(theirs);
        let wanted = words_of(&cells);
        let plan = today.plan(&wanted, 4_000).expect("no record is cut");
        assert_eq!(today.plan(&wanted, plan.len()), Ok(plan.clone()));
        if let Some(short) = plan.len().checked_sub(1) {
            assert_eq!(today.plan(&wanted, short), Err(12));
        }
        let mesh = Mesh::over(&today.mesh[..]);
        let given = mesh.plan(&Records::from(wanted.clone()));
        assert_eq!(given, Ok(Edits::from(plan.clone())));
        let mut afresh = Mesh::over(vec![SENTINEL; today.mesh.len()]);
        let built = afresh.build_edition(OF.0, OF.1, edition, &Records::from(wanted.clone()));
        let said = today.says(&plan, &wanted);
        if built.is_ok() {
            assert_eq!(said, (0, None));
            let mut second = Mesh::over(vec![SENTINEL; today.mesh.len()]);
            mesh.check_plan(&Edits::from(plan), &Records::from(wanted), &mut second)
                .expect("it passes");
            assert!(second.words() == afresh.words());
            passed += 1;
        } else {
            assert_eq!(said.0, 24);
            not += 1;
        }
    }
    println!("{passed} passed, {not} not");
    assert!(passed > 200 && not > 30);
}

/// Every combination of faults: the first in the listed order is given.
#[test]
fn refusals_come_in_order() {
    let exact = room(6, 4);
    let mut theirs = Memory::lent(exact);
    let right: &[u32] = &[0, 2, 7, 0, 1, 2, 3, 1, 0, 2, 4];
    theirs.build(6, 4, right).expect("two cells");
    let mut today = Today::of(theirs);
    // a wanted list and the number that it is refused with, if it is
    let list: [(&[u32], u8); 12] = [
        (right, 0),
        (&[3, 1, 0, 2, 4, 0, 2, 7, 0, 1, 2], 0),
        (&right[..10], 7),
        (&right[..9], 7),
        (&right[..8], 7),
        (&right[..7], 7),
        (&[0, 9], 7),
        (&[0, 9, 0], 6),
        (&[0, 0, 0, 1], 6),
        (&[0, 1, 0, 1, 2, 1, 8, 0, 1], 6),
        (&[0, 1, 0, 1, 2, 1], 7),
        (&[0, 3, 0, 1, 2, 9], 7),
    ];
    // edits, and where they are wrong, if they are
    let plans: [(&[u32], Option<usize>); 6] = [
        (&[], None),
        (&[2, 3, 1, 3, 1, 0, 2, 4], None),
        (&[2, 1], Some(0)),
        (&[2, 3, 7], Some(1)),
        (&[2, 3], Some(1)),
        (&[2, 3, 1, 3, 1, 0, 2], Some(1)),
    ];
    let mut seen = BTreeSet::new();
    for no_mesh in [false, true] {
        if no_mesh {
            today.mesh[0] ^= 1;
            today.theirs.mesh = None;
        }
        for words in [0, 15, exact - 1, exact, exact + 5] {
            for (wanted, fault) in list {
                for (edits, wrong) in plans {
                    let expected = match () {
                        () if no_mesh => (14, None),
                        () if words < exact => (2, None),
                        () if fault != 0 => (fault, None),
                        () if wrong.is_some() => (24, wrong),
                        () => (0, None),
                    };
                    let said = today.check(edits, wanted, words);
                    assert_eq!(said, expected);
                    seen.insert(said.0);
                }
                for places in [0, 1, 4, 12] {
                    let expected = match () {
                        () if no_mesh => Err(14),
                        () if fault != 0 => Err(fault),
                        () => Ok(vec![]),
                    };
                    assert_eq!(today.plan(wanted, places), expected);
                }
            }
        }
        let answer = if no_mesh { Err(14) } else { Err(12) };
        assert_eq!(today.plan(&[], 3), answer);
    }
    assert!(seen.into_iter().eq([0, 2, 6, 7, 14, 24]));
}

/// Damaged words of today's map: both calls return; a refusal but 24 leaves the second
/// memory, nothing is written behind the room of the head's capacities, and of the plan
/// nothing behind its count.
#[test]
fn damaged_memory_is_safe() {
    let mut chance = Chance::from_seed(12);
    let mut seen = BTreeSet::new();
    for round in 0..80 {
        let theirs = map_by_chance(&mut chance, 1 + round % 2);
        let mut then = theirs.clone();
        let edits = edited(&mut chance, &mut then, 12).concat();
        let wanted = words_of(live(&then));
        let mesh = Today::of(theirs).mesh;
        for _ in 0..150 {
            let mut words = mesh.clone();
            for _ in 0..=chance.below(4) {
                let at = match chance.below(8) {
                    0 => chance.below(16),
                    _ => chance.below(words.len() as u32),
                } as usize;
                words[at] = match chance.below(4) {
                    0 => chance.below(300),
                    1 => words[at] ^ (1 << chance.below(32)),
                    2 => words[chance.below(mesh.len() as u32) as usize],
                    _ => chance.bits() as u32,
                };
            }
            let size = mesh.len() - 1 + chance.below(6) as usize;
            let mut second = vec![SENTINEL; EDGE + size + EDGE];
            let list = Records::from(wanted.clone());
            let answer = Mesh::over(&words[..]).check_plan(
                &Edits::from(edits.clone()),
                &list,
                &mut Mesh::over(&mut second[EDGE..EDGE + size]),
            );
            let number = answer.map_or_else(|why| why.refusal.number(), |()| 0);
            seen.insert(number);
            let used = match number {
                0 | 24 => room(words[1], words[2]).min(size),
                _ => 0,
            };
            let rest = second[..EDGE].iter().chain(&second[EDGE + used..]);
            assert!(rest.into_iter().all(|&word| word == SENTINEL));
            let places = chance.below(200) as usize;
            let mut out = vec![SENTINEL; EDGE + places + EDGE];
            let answer = Mesh::over(&words[..]).plan_into(&list, &mut out[EDGE..EDGE + places]);
            let count = answer.unwrap_or(0);
            assert!(count <= places);
            let rest = out[..EDGE].iter().chain(&out[EDGE + count..]);
            assert!(rest.into_iter().all(|&word| word == SENTINEL));
            seen.extend(answer.err().map(Refusal::number));
        }
    }
    assert!(seen.into_iter().eq([0, 2, 12, 14, 24]));
}

/// 65,535 cells and a mark for each, in a chain: cell c on the marks c, c + 1 and c + 2.
/// Every seventh is wanted with another licence, every seventh beside it turned, and
/// every seventh beside that under a number that is free by then; the list is in no order.
#[test]
fn at_full_size() {
    const FULL: u32 = 65_535;
    const STEP: u32 = 7;
    let exact = room(FULL, FULL);
    let body = |cell: u32| [0, 1, 2].map(|step| Mark((cell + step) % FULL));
    let licence = |cell: u32| Licence(cell % 1_000);
    let mut today = Records::new();
    for cell in 0..FULL {
        today.add(Cell(cell), Type::Triangle, licence(cell), &body(cell));
    }
    let mut mesh = Mesh::over(vec![SENTINEL; exact]);
    mesh.build(FULL, FULL, &today).expect("the chain is sound");
    // 40,507 and 65,535 have no common divisor
    let order = || (0..u64::from(FULL)).map(|k| (k * 40_507 % u64::from(FULL)) as u32);
    let last = FULL - STEP;
    let mut wanted = Records::new();
    let (mut plan, mut removed) = (Edits::new(), Edits::new());
    let mut changed = 0;
    for cell in order() {
        let (under, number, marks) = match cell % STEP {
            0 => (cell, Licence(u32::MAX - cell), body(cell)),
            1 => (cell, licence(cell), [2, 0, 1].map(|at| body(cell)[at])),
            2 => {
                let next = if cell > last { 2 } else { cell + STEP };
                (next, licence(cell), body(cell))
            }
            _ => (cell, licence(cell), body(cell)),
        };
        wanted.add(Cell(under), Type::Triangle, number, &marks);
        if cell % STEP < 3 {
            plan.insert(Cell(under), Type::Triangle, number, &marks);
            changed += 1;
        }
    }
    for cell in (0..FULL).filter(|cell| cell % STEP < 3) {
        removed.remove(Cell(cell));
    }
    let due = [removed.words(), plan.words()].concat();
    let plan = mesh.plan(&wanted).expect("each record is whole");
    assert!(plan.words() == due);
    let mut second = Mesh::over(vec![SENTINEL; exact + 4]);
    assert_eq!(mesh.check_plan(&plan, &wanted, &mut second), Ok(()));
    let mut afresh = Mesh::over(vec![0; exact]);
    afresh.build(FULL, FULL, &wanted).expect("it is sound too");
    assert!(second.words()[..exact] == *afresh.words());
    assert_eq!(second.words()[exact..], [SENTINEL; 4]);

    let wrong = |place| {
        let refusal = Refusal::PlanWrong;
        Err(PlanRefused {
            refusal,
            place: Some(place),
        })
    };
    // the last record's last mark, and a cell wanted twice in place of another
    let mut words = wanted.words().to_vec();
    *words.last_mut().expect("records") ^= 1;
    let other = Records::from(words);
    assert_eq!(
        mesh.check_plan(&plan, &other, &mut second),
        wrong(2 * changed)
    );
    let mut words = wanted.words().to_vec();
    words.copy_within(..6, 6);
    let other = Records::from(words);
    assert_eq!(
        mesh.check_plan(&plan, &other, &mut second),
        wrong(2 * changed)
    );
    // the last removal twice, and an edit short
    let mut words = due.clone();
    let at = removed.words().len();
    words[at - 1] = words[at - 3];
    let other = Edits::from(words);
    let said = mesh.check_plan(&other, &wanted, &mut second);
    assert_eq!(said, wrong(changed - 1));
    let other = Edits::from(due[..due.len() - 7].to_vec());
    let said = mesh.check_plan(&other, &wanted, &mut second);
    assert_eq!(said, wrong(2 * changed - 1));
}

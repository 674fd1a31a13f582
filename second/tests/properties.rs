//! What the definitions promise together, on small maps by chance. Mark sets
//! are compared here as sorted lists, not by the library's own comparison.

mod common;

use common::answers::answers;
use common::maps::{formatted_edition, WithoutWays, PLENTY};
use common::random::{insert_by_chance, map_by_chance, Random};
use second::map::{self, Cell, HalfFacet, LiveCell, Mark};
use second::Memory;

const CELLS: u32 = 14;
const MAPS: u32 = 40;

/// From few marks, where nearly all is shared, to some more; every third under
/// edition 2.
fn maps(seed: u64) -> impl Iterator<Item = Memory> {
    let mut random = Random::from_seed(seed);
    (0..MAPS).map(move |map| map_by_chance(&mut random, 5 + map % 5, CELLS, edition(map)))
}

fn edition(map: u32) -> u32 {
    match map % 3 {
        0 => 2,
        _ => 1,
    }
}

fn marks(memory: &Memory) -> u32 {
    memory.mesh.as_ref().expect("a mesh").marks
}

fn live(memory: &Memory) -> &[LiveCell] {
    &memory.mesh.as_ref().expect("a mesh").live
}

fn sorted(marks: &[Mark]) -> Vec<Mark> {
    let mut set = marks.to_vec();
    set.sort();
    set
}

fn numbers(half_facets: &[HalfFacet]) -> Vec<u32> {
    half_facets.iter().map(HalfFacet::number).collect()
}

#[test]
fn siblings_part_the_half_facets_by_their_sets() {
    let mut longest = 0;
    for memory in maps(1) {
        let all = map::half_facets(live(&memory));
        for half in &all {
            let cycle = memory.ring(half.cell.0, half.facet, PLENTY).unwrap();
            longest = longest.max(cycle.len());
            for other in &all {
                let in_cycle = cycle.iter().filter(|&&it| it == other.number()).count();
                let equal = sorted(&half.marks) == sorted(&other.marks);
                assert_eq!(in_cycle, usize::from(equal));
            }
        }
    }
    assert!(longest > 3, "no map has a wide cycle");
}

#[test]
fn the_sibling_leads_through_the_cycle_in_ascending_order() {
    for memory in maps(2) {
        for half in map::half_facets(live(&memory)) {
            let (cell, facet) = (half.cell.0, half.facet);
            let cycle = memory.ring(cell, facet, PLENTY).unwrap();
            assert_eq!(cycle[0], half.number());
            for (place, it) in cycle.iter().enumerate() {
                let next = cycle[(place + 1) % cycle.len()];
                assert_eq!(memory.next(it / 8, it % 8), Ok(next));
            }
            let descents = (0..cycle.len())
                .filter(|&place| cycle[(place + 1) % cycle.len()] <= cycle[place])
                .count();
            assert_eq!(descents, 1, "the last alone maps to the first");
            assert_eq!(memory.border(cell, facet), Ok(cycle.len() == 1));
            let set: Vec<u32> = half.marks.iter().map(|mark| mark.0).collect();
            assert_eq!(memory.lookup(&set), Ok(cycle.iter().min().copied()));
        }
    }
}

#[test]
fn neighbours_are_the_other_cells_of_the_cycles() {
    for memory in maps(3) {
        for cell in live(&memory) {
            let mut due = Vec::new();
            for half in map::half_facets_of(cell) {
                let cycle = memory.ring(half.cell.0, half.facet, PLENTY).unwrap();
                due.extend(cycle.iter().map(|it| it / 8));
            }
            due.sort();
            due.dedup();
            due.retain(|&it| it != cell.number.0);
            assert_eq!(memory.neighbours(cell.number.0, PLENTY), Ok(due));
        }
    }
}

#[test]
fn groups_part_the_star_and_are_the_largest_joined_sets() {
    let mut most = 0;
    let mut largest = 0;
    for memory in maps(4) {
        for (dimension, mark) in dimensions_and_marks(&memory) {
            let groups = groups_of(&memory, dimension, mark);
            let mut all = groups.concat();
            all.sort();
            assert_eq!(memory.star(dimension, mark, PLENTY), Ok(all));
            for group in &groups {
                assert!(is_joined(&memory, mark, group), "{group:?}");
                for other in groups.iter().filter(|&other| other != group) {
                    assert!(
                        !is_linked(&memory, mark, group, other),
                        "{group:?} {other:?}"
                    );
                }
                largest = largest.max(group.len());
            }
            most = most.max(groups.len());
        }
    }
    assert!(most > 2, "no mark has many groups");
    assert!(largest > 3, "no group has many cells");
}

fn dimensions_and_marks(memory: &Memory) -> impl Iterator<Item = (u32, u32)> {
    let marks = marks(memory);
    (1..=3).flat_map(move |dimension| (0..marks).map(move |mark| (dimension, mark)))
}

fn groups_of(memory: &Memory, dimension: u32, mark: u32) -> Vec<Vec<u32>> {
    let groups = map::groups(live(memory), dimension, Mark(mark));
    let cells = |group: &Vec<&LiveCell>| group.iter().map(|cell| cell.number.0).collect();
    groups.iter().map(cells).collect()
}

/// Whether the cycle of a half-facet of the one that holds the mark leads to
/// the others.
fn is_linked(memory: &Memory, mark: u32, some: &[u32], others: &[u32]) -> bool {
    let halves = live(memory).iter().flat_map(map::half_facets_of);
    halves
        .filter(|half| some.contains(&half.cell.0) && half.marks.contains(&Mark(mark)))
        .any(|half| {
            let cycle = memory.ring(half.cell.0, half.facet, PLENTY).unwrap();
            cycle.iter().any(|it| others.contains(&(it / 8)))
        })
}

/// Whether links inside the group lead from its first cell to all of it.
fn is_joined(memory: &Memory, mark: u32, group: &[u32]) -> bool {
    let mut reached = vec![group[0]];
    for _ in group {
        let beyond =
            |&cell: &u32| !reached.contains(&cell) && is_linked(memory, mark, &[cell], &reached);
        let more: Vec<u32> = group.iter().copied().filter(beyond).collect();
        reached.extend(more);
    }
    reached.len() == group.len()
}

#[test]
fn anchors_are_one_for_each_group_and_hold_the_mark() {
    let (mut with_border, mut without_border) = (0, 0);
    for memory in maps(5) {
        for (dimension, mark) in dimensions_and_marks(&memory) {
            let anchors = memory.anchors(dimension, mark, PLENTY).unwrap();
            assert!(anchors.windows(2).all(|two| two[0] < two[1]));
            let first = memory.first_anchor(dimension, mark);
            assert_eq!(first, Ok(anchors.first().copied()));
            let groups = groups_of(&memory, dimension, mark);
            assert_eq!(anchors.len(), groups.len());
            for group in groups {
                let of_group = |half: &u32| group.contains(&(half / 8));
                let anchor: Vec<u32> = anchors.iter().copied().filter(of_group).collect();
                let holding = holding(&memory, &group, mark);
                let is_border = |half: &u32| memory.border(half / 8, half % 8) == Ok(true);
                let borders: Vec<u32> = holding.iter().copied().filter(is_border).collect();
                let due = if borders.is_empty() {
                    // At a mark two bars suffice for that.
                    without_border += u32::from(dimension > 1);
                    holding.iter().min()
                } else {
                    with_border += 1;
                    borders.iter().min()
                };
                assert_eq!(anchor, [*due.expect("a facet holds the mark")]);
            }
        }
    }
    assert!(
        with_border > 100 && without_border > 20,
        "{with_border} {without_border}"
    );
}

/// The half-facets of the group that hold the mark.
fn holding(memory: &Memory, group: &[u32], mark: u32) -> Vec<u32> {
    let mut holding = map::half_facets(live(memory));
    holding.retain(|half| group.contains(&half.cell.0) && half.marks.contains(&Mark(mark)));
    numbers(&holding)
}

#[test]
fn counts_are_lengths_of_lists_and_types_part_the_live_cells() {
    for memory in maps(6) {
        let mut all = Vec::new();
        for code in 1..=7 {
            let cells = memory.cells_of_type(code, PLENTY).unwrap();
            assert!(cells.windows(2).all(|two| two[0] < two[1]));
            assert_eq!(memory.count_of_type(code), Ok(cells.len()));
            assert!(cells.iter().all(|&cell| memory.type_of(cell) == Ok(code)));
            all.extend(cells);
        }
        all.sort();
        let mut due: Vec<Cell> = live(&memory).iter().map(|cell| cell.number).collect();
        due.sort();
        assert_eq!(all, due.iter().map(|cell| cell.0).collect::<Vec<_>>());
    }
}

#[test]
fn the_order_of_the_list_of_cells_does_not_matter() {
    let mut random = Random::from_seed(7);
    for memory in maps(7) {
        let mut shuffled = memory.clone();
        random.shuffle(&mut shuffled.mesh.as_mut().expect("a mesh").live);
        assert_eq!(answers(&shuffled), answers(&memory));
    }
}

/// "every query answers as that definition does over the cells those edits
/// leave live, so as a mesh of the same capacities built afresh from them in
/// any order"; "Demand 3 compares with a mesh of the same edition."
#[test]
fn edits_answer_as_a_mesh_built_afresh_in_any_order() {
    let mut random = Random::from_seed(8);
    let (mut refused, mut accepted) = (0, 0);
    for map in 0..20 {
        let mut memory = formatted_edition(5 + map % 5, CELLS, edition(map));
        for _ in 0..60 {
            let answer = match random.below(3) {
                0 => memory.remove(random.below(CELLS as usize + 1) as u32),
                _ => insert_by_chance(&mut random, &mut memory),
            };
            *if answer.is_ok() {
                &mut accepted
            } else {
                &mut refused
            } += 1;
        }
        let mut afresh = memory.clone();
        let records = shuffled_records(&mut random, &memory);
        let built = afresh.build_edition(marks(&memory), CELLS, edition(map), &records);
        assert_eq!(built, Ok(()));
        assert_eq!(answers(&afresh), answers(&memory));
    }
    assert!(accepted > 200 && refused > 200, "{accepted} {refused}");
}

fn shuffled_records(random: &mut Random, memory: &Memory) -> Vec<u32> {
    let mut cells: Vec<u32> = live(memory).iter().map(|cell| cell.number.0).collect();
    random.shuffle(&mut cells);
    let mut records = Vec::new();
    for cell in cells {
        records.extend([cell, memory.type_of(cell).unwrap()]);
        records.push(memory.licence(cell).unwrap());
        records.extend(memory.marks_of(cell));
    }
    records
}

#[test]
fn a_cell_removed_and_inserted_again_leaves_no_trace() {
    for memory in maps(9).take(8) {
        let due = answers(&memory);
        for cell in live(&memory).iter().map(|cell| cell.number.0) {
            let code = memory.type_of(cell).unwrap();
            let marks = memory.marks_of(cell);
            let mut edited = memory.clone();
            edited.remove(cell).unwrap();
            assert_ne!(answers(&edited), due);
            let licence = memory.licence(cell).unwrap();
            edited.insert_licensed(cell, code, licence, &marks).unwrap();
            assert_eq!(answers(&edited), due);
        }
    }
}

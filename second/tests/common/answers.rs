//! Every query with every small argument, so that two states can be compared
//! by what they answer.

use super::maps::PLENTY;
use second::Memory;

/// One line for each query. Each argument runs one past its range, so that
/// refusals are compared too.
pub fn answers(memory: &Memory) -> Vec<String> {
    let mesh = memory.mesh.as_ref().expect("a mesh to ask");
    let mut lines = vec![format!("whole {}", memory.whole())];
    lines.push(format!("edition {:?}", memory.edition()));
    let (live, free) = (memory.live(PLENTY), memory.free());
    lines.push(format!("{:?} {live:?} {free:?}", memory.capacities()));
    for cell in 0..=mesh.cells {
        about_cell(memory, cell, &mut lines);
    }
    for mark in 0..=mesh.marks {
        about_mark(memory, mark, &mut lines);
    }
    for set in sets(mesh.marks + 1) {
        lines.push(format!("lookup {set:?} {:?}", memory.lookup(&set)));
    }
    for code in 0..=8 {
        let cells = memory.cells_of_type(code, PLENTY);
        let count = memory.count_of_type(code);
        lines.push(format!("type {code} {cells:?} {count:?}"));
    }
    lines
}

fn about_cell(memory: &Memory, cell: u32, lines: &mut Vec<String>) {
    let code = memory.type_of(cell);
    let licence = memory.licence(cell);
    let marks = memory.marks_of(cell);
    let neighbours = memory.neighbours(cell, PLENTY);
    lines.push(format!(
        "cell {cell} {code:?} {licence:?} {marks:?} {neighbours:?}"
    ));
    for facet in 0..=6 {
        let sibling = memory.sibling(cell, facet);
        let border = memory.border(cell, facet);
        let cycle = memory.cycle(cell, facet, PLENTY, PLENTY);
        lines.push(format!(
            "half-facet {cell} {facet} {sibling:?} {border:?} {cycle:?}"
        ));
    }
}

fn about_mark(memory: &Memory, mark: u32, lines: &mut Vec<String>) {
    for dimension in 0..=4 {
        let star = memory.star(dimension, mark, PLENTY);
        let anchors = memory.anchors(dimension, mark, PLENTY);
        let first = memory.first_anchor(dimension, mark);
        lines.push(format!(
            "mark {mark} {dimension} {star:?} {anchors:?} {first:?}"
        ));
    }
}

/// All sets of 1 to 4 marks below the bound, each as an ascending list.
fn sets(bound: u32) -> Vec<Vec<u32>> {
    let mut sets = Vec::new();
    for a in 0..bound {
        sets.push(vec![a]);
        for b in a + 1..bound {
            sets.push(vec![a, b]);
            for c in b + 1..bound {
                sets.push(vec![a, b, c]);
                sets.extend((c + 1..bound).map(|d| vec![a, b, c, d]));
            }
        }
    }
    sets
}

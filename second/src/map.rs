//! The definitions, over the list of live cells.
//!
//! "The definitions are written over the list of live cells, without any
//! stored link." Each function scans the whole list, and the order of that
//! list never matters: an answer that has an order is put into it here.

use crate::shapes::{Type, HALF_FACETS_A_CELL, SOLID};

/// A mark's number. "Mark numbers and cell numbers run from zero and stand in
/// separate registers", so each has its own type.
#[derive(Clone, Copy, Debug, PartialEq, Eq, PartialOrd, Ord)]
pub struct Mark(pub u32);

/// A cell's number.
#[derive(Clone, Copy, Debug, PartialEq, Eq, PartialOrd, Ord)]
pub struct Cell(pub u32);

/// A record of the list of live cells.
#[derive(Clone, Debug, PartialEq, Eq)]
pub struct LiveCell {
    pub number: Cell,
    /// Its row of the type table.
    pub row: &'static Type,
    /// "a licence number of 32 bits, given at insertion"; 0 without one.
    pub licence: u32,
    /// In the order given, as many as the row says.
    pub marks: Vec<Mark>,
}

/// A local facet of a live cell, with the places of its marks in the cell's
/// list and the marks themselves.
#[derive(Clone, Debug, PartialEq, Eq)]
pub struct HalfFacet {
    pub cell: Cell,
    pub facet: u32,
    pub places: &'static [usize],
    pub marks: Vec<Mark>,
}

/// Which way a half-facet's sibling runs: "lone (no other), same, opposite or
/// neither". The values are the byte's, "0 to 3 in that order".
#[derive(Clone, Copy, Debug, PartialEq, Eq)]
pub enum Way {
    Lone = 0,
    Same = 1,
    Opposite = 2,
    Neither = 3,
}

impl Way {
    pub fn number(self) -> u32 {
        self as u32
    }
}

impl HalfFacet {
    /// "Half-facet number = 8 × cell + local facet."
    pub fn number(&self) -> u32 {
        HALF_FACETS_A_CELL * self.cell.0 + self.facet
    }
}

/// The live cell with this number, if there is one.
pub fn live_cell(live: &[LiveCell], number: Cell) -> Option<&LiveCell> {
    live.iter().find(|cell| cell.number == number)
}

/// The facets of one cell: "Local facet numbering is a fixed table, with
/// places counted from 0".
pub fn half_facets_of(cell: &LiveCell) -> Vec<HalfFacet> {
    let numbered = (0..).zip(cell.row.facets);
    numbered
        .map(|(facet, places)| HalfFacet {
            cell: cell.number,
            facet,
            places,
            marks: places.iter().map(|&place| cell.marks[place]).collect(),
        })
        .collect()
}

/// All live half-facets, ascending.
pub fn half_facets(live: &[LiveCell]) -> Vec<HalfFacet> {
    let mut all: Vec<HalfFacet> = live.iter().flat_map(half_facets_of).collect();
    all.sort_by_key(HalfFacet::number);
    all
}

/// "equal sets of marks, whatever their order"
pub fn same_set(one: &[Mark], other: &[Mark]) -> bool {
    one.iter().all(|mark| other.contains(mark)) && other.iter().all(|mark| one.contains(mark))
}

/// "Siblings: live half-facets with equal sets of marks, whatever their
/// order." The half-facet itself is one of them; ascending.
pub fn siblings(live: &[LiveCell], half: &HalfFacet) -> Vec<HalfFacet> {
    let mut set = half_facets(live);
    set.retain(|other| same_set(&other.marks, &half.marks));
    set
}

/// "In ascending number, each maps to the next and the last to the first."
pub fn sibling(live: &[LiveCell], half: &HalfFacet) -> HalfFacet {
    let set = siblings(live, half);
    let next = set.iter().find(|other| other.number() > half.number());
    next.or(set.first()).unwrap_or(half).clone()
}

/// Which way the sibling of a half-facet runs: "lone (no other), same, opposite
/// or neither".
pub fn way(live: &[LiveCell], half: &HalfFacet) -> Way {
    match border(live, half) {
        true => Way::Lone,
        false => runs(half, &sibling(live, half)),
    }
}

/// Which way one runs beside another with an equal set of marks. "Bar ends are
/// opposite if their places differ, otherwise same. An edge is same if its mark
/// lists are equal, opposite if reversed. A face is same if one list is a
/// rotation of the other, opposite if it is a rotation of the other reversed,
/// and neither otherwise."
fn runs(one: &HalfFacet, other: &HalfFacet) -> Way {
    let reversed: Vec<Mark> = one.marks.iter().rev().copied().collect();
    let (same, opposite) = match one.marks.len() {
        1 => (one.places == other.places, one.places != other.places),
        2 => (one.marks == other.marks, reversed == other.marks),
        _ => (
            is_rotation(&one.marks, &other.marks),
            is_rotation(&reversed, &other.marks),
        ),
    };
    match (same, opposite) {
        (true, _) => Way::Same,
        (false, true) => Way::Opposite,
        (false, false) => Way::Neither,
    }
}

/// Whether one list, begun at some place and gone round, is the other.
fn is_rotation(one: &[Mark], other: &[Mark]) -> bool {
    (0..one.len()).any(|place| {
        let mut turned = one.to_vec();
        turned.rotate_left(place);
        turned == other
    })
}

/// "whole cycle from a half-facet (that one first, then in cycle order)"
pub fn cycle(live: &[LiveCell], half: &HalfFacet) -> Vec<HalfFacet> {
    let set = siblings(live, half);
    let (before, mut cycle): (Vec<_>, Vec<_>) = set
        .into_iter()
        .partition(|other| other.number() < half.number());
    cycle.extend(before);
    cycle
}

/// "Border: a half-facet alone in its set."
pub fn border(live: &[LiveCell], half: &HalfFacet) -> bool {
    siblings(live, half).len() == 1
}

/// The solids that a face lies between: the live cells of dimension 3 with a
/// facet of the same set of marks.
pub fn solids_on<'a>(live: &'a [LiveCell], face: &[Mark]) -> Vec<&'a LiveCell> {
    ascending(live, |cell| {
        let facets = half_facets_of(cell);
        cell.row.dimension == SOLID && facets.iter().any(|half| same_set(&half.marks, face))
    })
}

/// How many live cells the mark stands in, "all dimensions together".
pub fn cells_at(live: &[LiveCell], mark: Mark) -> usize {
    live.iter()
        .filter(|cell| cell.marks.contains(&mark))
        .count()
}

/// "Star of a mark in dimension d: all live cells of that dimension that hold
/// the mark, ascending, each once."
pub fn star(live: &[LiveCell], dimension: u32, mark: Mark) -> Vec<&LiveCell> {
    ascending(live, |cell| {
        cell.row.dimension == dimension && cell.marks.contains(&mark)
    })
}

/// Whether some facet of one cell has the same set of marks as some facet of
/// the other.
pub fn share_facet(one: &LiveCell, other: &LiveCell) -> bool {
    let of_other = half_facets_of(other);
    let shared = |half: &HalfFacet| of_other.iter().any(|by| same_set(&half.marks, &by.marks));
    half_facets_of(one).iter().any(shared)
}

/// "Link two cells of a star only if they share a facet that holds the mark."
pub fn linked(one: &LiveCell, other: &LiveCell, mark: Mark) -> bool {
    let of_other = half_facets_of(other);
    let shared = |half: &HalfFacet| of_other.iter().any(|by| same_set(&half.marks, &by.marks));
    half_facets_of(one)
        .iter()
        .any(|half| half.marks.contains(&mark) && shared(half))
}

/// "A group is a largest set joined by links." Takes in linked cells of the
/// star until none is left that is linked to the group.
pub fn groups(live: &[LiveCell], dimension: u32, mark: Mark) -> Vec<Vec<&LiveCell>> {
    let mut left = star(live, dimension, mark);
    let mut groups = Vec::new();
    while !left.is_empty() {
        let mut group = vec![left.remove(0)];
        while let Some(place) = left
            .iter()
            .position(|cell| group.iter().any(|member| linked(member, cell, mark)))
        {
            group.push(left.remove(place));
        }
        group.sort_by_key(|cell| cell.number);
        groups.push(group);
    }
    groups
}

/// "Anchor of a group at mark v: the smallest border half-facet in the group
/// that holds v; if there is none, the smallest half-facet in it that holds
/// v." None for an empty group only: each mark of a cell stands in a facet.
pub fn anchor(live: &[LiveCell], group: &[&LiveCell], mark: Mark) -> Option<HalfFacet> {
    let mut holding: Vec<HalfFacet> = group.iter().flat_map(|cell| half_facets_of(cell)).collect();
    holding.retain(|half| half.marks.contains(&mark));
    holding.sort_by_key(HalfFacet::number);
    let smallest_border = holding.iter().find(|half| border(live, half));
    smallest_border.or(holding.first()).cloned()
}

/// "Anchors are listed ascending, one for each group."
pub fn anchors(live: &[LiveCell], dimension: u32, mark: Mark) -> Vec<HalfFacet> {
    let groups = groups(live, dimension, mark);
    let mut anchors: Vec<HalfFacet> = groups
        .iter()
        .filter_map(|group| anchor(live, group, mark))
        .collect();
    anchors.sort_by_key(HalfFacet::number);
    anchors
}

/// "Where no anchor exists, the first anchor answers none."
pub fn first_anchor(live: &[LiveCell], dimension: u32, mark: Mark) -> Option<HalfFacet> {
    anchors(live, dimension, mark).into_iter().next()
}

/// "Neighbours of a cell: the other live cells that share a facet with it,
/// ascending, each once."
pub fn neighbours<'a>(live: &'a [LiveCell], cell: &LiveCell) -> Vec<&'a LiveCell> {
    ascending(live, |other| {
        other.number != cell.number && share_facet(cell, other)
    })
}

/// "The lookup by mark set gives the smallest half-facet or says that there is
/// none".
pub fn lookup(live: &[LiveCell], set: &[Mark]) -> Option<HalfFacet> {
    half_facets(live)
        .into_iter()
        .find(|half| same_set(&half.marks, set))
}

/// "for each type its live cells, ascending"
pub fn cells_of_type<'a>(live: &'a [LiveCell], row: &Type) -> Vec<&'a LiveCell> {
    ascending(live, |cell| cell.row.code == row.code)
}

/// "the list of live cells", ascending
pub fn live_cells(live: &[LiveCell]) -> Vec<&LiveCell> {
    ascending(live, |_| true)
}

/// The live cells of which it is true, ascending, each once.
fn ascending(live: &[LiveCell], is_true: impl Fn(&LiveCell) -> bool) -> Vec<&LiveCell> {
    let mut cells: Vec<&LiveCell> = live.iter().filter(|cell| is_true(cell)).collect();
    cells.sort_by_key(|cell| cell.number);
    cells
}

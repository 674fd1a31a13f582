//! Damaged journals, starting maps and meshes into every call of a journal: each
//! returns, a refusal changes nothing, and nothing beyond the room or behind the
//! last edit that fits changes; of a complaint that is refused, that holds but for
//! the second memory's room. The whole check says yes exactly where the words are
//! filed (docs/LAYOUT.md), and where it does, the map on a day and the licences to
//! ask are the second program's.
//!
//! MENGKILOH_DAMAGE gives the count of calls, 300,000 where it is not set.

mod common;

use std::collections::BTreeSet;

use common::{draw_licence, is_map, marks, told, Chance, SENTINEL};
use mengkiloh::{journal_words, room, Cell, Journal, Licence, Mark, Mesh, Refusal};
use second::shapes::type_with_code;
use streams::lattice;

const MARKS: u32 = 9;
const CELLS: u32 = 10;
const HEAD: usize = 16;
const EDIT: usize = 16;
const MAGIC: u32 = 1_296_780_874;

/// Mesh, journal, starting map and second memory.
#[derive(Clone, PartialEq, Debug)]
struct Lent {
    mesh: Vec<u32>,
    journal: Vec<u32>,
    start: Vec<u32>,
    second: Vec<u32>,
}

#[test]
fn every_call_is_safe_on_damaged_memory() {
    let calls = std::env::var("MENGKILOH_DAMAGE")
        .ok()
        .and_then(|count| count.parse().ok())
        .unwrap_or(300_000_u64);
    let mut chance = Chance::from_seed(9);
    let (mut made, mut accepted) = (0, 0);
    let mut complaints = Complaints::default();
    let (mut whole, mut damaged_whole, mut refused_entries) = (0, 0, 0);
    while made < calls {
        let good = kept(&mut chance);
        assert!(is_whole(&good));
        for _ in 0..32 {
            let mut lent = good.clone();
            damage(&mut chance, &mut lent);
            for _ in 0..4 {
                made += 1;
                accepted += u64::from(one_call(&mut chance, &mut lent));
            }
            if chance.one_in(2) {
                made += 1;
                complain(&mut chance, &mut lent, &mut complaints);
            }
            assert_eq!(is_whole(&lent), is_filed(&lent), "{lent:?}");
            if is_whole(&lent) {
                whole += 1;
                damaged_whole += u64::from(lent.journal != good.journal);
                refused_entries += u64::from(days_agree(&mut chance, &lent));
            }
        }
    }
    println!(
        "{made} calls, {accepted} accepted; whole {whole} times, {damaged_whole} of another \
         journal, {refused_entries} with an entry that is refused when it is made again; \
         {complaints:?}"
    );
    assert!(accepted > 1_000 && damaged_whole > 100 && refused_entries > 10);
    let Complaints { named, of } = complaints;
    assert!(named > 1_000 && [0, 2, 8, 12, 14, 21].iter().all(|&number| of[number] > 100));
}

/// Memory that the calls kept, with words behind each room.
fn kept(chance: &mut Chance) -> Lent {
    let long = room(MARKS, CELLS) + chance.below(20) as usize;
    let mut lent = Lent {
        mesh: vec![SENTINEL; long],
        journal: vec![SENTINEL; journal_words(0) + chance.below(200) as usize],
        start: vec![SENTINEL; long],
        second: vec![SENTINEL; long],
    };
    let mut mesh = Mesh::over(&mut lent.mesh[..]);
    mesh.format_edition(MARKS, CELLS, 1 + chance.below(2))
        .expect("the room fits");
    let mut journal = Journal::over(&mut lent.journal[..], &mut lent.start[..]);
    journal.begin(&mesh).expect("the room fits");
    let mut day = 0;
    for _ in 0..24 {
        day += match chance.below(6) {
            0 => 366,
            1 => chance.below(40),
            _ => 0,
        };
        enter(chance, &mut journal, &mut mesh, day).ok();
        if chance.one_in(4) {
            journal.fold(day.saturating_sub(366)).ok();
        }
    }
    lent
}

/// An edit entered on a day, through a call of either kind.
fn enter<S>(
    chance: &mut Chance,
    journal: &mut Journal<&mut [u32], S>,
    mesh: &mut Mesh<&mut [u32]>,
    day: u32,
) -> Result<(), Refusal> {
    let cell = Cell(chance.below(CELLS + 1));
    if chance.one_in(3) {
        return journal.remove(mesh, day, cell);
    }
    let (code, drawn) = lattice::draw(chance, lattice::side(MARKS));
    let licence = Licence(draw_licence(chance));
    journal.insert(mesh, day, cell, code, licence, &marks(&drawn))
}

fn damage(chance: &mut Chance, lent: &mut Lent) {
    match chance.below(12) {
        0 => {}
        // heads for each other
        1 => lent.mesh[..HEAD].swap_with_slice(&mut lent.journal[..HEAD]),
        2 => lent.start[..HEAD].swap_with_slice(&mut lent.journal[..HEAD]),
        3 => std::mem::swap(&mut lent.start, &mut lent.journal),
        4 => std::mem::swap(&mut lent.mesh, &mut lent.start),
        5..=8 => change(chance, &mut lent.journal),
        9 => change(chance, &mut lent.start),
        10 => change(chance, &mut lent.mesh),
        _ => {
            change(chance, &mut lent.journal);
            change(chance, &mut lent.start);
            change(chance, &mut lent.mesh);
        }
    }
}

fn change(chance: &mut Chance, words: &mut Vec<u32>) {
    let any = |chance: &mut Chance, words: &[u32]| chance.below(words.len() as u32) as usize;
    match chance.below(8) {
        0 => words.fill(0),
        1 => words
            .iter_mut()
            .for_each(|word| *word = chance.bits() as u32),
        2 => words.truncate(chance.below(words.len() as u32 + 1) as usize),
        3 if !words.is_empty() => {
            let at = any(chance, words);
            words[at] ^= 1 << chance.below(32);
        }
        4 if !words.is_empty() => {
            let (a, b) = (any(chance, words), any(chance, words));
            words.swap(a, b);
        }
        5 if words.len() > HEAD => {
            // the head as it was, and small numbers behind it
            for word in &mut words[HEAD..] {
                *word = small(chance);
            }
        }
        // a word of the head
        6 if words.len() > HEAD => words[chance.below(9) as usize] = small(chance),
        _ if !words.is_empty() => {
            for _ in 0..1 + chance.below(3) {
                let at = any(chance, words);
                words[at] = small(chance);
            }
        }
        _ => {}
    }
}

/// One that a mark, a cell, a type, a count, a link or a day might be.
fn small(chance: &mut Chance) -> u32 {
    match chance.below(4) {
        0 => chance.below(4),
        1 => chance.below(CELLS + 2),
        2 => chance.below(8 * CELLS + 2),
        _ => chance.below(2_000),
    }
}

/// The words of the room that a head gives; all where it gives none.
fn room_in(words: &[u32]) -> usize {
    match words {
        [_, marks @ 0..=65_535, cells @ 0..=65_535, ..] => room(*marks, *cells),
        _ => usize::MAX,
    }
}

/// The words of a journal's head and of the edits that fit.
fn used(words: &[u32]) -> usize {
    words.len() / EDIT * EDIT
}

/// A call of any kind; whether it was accepted.
fn one_call(chance: &mut Chance, lent: &mut Lent) -> bool {
    let before = lent.clone();
    let day = match chance.below(4) {
        0 => chance.below(70_000),
        1 => lent.journal.get(5).map_or(0, |last| last.wrapping_sub(366)),
        2 => lent.journal.get(7).map_or(0, |fold| fold.wrapping_sub(1)),
        _ => lent.journal.get(5).map_or(0, |last| last.wrapping_add(1)),
    };
    let (mut mesh_end, mut journal_end, mut start_end, mut second_end) = (0, 0, 0, 0);
    let answer = match chance.below(5) {
        0 => {
            (journal_end, start_end) = (used(&lent.journal), room_in(&lent.mesh));
            let mesh = Mesh::over(&lent.mesh[..]);
            Journal::over(&mut lent.journal[..], &mut lent.start[..]).begin(&mesh)
        }
        1 => {
            (journal_end, start_end) = (used(&lent.journal), room_in(&lent.start));
            Journal::over(&mut lent.journal[..], &mut lent.start[..]).fold(day)
        }
        2 => {
            second_end = room_in(&lent.start);
            let mut second = Mesh::over(&mut lent.second[..]);
            Journal::over(&lent.journal[..], &lent.start[..]).on(day, &mut second)
        }
        _ => {
            (mesh_end, journal_end) = (room_in(&lent.mesh), used(&lent.journal));
            let mut mesh = Mesh::over(&mut lent.mesh[..]);
            enter(
                chance,
                &mut Journal::over(&mut lent.journal[..], ()),
                &mut mesh,
                day,
            )
        }
    };
    if answer.is_err() {
        assert_eq!(*lent, before, "a refusal changes nothing");
        return false;
    }
    let same_from = |end: usize, now: &[u32], then: &[u32]| {
        assert_eq!(now.len(), then.len());
        assert!(end >= now.len() || now[end..] == then[end..]);
    };
    same_from(mesh_end, &lent.mesh, &before.mesh);
    same_from(journal_end, &lent.journal, &before.journal);
    same_from(start_end, &lent.start, &before.start);
    same_from(second_end, &lent.second, &before.second);
    true
}

/// How many complaints were answered, or refused with a number, and how many
/// licences they named.
#[derive(Default, Debug)]
struct Complaints {
    named: usize,
    of: [u64; 32],
}

/// A complaint, into second memory that is short now and then and a list of any
/// room: a refusal leaves the list, an answer writes its first places alone, and
/// nothing but the room of second memory changes.
fn complain(chance: &mut Chance, lent: &mut Lent, told: &mut Complaints) {
    let before = lent.clone();
    let day = match chance.below(4) {
        0 => chance.below(70_000),
        1 => lent.journal.get(7).map_or(0, |fold| fold.wrapping_sub(2)),
        _ => lent
            .journal
            .get(5)
            .map_or(0, |last| last.wrapping_sub(chance.below(40))),
    };
    let mark = Mark(chance.below(MARKS + 2));
    let words = match chance.below(4) {
        0 => chance.below(lent.second.len() as u32 + 1) as usize,
        _ => lent.second.len(),
    };
    let places = chance.below(6) as usize;
    let mut out = [Licence(SENTINEL); 16];
    let answer = Journal::over(&lent.journal[..], &lent.start[..]).licences_into(
        day,
        mark,
        &mut Mesh::over(&mut lent.second[..words]),
        &mut out[..places],
    );
    let count = answer.unwrap_or(0);
    assert!(count <= places);
    assert!(out[count..].iter().all(|&place| place == Licence(SENTINEL)));
    let end = room_in(&lent.start).min(words);
    assert_eq!(lent.second[end..], before.second[end..]);
    let number = answer.map_or_else(|why| why.number(), |_| 0);
    if matches!(number, 14 | 21 | 2 | 8) {
        assert_eq!(lent.second, before.second, "refused with {number}");
    }
    lent.second.clone_from(&before.second);
    assert_eq!(*lent, before, "the journal, its starting map and the mesh");
    told.named += count;
    told.of[usize::from(number)] += 1;
}

fn is_whole(lent: &Lent) -> bool {
    Journal::over(&lent.journal[..], &lent.start[..]).whole()
}

/// The entry at a place, in its words.
fn entry(journal: &[u32], k: usize) -> &[u32] {
    &journal[HEAD + EDIT * k..][..EDIT]
}

/// How many marks the type of an entry has; none where there is no such type.
fn mark_count(code: u32) -> usize {
    type_with_code(code).map_or(0, |row| row.marks)
}

/// Whether journal and starting map are what some map and some dated edits leave.
fn is_filed(lent: &Lent) -> bool {
    let (journal, start) = (&lent.journal, &lent.start);
    let zero = |words: &[u32]| words.iter().all(|&word| word == 0);
    if !Mesh::over(&start[..]).whole() || journal.len() < HEAD {
        return false;
    }
    let [entries, last, ever, fold] = [4, 5, 6, 7].map(|at| journal[at]);
    let places = journal.len() / EDIT - 1;
    if journal[0] != MAGIC || journal[1..4] != start[1..4] || entries as usize > places {
        return false;
    }
    let entries = entries as usize;
    let behind = &journal[HEAD + EDIT * entries..used(journal)];
    if !zero(&journal[8..HEAD]) || !zero(behind) {
        return false;
    }
    let mut days = vec![fold];
    for k in 0..entries {
        let words = entry(journal, k);
        let right = match words[1] {
            1 => zero(&words[5 + mark_count(words[3])..]),
            2 => zero(&words[3..]),
            _ => false,
        };
        if !right {
            return false;
        }
        days.push(words[0]);
    }
    let newest = *days.last().expect("the fold");
    let head = match entries {
        0 => last == 0 && ever == 0 && fold == 0,
        _ => {
            last == newest
                && ever == 1
                && last <= 65_535
                && (fold == 0 || u64::from(fold) + 365 <= u64::from(last))
        }
    };
    head && days.is_sorted()
}

/// The map on a day is the starting map with the entries of that day and earlier
/// ones made once more, a refused one left out, and a complaint names the licences
/// of its cells. Whether an entry was left out.
fn days_agree(chance: &mut Chance, lent: &Lent) -> bool {
    let Lent { journal, start, .. } = lent;
    let (entries, last, fold) = (journal[4] as usize, journal[5], journal[7]);
    let exact = room(start[1], start[2]);
    let mut left_out = false;
    for day in [fold.saturating_sub(1), chance.below(last + 2), last] {
        if day + 1 < fold {
            continue;
        }
        let mut theirs = told(start);
        for words in (0..entries).map(|k| entry(journal, k)) {
            if words[0] > day {
                break;
            }
            let made = match words[1] {
                1 => {
                    let marks = &words[5..][..mark_count(words[3])];
                    theirs.insert_licensed(words[2], words[3], words[4], marks)
                }
                _ => theirs.remove(words[2]),
            };
            left_out |= made.is_err();
        }
        let mut second = Mesh::over(vec![0; exact]);
        Journal::over(&journal[..], &start[..])
            .on(day, &mut second)
            .expect("a day that is kept");
        is_map(second.words(), &theirs);
        let mark = chance.below(start[1] + 1);
        let named = Journal::over(&journal[..], &start[..]).licences(day, Mark(mark), &mut second);
        let cells = theirs.mesh.iter().flat_map(|mesh| &mesh.live);
        let around = cells.filter(|cell| cell.marks.contains(&second::map::Mark(mark)));
        let licences: BTreeSet<u32> = around.map(|cell| cell.licence).collect();
        let due = licences.into_iter().filter(|&licence| licence != 0);
        match mark < start[1] {
            true => assert_eq!(named, Ok(due.map(Licence).collect())),
            false => assert_eq!(named, Err(Refusal::MarkOutside)),
        }
        is_map(second.words(), &theirs);
    }
    left_out
}

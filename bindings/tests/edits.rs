//! Lists of edits in one call, beside the same edits called one by one and
//! beside the second program: thousands of them, cut short at every word, refused
//! at every place, with a tally up to its largest counts.

mod common;

use common::{draw_licence, marks, records, told, Chance, SENTINEL};
use mengkiloh::{room, Cell, Edits, EditsStopped, Licence, Mesh, Refusal, Tally};
use second::shapes::type_with_code;
use second::Memory;
use streams::lattice;

/// Sentinels behind the mesh.
const PAD: usize = 16;

/// An edit, as words of a list.
type Edit = Vec<u32>;

/// The number made and the refusal's, 0 for none; the tally.
type Said = (usize, u8, Tally);

fn library(words: &mut [u32], list: &[u32], mut tally: Tally) -> Said {
    let mut mesh = Mesh::over(words);
    match mesh.edits(&Edits::from(list.to_vec()), &mut tally) {
        Ok(made) => (made, 0, tally),
        Err(EditsStopped { refusal, made }) => (made, refusal.number(), tally),
    }
}

fn second(memory: &mut Memory, list: &[u32], tally: Tally) -> Said {
    let Tally { accepted, refused } = tally;
    let mut counts = second::Tally { accepted, refused };
    let answer = memory.edits(list, &mut counts);
    let (accepted, refused) = (counts.accepted, counts.refused);
    let tally = Tally { accepted, refused };
    match answer {
        Ok(made) => (made, 0, tally),
        Err((refusal, made)) => (made, refusal.number(), tally),
    }
}

/// The edits by calls of their own, up to the first that is refused.
fn one_by_one(words: &mut [u32], edits: &[Edit]) -> (usize, u8) {
    let mut mesh = Mesh::over(words);
    for (made, edit) in edits.iter().enumerate() {
        let answer = match edit[..] {
            [1, cell, code, licence, ref rest @ ..] => {
                mesh.insert_licensed(Cell(cell), code, Licence(licence), &marks(rest))
            }
            [2, cell] => mesh.remove(Cell(cell)),
            _ => unreachable!("an edit of another kind"),
        };
        if let Err(refusal) = answer {
            return (made, refusal.number());
        }
    }
    (edits.len(), 0)
}

/// Memory of its room and more, formatted, and the second program's.
fn formatted(marks: u32, cells: u32, edition: u32) -> (Vec<u32>, Memory) {
    let mut words = vec![SENTINEL; room(marks, cells) + PAD];
    let mut memory = Memory::lent(words.len());
    Mesh::over(&mut words[..])
        .format_edition(marks, cells, edition)
        .expect("the room fits");
    memory
        .format_edition(marks, cells, edition)
        .expect("the room fits");
    (words, memory)
}

/// An edit whose marks are as many as its type has; it may be refused.
fn draw(chance: &mut Chance, marks: u32, cells: u32) -> Edit {
    let cell = chance.below(cells);
    if chance.below(5) < 2 {
        return vec![2, cell];
    }
    let side = 1 + chance.below(lattice::side(marks));
    let (code, drawn) = match chance.below(2) {
        0 => lattice::draw(chance, side),
        _ => {
            let code = 1 + chance.below(7);
            let count = type_with_code(code).map_or(0, |row| row.marks);
            let mut drawn: Vec<u32> = (0..marks.min(12)).collect();
            chance.shuffle(&mut drawn);
            drawn.truncate(count);
            (code, drawn)
        }
    };
    [&[1, cell, code, draw_licence(chance)], &drawn[..]].concat()
}

/// So many edits that are all accepted one after the other.
fn accepted(chance: &mut Chance, marks: u32, cells: u32, edition: u32, count: usize) -> Vec<Edit> {
    let (_, mut memory) = formatted(marks, cells, edition);
    let mut edits = Vec::new();
    while edits.len() < count {
        let edit = draw(chance, marks, cells);
        if memory.edits(&edit, &mut second::Tally::default()).is_ok() {
            edits.push(edit);
        }
    }
    edits
}

/// Left is the memory of the cells that the second program has, word for word,
/// and nothing behind the room is touched.
fn same(words: &[u32], memory: &Memory) {
    let mesh = memory.mesh.as_ref().expect("a mesh");
    let exact = room(mesh.marks, mesh.cells);
    let mut afresh = Mesh::over(vec![7; exact]);
    let built = afresh.build_edition(mesh.marks, mesh.cells, mesh.edition, &records(&mesh.live));
    assert_eq!(built, Ok(()));
    assert!(words[..exact] == *afresh.words(), "the words differ");
    assert!(words[exact..].iter().all(|&word| word == SENTINEL));
}

#[test]
fn thousands_of_edits_in_one_list() {
    for (seed, marks, cells, count) in
        [(1, 27, 40, 2_000), (2, 40, 60, 3_000), (3, 125, 200, 4_000)]
    {
        let mut chance = Chance::from_seed(seed);
        let edition = 1 + chance.below(2);
        let edits = accepted(&mut chance, marks, cells, edition, count);
        let (empty, none) = formatted(marks, cells, edition);
        let (mut words, mut memory) = (empty.clone(), none.clone());
        let list = edits.concat();
        let said = library(&mut words, &list, Tally::default());
        let tally = Tally {
            accepted: count as u32,
            refused: 0,
        };
        assert_eq!(said, (count, 0, tally));
        assert_eq!(second(&mut memory, &list, Tally::default()), said);
        same(&words, &memory);
        let mut each = empty.clone();
        assert_eq!(one_by_one(&mut each, &edits), (count, 0));
        assert_eq!(each, words);
        // a removal of a cell that is not live, somewhere in it
        for _ in 0..5 {
            let place = chance.below(count as u32) as usize;
            let (mut words, mut memory) = (empty.clone(), none.clone());
            let list = [
                edits[..place].concat(),
                vec![2, cells],
                edits[place..].concat(),
            ]
            .concat();
            let said = library(&mut words, &list, tally);
            assert_eq!((said.0, said.1), (place, Refusal::CellOutside.number()));
            assert_eq!(said.2.accepted, (count + place) as u32);
            assert_eq!(said.2.refused, 1);
            assert_eq!(second(&mut memory, &list, tally), said);
            same(&words, &memory);
        }
    }
}

#[test]
fn a_list_cut_short_at_every_word() {
    for seed in 10..14 {
        let mut chance = Chance::from_seed(seed);
        let edition = 1 + chance.below(2);
        let edits = accepted(&mut chance, 27, 20, edition, 60);
        let (empty, none) = formatted(27, 20, edition);
        let list = edits.concat();
        let ends: Vec<usize> = edits
            .iter()
            .scan(0, |end, edit| {
                *end += edit.len();
                Some(*end)
            })
            .collect();
        for length in 0..=list.len() {
            let (mut words, mut memory) = (empty.clone(), none.clone());
            let said = library(&mut words, &list[..length], Tally::default());
            assert_eq!(
                second(&mut memory, &list[..length], Tally::default()),
                said,
                "{length} words"
            );
            let made = ends.iter().filter(|&&end| end <= length).count();
            let whole = length == 0 || ends.contains(&length);
            assert_eq!((said.0, said.1), (made, if whole { 0 } else { 7 }));
            same(&words, &memory);
        }
    }
}

#[test]
fn a_list_refused_at_every_place() {
    let bad: [&[u32]; 9] = [
        &[0],
        &[3, 1, 2],
        &[u32::MAX],
        &[2, 20],
        &[1, 20, 2, 7, 0, 1, 2],
        &[1, 0, 8, 7],
        &[1, 0, 2, 7, 0, 0, 1],
        &[1, 0, 2, 7, 0, 1, 27],
        &[2, u32::MAX],
    ];
    for seed in 20..23 {
        let mut chance = Chance::from_seed(seed);
        let edition = 1 + chance.below(2);
        let edits = accepted(&mut chance, 27, 20, edition, 40);
        let (empty, none) = formatted(27, 20, edition);
        for place in 0..=edits.len() {
            let mut expected = empty.clone();
            assert_eq!(one_by_one(&mut expected, &edits[..place]), (place, 0));
            for words in bad {
                let parts = [&edits[..place].concat(), words, &edits[place..].concat()];
                let list = parts.concat();
                let (mut after, mut memory) = (empty.clone(), none.clone());
                let said = library(&mut after, &list, Tally::default());
                assert_eq!(second(&mut memory, &list, Tally::default()), said);
                assert_eq!(said.0, place);
                assert_ne!(said.1, 0);
                let tally = Tally {
                    accepted: place as u32,
                    refused: 1,
                };
                assert_eq!(said.2, tally);
                assert_eq!(after, expected);
            }
        }
    }
}

/// Edits that are accepted or refused as they come, list after list with one
/// tally; and lists of any words.
#[test]
fn lists_by_chance() {
    let (mut all, mut stopped) = (0, 0);
    for seed in 30..60 {
        let mut chance = Chance::from_seed(seed);
        let edition = 1 + chance.below(2);
        let (mut words, mut memory) = formatted(27, 30, edition);
        let mut tally = Tally::default();
        for _ in 0..40 {
            let list: Vec<u32> = match chance.below(3) {
                0 => (0..chance.below(30)).map(|_| chance.below(4)).collect(),
                _ => (0..chance.below(12))
                    .flat_map(|_| draw(&mut chance, 27, 31))
                    .collect(),
            };
            let said = library(&mut words, &list, tally);
            assert_eq!(second(&mut memory, &list, tally), said, "{list:?}");
            tally = said.2;
            *if said.1 == 0 { &mut all } else { &mut stopped } += 1;
            assert!(told(&words).mesh.is_some_and(|mesh| {
                let live = &memory.mesh.as_ref().expect("a mesh").live;
                mesh.live.len() == live.len() && mesh.live.iter().all(|cell| live.contains(cell))
            }));
        }
        same(&words, &memory);
    }
    assert!(all > 100 && stopped > 100, "{all} {stopped}");
}

/// "a count at its largest number stays there", and no answer depends on it.
#[test]
fn a_tally_at_its_largest_and_one_below() {
    let mut chance = Chance::from_seed(70);
    let edits = accepted(&mut chance, 27, 20, 1, 12);
    let (empty, none) = formatted(27, 20, 1);
    let good = edits.concat();
    let bad = [good.clone(), vec![2, 20]].concat();
    for list in [&[][..], &edits[0], &good, &bad, &[3]] {
        let (mut words, mut memory) = (empty.clone(), none.clone());
        let (made, number, _) = library(&mut words, list, Tally::default());
        second(&mut memory, list, Tally::default());
        same(&words, &memory);
        let counts = [0, 1, u32::MAX - 13, u32::MAX - 12, u32::MAX - 1, u32::MAX];
        for (accepted, refused) in counts.iter().flat_map(|&a| counts.map(|b| (a, b))) {
            let mut after = empty.clone();
            let due = Tally {
                accepted: accepted.saturating_add(made as u32),
                refused: refused.saturating_add(u32::from(number != 0)),
            };
            let tally = Tally { accepted, refused };
            assert_eq!(library(&mut after, list, tally), (made, number, due));
            assert_eq!(after, words);
        }
    }
}

/// "14 first, for an empty list too": made is 0, and the tally has one refused
/// more.
#[test]
fn no_mesh_no_edits() {
    for words in [0, 15, 16, 500] {
        for list in [&[][..], &[2, 0], &[3], &[1]] {
            let mut memory = vec![SENTINEL; words];
            let tally = Tally {
                accepted: 4,
                refused: 6,
            };
            let due = Tally {
                accepted: 4,
                refused: 7,
            };
            let number = Refusal::NotMesh.number();
            assert_eq!(library(&mut memory, list, tally), (0, number, due));
            assert!(memory.iter().all(|&word| word == SENTINEL));
            let second = second(&mut Memory::lent(words), list, tally);
            assert_eq!(second, (0, number, due));
        }
    }
}

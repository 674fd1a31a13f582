//! Request 9 beside the second program: two years of 300 edits a day, journals by
//! chance, and every refusal in its order.

mod common;

use std::collections::BTreeSet;

use common::{draw_edit, is_map, marks, ours, theirs, told, Chance, Question, SENTINEL};
use mengkiloh::{journal_words, room, Cell, Journal, Licence, Mesh};
use second::journal::{Edit, Journal as TheirJournal, EDIT_WORDS, HEAD_WORDS};
use second::Memory;

/// Sentinels before and behind each memory.
const PAD: usize = 24;

/// Words between sentinels.
#[derive(Clone, PartialEq)]
struct Lent(Vec<u32>);

impl Lent {
    fn of(words: usize) -> Lent {
        Lent(vec![SENTINEL; words + 2 * PAD])
    }

    fn words(&self) -> &[u32] {
        &self.0[PAD..self.0.len() - PAD]
    }

    fn words_mut(&mut self) -> &mut [u32] {
        let end = self.0.len() - PAD;
        &mut self.0[PAD..end]
    }

    /// Nothing was written outside, nor behind the first `used` words.
    fn holds(&self, used: usize) {
        let behind = PAD + used.min(self.words().len());
        let rest = self.0[..PAD].iter().chain(&self.0[behind..]);
        assert!(rest.into_iter().all(|&word| word == SENTINEL));
    }
}

/// A mesh with its journal and starting map, here and in the second program.
#[derive(Clone)]
struct Desk {
    mesh: Lent,
    journal: Lent,
    start: Lent,
    their_mesh: Memory,
    their_journal: TheirJournal,
    their_start: Memory,
}

enum Call {
    Begin,
    Enter(u32, Edit),
    /// Of a day, into so many words.
    On(u32, usize),
    Fold(u32),
}

impl Desk {
    /// A mesh with no cell; journal and starting map in so many words.
    fn formatted(caps: (u32, u32, u32), journal: usize, start: usize) -> Desk {
        let (marks, cells, edition) = caps;
        let mut mesh = Lent::of(room(marks, cells));
        let mut their_mesh = Memory::lent(room(marks, cells));
        Mesh::over(mesh.words_mut())
            .format_edition(marks, cells, edition)
            .expect("the room fits");
        their_mesh
            .format_edition(marks, cells, edition)
            .expect("the room fits");
        Desk {
            mesh,
            journal: Lent::of(journal),
            start: Lent::of(start),
            their_mesh,
            their_journal: TheirJournal::lent(journal),
            their_start: Memory::lent(start),
        }
    }

    /// The same with a journal begun.
    fn begun(caps: (u32, u32, u32), journal: usize) -> Desk {
        let mut desk = Desk::formatted(caps, journal, room(caps.0, caps.1));
        assert_eq!(desk.make(&Call::Begin), 0);
        desk
    }

    /// The call, here and there: the number of its refusal, 0 for accepted.
    fn make(&mut self, call: &Call) -> u8 {
        let journal = self.journal.words_mut();
        let (answer, expected) = match call {
            Call::Begin => {
                let mesh = Mesh::over(self.mesh.words());
                let answer = Journal::over(journal, self.start.words_mut()).begin(&mesh);
                let expected = self
                    .their_journal
                    .begin(&self.their_mesh, &mut self.their_start);
                (answer, expected)
            }
            Call::Enter(day, edit) => {
                let mut mesh = Mesh::over(self.mesh.words_mut());
                let mut journal = Journal::over(journal, ());
                let answer = match edit {
                    Edit::Insert {
                        cell,
                        code,
                        licence,
                        marks: list,
                    } => {
                        let licence = Licence(*licence);
                        journal.insert(&mut mesh, *day, Cell(*cell), *code, licence, &marks(list))
                    }
                    Edit::Remove { cell } => journal.remove(&mut mesh, *day, Cell(*cell)),
                };
                let expected = self
                    .their_journal
                    .enter(&mut self.their_mesh, *day, edit.clone());
                (answer, expected)
            }
            Call::On(day, words) => {
                let mut second = Lent::of(*words);
                let answer = Journal::over(&*journal, self.start.words())
                    .on(*day, &mut Mesh::over(second.words_mut()));
                let mut theirs = Memory::lent(*words);
                let expected = self.their_journal.on(&self.their_start, *day, &mut theirs);
                match &theirs.mesh {
                    Some(mesh) if answer.is_ok() => {
                        second.holds(room(mesh.marks, mesh.cells));
                        is_map(second.words(), &theirs);
                    }
                    _ => second.holds(0),
                }
                (answer, expected)
            }
            Call::Fold(day) => {
                let answer = Journal::over(journal, self.start.words_mut()).fold(*day);
                let expected = self.their_journal.fold(&mut self.their_start, *day);
                (answer, expected)
            }
        };
        let number = ours(answer, |()| vec![]).0;
        assert_eq!(number, theirs(expected, |()| vec![]).0);
        number
    }

    /// The same; a refusal changes nothing, and an accepted call writes what the
    /// second program has.
    fn make_and_look(&mut self, call: &Call) -> u8 {
        let before = self.clone();
        let number = self.make(call);
        if number != 0 || matches!(call, Call::On(..)) {
            assert!(self.mesh == before.mesh && self.journal == before.journal);
            assert!(self.start == before.start);
        } else {
            self.look();
        }
        number
    }

    /// Mesh, journal and starting map, word for word.
    fn look(&self) {
        let of = |memory: &Memory| {
            let mesh = memory.mesh.as_ref().expect("a mesh");
            room(mesh.marks, mesh.cells)
        };
        self.mesh.holds(of(&self.their_mesh));
        is_map(self.mesh.words(), &self.their_mesh);
        self.start.holds(of(&self.their_start));
        is_map(self.start.words(), &self.their_start);
        let journal = journal_of(&self.their_journal);
        self.journal.holds(journal.len());
        assert_eq!(self.journal.words()[..journal.len()], journal);
        assert!(Journal::over(self.journal.words(), self.start.words()).whole());
    }
}

/// The words of a journal that was kept (docs/LAYOUT.md).
fn journal_of(journal: &TheirJournal) -> Vec<u32> {
    let book = journal.book.as_ref().expect("a journal");
    let mut words = vec![1_296_780_874, book.of.0, book.of.1, book.of.2];
    words.extend([book.entries.len() as u32, book.last.unwrap_or(0)]);
    words.extend([
        u32::from(book.last.is_some()),
        book.fold.map_or(0, |day| day + 1),
    ]);
    words.resize(HEAD_WORDS, 0);
    for (k, (day, edit)) in book.entries.iter().enumerate() {
        match edit {
            Edit::Insert {
                cell,
                code,
                licence,
                marks,
            } => {
                words.extend([*day, 1, *cell, *code, *licence]);
                words.extend(marks);
            }
            Edit::Remove { cell } => words.extend([*day, 2, *cell]),
        }
        words.resize(HEAD_WORDS + EDIT_WORDS * (k + 1), 0);
    }
    words.resize(HEAD_WORDS + EDIT_WORDS * journal.places(), 0);
    words
}

/// Two years, with a fold each day once one is allowed.
#[test]
fn two_years_of_300_edits_a_day() {
    const DAYS: u32 = 730;
    const A_DAY: usize = 300;
    const KEPT: u32 = 366;
    const OF: (u32, u32, u32) = (27, 24, 1);
    let mut chance = Chance::from_seed(9);
    // full on each evening from the first that can be folded on
    let mut desk = Desk::begun(OF, journal_words((KEPT as usize + 1) * A_DAY));
    let exact = room(OF.0, OF.1);
    let mut evenings = Vec::new();
    let mut entered = 0;
    for day in 0..DAYS {
        let mut made = 0;
        while made < A_DAY {
            let edit = draw_edit(&mut chance, (OF.0, OF.1), &desk.their_mesh);
            made += usize::from(desk.make(&Call::Enter(day, edit)) == 0);
        }
        entered += made;
        is_map(desk.mesh.words(), &desk.their_mesh);
        evenings.push(desk.their_mesh.clone());
        if day < KEPT {
            continue;
        }
        let live = desk.their_mesh.mesh.as_ref().expect("a mesh").live.first();
        let cell = live.expect("a live cell").number.0;
        assert_eq!(desk.make(&Call::Enter(day, Edit::Remove { cell })), 23);
        let folded = day - KEPT;
        assert_eq!(desk.make(&Call::On(folded, exact)), 0);
        assert_eq!(desk.make(&Call::Fold(folded + 1)), 22);
        assert_eq!(desk.make(&Call::Fold(folded)), 0);
        is_map(desk.start.words(), &evenings[folded as usize]);
        assert_eq!(desk.make(&Call::On(folded, exact)), 0);
        if folded > 0 {
            assert_eq!(desk.make(&Call::On(folded - 1, exact)), 21);
        }
        if day % 61 == 0 {
            was(
                &desk,
                folded + chance.below(KEPT + 1),
                &evenings,
                &mut chance,
            );
        }
    }
    assert_eq!(entered, 219_000);
    desk.look();
    was(&desk, DAYS - 1, &evenings, &mut chance);
    was(&desk, u32::MAX, &evenings, &mut chance);

    // the last year, day by day: one edit a year later lets all of it be folded
    let first = DAYS - KEPT;
    let last = DAYS - 1 + KEPT;
    let live = desk.their_mesh.mesh.as_ref().expect("a mesh").live.first();
    let cell = live.expect("a live cell").number.0;
    assert_eq!(desk.make(&Call::Enter(last, Edit::Remove { cell })), 0);
    for day in first..DAYS {
        assert_eq!(desk.make(&Call::Fold(day)), 0);
        is_map(desk.start.words(), &evenings[day as usize]);
        was(&desk, day, &evenings, &mut chance);
    }
    desk.look();
}

/// The map on a day is that evening's, and answers as it did.
fn was(desk: &Desk, day: u32, evenings: &[Memory], chance: &mut Chance) {
    let evening = &evenings[(day as usize).min(evenings.len() - 1)];
    let mesh = evening.mesh.as_ref().expect("a mesh");
    let mut second = Lent::of(room(mesh.marks, mesh.cells));
    Journal::over(desk.journal.words(), desk.start.words())
        .on(day, &mut Mesh::over(second.words_mut()))
        .expect("a day that is kept");
    is_map(second.words(), evening);
    let map = Mesh::over(second.words());
    for _ in 0..8 {
        let question = Question::draw(chance, mesh.marks, mesh.cells);
        assert_eq!(question.to_library(&map), question.to_second(evening));
    }
}

/// Journals of any length, days with gaps between them, folds and queries at any
/// time, and now and then a new journal.
#[test]
fn journals_by_chance() {
    const OF: (u32, u32) = (9, 10);
    let exact = room(OF.0, OF.1);
    let mut seen = BTreeSet::new();
    for seed in 0..120 {
        let mut chance = Chance::from_seed(seed);
        let words = 16 + chance.below(700) as usize;
        let edition = 1 + chance.below(2);
        let mut desk = Desk::begun((OF.0, OF.1, edition), words);
        let mut day = chance.below(3);
        for _ in 0..120 {
            let call = match chance.below(16) {
                0 if chance.one_in(8) => Call::Begin,
                0..=2 => {
                    let near = match chance.below(4) {
                        0 => chance.below(70_000),
                        _ => (day + 2).saturating_sub(366 + chance.below(5)),
                    };
                    Call::Fold(near)
                }
                3..=5 => {
                    let asked = match chance.below(4) {
                        0 => chance.below(70_000),
                        _ => day.saturating_sub(chance.below(900)),
                    };
                    Call::On(asked, exact - 2 + chance.below(6) as usize)
                }
                _ => {
                    day = match chance.below(12) {
                        0 => day + 366 - chance.below(3),
                        1 => day.saturating_sub(1),
                        2..=4 => day + chance.below(200),
                        _ => day + chance.below(2),
                    };
                    Call::Enter(day, draw_edit(&mut chance, OF, &desk.their_mesh))
                }
            };
            let number = desk.make_and_look(&call);
            seen.insert(number);
            if let (Call::Begin, 0) = (&call, number) {
                day = chance.below(400);
            }
            if let (Call::Enter(..), 20) = (&call, number) {
                day += 1;
            }
        }
    }
    assert!([0, 2, 20, 21, 22, 23].iter().all(|it| seen.contains(it)));
}

/// The largest day can be entered, asked for and folded up to.
#[test]
fn the_last_days() {
    let mut desk = Desk::begun((6, 4, 1), journal_words(3));
    let exact = room(6, 4);
    assert_eq!(desk.make_and_look(&Call::Enter(65_169, bar(0, [0, 1]))), 0);
    assert_eq!(desk.make_and_look(&Call::Enter(65_536, bar(1, [1, 2]))), 1);
    assert_eq!(desk.make_and_look(&Call::Enter(65_535, bar(1, [1, 2]))), 0);
    assert_eq!(
        desk.make_and_look(&Call::Enter(u32::MAX, bar(2, [2, 3]))),
        1
    );
    for day in [0, 65_168, 65_169, 65_534, 65_535, 65_536, u32::MAX] {
        assert_eq!(desk.make_and_look(&Call::On(day, exact)), 0);
    }
    for day in [65_170, 65_535, 65_536, u32::MAX - 366, u32::MAX] {
        assert_eq!(desk.make_and_look(&Call::Fold(day)), 22);
    }
    assert_eq!(desk.make_and_look(&Call::Fold(65_169)), 0);
    assert_eq!(desk.make_and_look(&Call::On(65_168, exact)), 21);
    assert_eq!(desk.make_and_look(&Call::On(65_169, exact)), 0);
}

fn bar(cell: u32, marks: [u32; 2]) -> Edit {
    let marks = marks.to_vec();
    Edit::Insert {
        cell,
        code: 1,
        licence: 7 * cell,
        marks,
    }
}

/// "as many as fit": with one word less than an edit needs, one edit less; 16 to 31
/// words hold none.
#[test]
fn as_many_as_fit() {
    for words in 16..=16 + 16 * 4 {
        let mut desk = Desk::begun((6, 4, 1), words);
        let places = words / 16 - 1;
        for cell in 0..4 {
            let edit = bar(cell, [cell, cell + 1]);
            let number = desk.make_and_look(&Call::Enter(cell, edit));
            assert_eq!(number, if (cell as usize) < places { 0 } else { 23 });
        }
    }
}

/// Every combination of faults of a new journal: the first in the listed order
/// is given, and nothing changes.
#[test]
fn a_new_journal_refuses_in_order() {
    const OF: (u32, u32, u32) = (6, 4, 2);
    let exact = room(6, 4);
    let mut seen = BTreeSet::new();
    for journal in [0, 1, 15, 16, 17, 31, 32, 48] {
        for start in [0, 15, exact - 1, exact, exact + 1] {
            for mesh in [0, 15, exact - 1, exact] {
                let mut desk = Desk::formatted(OF, journal, start);
                if mesh < exact {
                    desk.mesh.0.truncate(mesh + 2 * PAD);
                    desk.their_mesh.words = mesh;
                }
                let number = desk.make_and_look(&Call::Begin);
                seen.insert(number);
                let expected = match () {
                    () if mesh < exact => 14,
                    () if journal < 16 || start < exact => 2,
                    () => 0,
                };
                assert_eq!(number, expected);
            }
        }
    }
    assert!(seen.into_iter().eq([0, 2, 14]));
}

/// A desk with the mesh's own refusals at hand, and a journal of so many places
/// with one edit of day 100 in it.
fn busy(of: (u32, u32, u32), places: usize) -> Desk {
    let mut desk = Desk::formatted(of, journal_words(places), room(of.0, of.1));
    let mut list = Vec::new();
    // mark 0 stands in 128 cells, and a face has two solids
    list.extend((0..128).map(|k| (k, 1, vec![0, 1 + k])));
    list.push((128, 4, vec![130, 131, 132, 133]));
    list.push((129, 4, vec![130, 132, 131, 134]));
    let mut mesh = Mesh::over(desk.mesh.words_mut());
    for (cell, code, drawn) in list {
        mesh.insert(Cell(cell), code, &marks(&drawn)).expect("room");
        desk.their_mesh.insert(cell, code, &drawn).expect("room");
    }
    assert_eq!(desk.make(&Call::Begin), 0);
    if places > 0 {
        assert_eq!(desk.make(&Call::Enter(100, bar(130, [135, 136]))), 0);
    }
    desk
}

/// Memory that is no journal of this mesh, and one that is, in each way: fresh
/// words, one of other marks, cells or another edition, one with room, a full
/// one.
fn journals(of: (u32, u32, u32)) -> Vec<(Lent, TheirJournal)> {
    let taken = |desk: Desk| (desk.journal, desk.their_journal);
    let others = [
        (of.0 + 1, of.1, of.2),
        (of.0, of.1 + 1, of.2),
        (of.0, of.1, 3 - of.2),
    ];
    let mut list: Vec<_> = others.map(|of| taken(Desk::begun(of, 64))).to_vec();
    list.push((Lent::of(64), TheirJournal::lent(64)));
    list.push((Lent::of(3), TheirJournal::lent(3)));
    list.extend([0, 1, 2].map(|places| taken(busy(of, places))));
    list
}

/// Every combination of the faults of an entry.
#[test]
fn an_entry_refuses_in_order() {
    const OF: (u32, u32, u32) = (140, 140, 2);
    let insert = |cell: u32, code: u32, marks: &[u32]| Edit::Insert {
        cell,
        code,
        licence: u32::MAX,
        marks: marks.to_vec(),
    };
    let edits = [
        (0, insert(131, 1, &[137, 138])),
        (3, insert(140, 9, &[140])),
        (4, insert(0, 9, &[140])),
        (6, insert(131, 9, &[140])),
        (7, insert(131, 1, &[140])),
        (8, insert(131, 1, &[140, 140])),
        (9, insert(131, 1, &[1, 1])),
        (10, insert(131, 1, &[1, 0])),
        (19, insert(131, 4, &[130, 132, 131, 135])),
        (11, insert(131, 1, &[0, 137])),
        (0, Edit::Remove { cell: 0 }),
        (3, Edit::Remove { cell: 140 }),
        (5, Edit::Remove { cell: 139 }),
    ];
    let mut seen = BTreeSet::new();
    for (k, (journal, their_journal)) in journals(OF).into_iter().enumerate() {
        for no_mesh in [false, true] {
            let mut desk = busy(OF, 2);
            desk.journal.clone_from(&journal);
            desk.their_journal.clone_from(&their_journal);
            if no_mesh {
                desk.mesh.words_mut()[0] ^= 1;
                desk.their_mesh.mesh = None;
            }
            for day in [0, 99, 100, 65_535, 65_536, u32::MAX] {
                for (own, edit) in &edits {
                    let mut desk = desk.clone();
                    let number = desk.make_and_look(&Call::Enter(day, edit.clone()));
                    seen.insert(number);
                    // the last three are journals of this mesh: of no place, one, two
                    let expected = match () {
                        () if no_mesh || k < 5 => 14,
                        () if day > 65_535 => 1,
                        () if day < 100 && k > 5 => 20,
                        () if *own != 0 => *own,
                        () if k < 7 => 23,
                        () => 0,
                    };
                    assert_eq!(number, expected);
                }
            }
        }
    }
    let all = [0, 1, 3, 4, 5, 6, 7, 8, 9, 10, 11, 14, 19, 20, 23];
    assert!(seen.into_iter().eq(all));
}

/// Every combination of the faults of a query and of a fold.
#[test]
fn queries_and_folds_refuse_in_order() {
    const OF: (u32, u32, u32) = (6, 4, 1);
    let exact = room(6, 4);
    let filled = |fold: bool| {
        let mut desk = Desk::begun(OF, journal_words(3));
        assert_eq!(desk.make(&Call::Enter(100, bar(0, [0, 1]))), 0);
        assert_eq!(desk.make(&Call::Enter(500, bar(1, [1, 2]))), 0);
        assert!(!fold || desk.make(&Call::Fold(110)) == 0);
        desk
    };
    let mut kinds = vec![
        Desk::begun(OF, journal_words(3)),
        filled(false),
        filled(true),
    ];
    for (journal, their_journal) in journals(OF_OTHER).into_iter().take(5) {
        let mut desk = filled(true);
        (desk.journal, desk.their_journal) = (journal, their_journal);
        kinds.push(desk);
    }
    let mut seen = BTreeSet::new();
    for (k, desk) in kinds.iter().enumerate() {
        for no_start in [false, true] {
            let mut desk = desk.clone();
            if no_start {
                desk.start.words_mut()[0] ^= 1;
                desk.their_start.mesh = None;
            }
            for day in [0, 109, 110, 133, 134, 135, 500, 65_536, u32::MAX] {
                for words in [0, 15, exact - 1, exact, exact + 5] {
                    let number = desk.make_and_look(&Call::On(day, words));
                    seen.insert(number);
                    let expected = match () {
                        () if no_start || k > 2 => 14,
                        () if k == 2 && day < 110 => 21,
                        () if words < exact => 2,
                        () => 0,
                    };
                    assert_eq!(number, expected);
                }
                let number = desk.clone().make_and_look(&Call::Fold(day));
                seen.insert(number);
                let expected = match () {
                    () if no_start || k > 2 => 14,
                    () if k == 0 || k == 2 && day < 110 || day > 134 => 22,
                    () => 0,
                };
                assert_eq!(number, expected);
            }
        }
    }
    assert!(seen.into_iter().eq([0, 2, 14, 21, 22]));
}

const OF_OTHER: (u32, u32, u32) = (140, 140, 1);

/// What the words of a map tell is what the second program has.
#[test]
fn a_day_tells_the_second_program_s_cells() {
    let mut chance = Chance::from_seed(3);
    let mut desk = Desk::begun((27, 24, 2), journal_words(400));
    for day in 0..200 {
        let edit = draw_edit(&mut chance, (27, 24), &desk.their_mesh);
        desk.make(&Call::Enter(day, edit));
    }
    for day in 0..200 {
        let mut second = Mesh::over(vec![0; room(27, 24)]);
        Journal::over(desk.journal.words(), desk.start.words())
            .on(day, &mut second)
            .expect("no fold");
        let mut theirs = Memory::lent(room(27, 24));
        desk.their_journal
            .on(&desk.their_start, day, &mut theirs)
            .expect("no fold");
        let live = |memory: &Memory| {
            let mut live = memory.mesh.as_ref().expect("a mesh").live.clone();
            live.sort_by_key(|cell| cell.number.0);
            live
        };
        assert_eq!(live(&told(second.words())), live(&theirs));
    }
}

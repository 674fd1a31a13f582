//! A year of 300 edits a day, with complaints each day and now and then a fold, by the program's own commands, held to
//! the second program. The gate has forty mornings over a year; `cargo test --release -p desk --test year -- --ignored`
//! has every day of it.

mod common;
#[path = "common/theirs.rs"]
mod theirs;

use common::{done, fed, ran, Folder};
use second::journal::Journal;
use second::Memory;
use streams::chance::Chance;
use theirs::{list, Theirs};

#[test]
fn forty_mornings_over_a_year() {
    year(40, 12, 300, 3);
}

#[test]
#[ignore = "a minute or two"]
fn every_day_of_a_year_and_a_month() {
    year(400, 1, 300, 3);
}

/// What the second program names of a map: a journal that begins with it has no edit.
fn named(evening: &Memory, mark: u32) -> Result<Vec<u32>, u8> {
    let mut start = Memory::lent(evening.words);
    let mut journal = Journal::lent(16);
    journal.begin(evening, &mut start).expect("a mesh");
    let mut second = Memory::lent(evening.words);
    journal
        .licences(&start, 0, mark, &mut second, usize::MAX)
        .map_err(|refusal| refusal.number())
}

/// So many mornings, so many days apart.
fn year(mornings: u32, apart: u32, a_day: usize, complaints: u32) {
    const OF: (u32, u32) = (64, 60);
    let folder = Folder::new();
    let file = folder.file("map");
    done(&["new", &file, "--marks", "64", "--cells", "60"]);
    let mut theirs = Theirs::new(OF.0, OF.1, 1);
    let mut chance = Chance::from_seed(26);
    // each morning's day, and the map that it left
    let mut evenings: Vec<(u32, Memory)> = Vec::new();
    let (mut folded, mut entered, mut stopped, mut asked, mut folds) = (None, 0, 0, 0, 0);
    let before = theirs.mesh.clone();
    for morning in 0..mornings {
        let day = 20_000 + morning * apart;
        let (lines, refused) = theirs.day(&mut chance, day, a_day);
        let made = fed(
            &["edit", &file, "--day", &day.to_string(), "--json"],
            &lines,
        );
        assert_eq!(made.status, Some(i32::from(refused.is_some())), "{made:?}");
        let refusal = refused.map_or(String::new(), |number| format!("\"refused\": {number},"));
        let count = format!("\"made\": {a_day},");
        assert!(
            made.out.contains(&count) && made.out.contains(&refusal),
            "{made:?}"
        );
        entered += a_day;
        stopped += u32::from(refused.is_some());
        evenings.push((day, theirs.mesh.clone()));

        for _ in 0..complaints {
            let mark = chance.below(OF.0 + 1);
            let on = match chance.below(8) {
                0 => day + chance.below(400),
                1 => 20_000 - 1,
                _ => 20_000 + chance.below(day - 20_000 + 1),
            };
            let said = ran(&[
                "complaint",
                &file,
                "--mark",
                &mark.to_string(),
                "--day",
                &on.to_string(),
                "--json",
            ]);
            let map = evenings.iter().rev().find(|(evening, _)| *evening <= on);
            let expected = match folded {
                Some(fold) if on < fold => Err(21),
                _ => named(map.map_or(&before, |(_, map)| map), mark),
            };
            match expected {
                Ok(licences) => {
                    assert_eq!(said.status, Some(0), "{said:?}");
                    let licences = format!("\"licences\": {},", list(licences));
                    assert!(said.out.contains(&licences), "{licences}: {said:?}");
                }
                Err(number) => {
                    assert_eq!(said.status, Some(1), "{said:?}");
                    assert!(
                        said.out.contains(&format!("\"refused\": {number},")),
                        "{said:?}"
                    );
                }
            }
            asked += 1;
        }
        if day >= 20_000 + 366 {
            let through = day - 366;
            let late = (through + 1).to_string();
            assert_eq!(ran(&["fold", &file, "--through", &late]).status, Some(1));
            done(&["fold", &file, "--through", &through.to_string()]);
            theirs
                .journal
                .fold(&mut theirs.start, through)
                .expect("allowed");
            folded = Some(through);
            folds += 1;
            let kept = theirs
                .journal
                .book
                .as_ref()
                .expect("a journal")
                .entries
                .len();
            assert!(done(&["count", &file, "--json"]).contains(&format!("\"edits\": {kept},")));
        }
    }
    assert!(done(&["check", &file]).contains("word for word"));
    println!("{entered} edits, {stopped} lists stopped, {asked} complaints, {folds} folds");
    assert!(folds > 0 && stopped > 5);
}

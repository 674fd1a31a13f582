//! Every question of the program held to the second program: maps by chance, of both editions, on any day, asked
//! through the prompt.

mod common;
#[path = "common/theirs.rs"]
mod theirs;

use common::{done, done_with, fed, Folder};
use second::Memory;
use std::fmt::Write;
use streams::chance::Chance;
use theirs::{cells, Theirs, TYPES};

const PLENTY: usize = usize::MAX;
const WAYS: [&str; 4] = ["lone", "same", "opposite", "neither"];

/// What is to stand in the answer: fields, or the number of a refusal.
type Expected = Result<String, u8>;

fn halves(list: Vec<(u32, second::Way)>) -> String {
    let halves = list.into_iter().map(|(half, way)| {
        let (cell, facet, way) = (half / 8, half % 8, WAYS[way.number() as usize]);
        format!("{{\"cell\": {cell}, \"facet\": {facet}, \"next_runs\": \"{way}\"}}")
    });
    format!("[{}]", halves.collect::<Vec<_>>().join(", "))
}

/// A question as words, and what the second program answers on that map.
fn question(chance: &mut Chance, of: (u32, u32), map: &Memory) -> (String, Expected) {
    let (mark, cell) = (chance.below(of.0 + 2), chance.below(of.1 + 2));
    let facet = chance.below(7);
    let dimension = chance.below(5);
    let number = |refusal: second::Refusal| refusal.number();
    match chance.below(8) {
        0 => {
            let star = |dimension| map.star(dimension, mark, PLENTY);
            let all = [1, 2, 3]
                .map(star)
                .into_iter()
                .collect::<Result<Vec<_>, _>>();
            let said = all.map(|all| format!("\"cells\": {}", cells(map, all.concat())));
            (format!("around --mark {mark}"), said.map_err(number))
        }
        1 => {
            let star = map.star(dimension, mark, PLENTY);
            let said = star.map(|star| format!("\"cells\": {}", cells(map, star)));
            let words = format!("around --mark {mark} --dimension {dimension}");
            (words, said.map_err(number))
        }
        2 => {
            let list = map.neighbours(cell, PLENTY);
            let said = list.map(|list| format!("\"neighbours\": {}", cells(map, list)));
            (format!("neighbours --cell {cell}"), said.map_err(number))
        }
        3 => {
            let cycle = map.cycle(cell, facet, PLENTY, PLENTY);
            let said = cycle.map(|cycle| format!("\"cycle\": {}", halves(cycle)));
            let words = format!("sibling --cell {cell} --facet {facet}");
            (words, said.map_err(number))
        }
        4 => {
            let anchors = map.anchors(dimension, mark, PLENTY);
            let said = anchors.map(|list| {
                let one = |half: u32| {
                    format!(
                        "{{\"dimension\": {dimension}, \"cell\": {}, \"facet\": {}}}",
                        half / 8,
                        half % 8
                    )
                };
                let list: Vec<String> = list.into_iter().map(one).collect();
                format!("\"anchors\": [{}]", list.join(", "))
            });
            let words = format!("anchors --mark {mark} --dimension {dimension}");
            (words, said.map_err(number))
        }
        5 => {
            let said = map.type_of(cell).map(|_| {
                let seen = theirs::cell(map, cell);
                let mut facets = Vec::new();
                for facet in 0.. {
                    let Ok((half, way)) = map.sibling(cell, facet) else { break };
                    let (next, its, way) = (half / 8, half % 8, WAYS[way.number() as usize]);
                    facets.push(format!(
                        "{{\"facet\": {facet}, \"next_cell\": {next}, \"next_facet\": {its}, \"next_runs\": \"{way}\"}}"
                    ));
                }
                let seen = &seen[1..seen.len() - 1];
                format!("{seen}, \"positions\": .. \"facets\": [{}]", facets.join(", "))
            });
            (format!("show {cell}"), said.map_err(number))
        }
        6 => {
            let count = |code| map.count_of_type(code).expect("a type");
            let types: Vec<String> = (1..8_u32)
                .map(|code| format!("\"{}\": {}", TYPES[code as usize], count(code)))
                .collect();
            let live: usize = (1..8).map(count).sum();
            let free = map.free().expect("a mesh");
            let free = free.map_or("null".to_string(), |cell| cell.to_string());
            let said = format!(
                "\"live\": {live}, \"types\": {{{}}}, \"free\": {free},",
                types.join(", ")
            );
            ("count".to_string(), Ok(said))
        }
        _ => {
            let positions = vec![0; 3 * of.0 as usize];
            let said = map.write_off(&positions, PLENTY).map(|text| {
                let text = String::from_utf8(text)
                    .expect("text")
                    .replace('\n', "\\u000a");
                format!("\"off\": \"{text}\"")
            });
            ("export --off -".to_string(), said)
        }
    }
}

#[test]
fn questions_by_chance() {
    let (mut asked, mut refused) = (0, 0);
    for seed in 0..6 {
        let mut chance = Chance::from_seed(seed);
        let of = [(27, 20), (8, 12), (64, 50)][seed as usize % 3];
        let edition = 1 + seed as u32 % 2;
        let folder = Folder::new();
        let file = folder.file("map");
        let sizes = [of.0, of.1, edition].map(|number| number.to_string());
        done(&[
            "new",
            &file,
            "--marks",
            &sizes[0],
            "--cells",
            &sizes[1],
            "--edition",
            &sizes[2],
        ]);
        let mut theirs = Theirs::new(of.0, of.1, edition);
        let mut evenings = vec![theirs.mesh.clone()];
        for day in 1..30_u32 {
            let (lines, stopped) = theirs.day(&mut chance, day, 1 + day as usize % 9);
            let edited = fed(&["edit", &file, "--day", &day.to_string()], &lines);
            assert_eq!(edited.status, Some(i32::from(stopped.is_some())));
            evenings.push(theirs.mesh.clone());
        }
        let mut script = String::new();
        let mut expected = Vec::new();
        for _ in 0..400 {
            let (map, day) = match chance.below(3) {
                0 => (evenings.last().expect("today"), String::new()),
                _ => {
                    let day = chance.below(40);
                    let at = (day as usize).min(evenings.len() - 1);
                    (&evenings[at], format!(" --day {day}"))
                }
            };
            let (words, said) = question(&mut chance, of, map);
            writeln!(script, "{words}{day}").expect("text");
            expected.push((words, said));
        }
        let out = done_with(&["desk", &file, "--json"], &script);
        let lines: Vec<&str> = out.lines().collect();
        assert_eq!(lines.len(), expected.len());
        for (line, (words, said)) in lines.into_iter().zip(expected) {
            match said {
                Ok(said) => {
                    assert!(line.starts_with("{\"status\": 0,"), "{words}: {line}");
                    for part in said.split(".. ") {
                        assert!(line.contains(part), "{words}: {line}\nwithout {part}");
                    }
                }
                Err(number) => {
                    let said = format!("\"refused\": {number},");
                    assert!(
                        line.starts_with("{\"status\": 1,") && line.contains(&said),
                        "{words}: {line}"
                    );
                    refused += 1;
                }
            }
            asked += 1;
        }
    }
    println!("{asked} questions, {refused} of them refused");
    assert!(refused > 200);
}

/// New maps of OFF texts, with the text's counts, others, and edition 2: the map is the one that the second program has
/// after as many inserts, or the refusal is its refusal.
#[test]
fn surfaces_by_chance() {
    let folder = Folder::new();
    let text = folder.file("surface.off");
    let mut chance = Chance::from_seed(7);
    let (mut made, mut refused) = (0, 0);
    for round in 0..60 {
        let marks = 3 + chance.below(8);
        let positions: Vec<i16> = (0..3 * marks).map(|_| chance.bits() as i16).collect();
        let mut faces = Vec::new();
        for _ in 0..chance.below(8) {
            let mut all: Vec<u32> = (0..marks).collect();
            chance.shuffle(&mut all);
            all.truncate(3 + usize::from(marks > 3 && chance.one_in(2)));
            if chance.one_in(12) {
                all[1] = all[0];
            }
            faces.push(all);
        }
        let surface = second::off::text(marks, &positions, &faces);
        std::fs::write(&text, &surface).expect("a file");
        let (marks_said, cells_said, edition) = match chance.below(4) {
            0 => (None, None, 1),
            1 => (Some(marks + chance.below(3)), None, 1 + chance.below(2)),
            2 => (
                None,
                Some((faces.len() as u32 + chance.below(4)).saturating_sub(1)),
                1,
            ),
            _ => (Some(marks), Some(faces.len() as u32), 1 + chance.below(3)),
        };
        // the text by itself, then its faces one by one
        let own = (marks, faces.len() as u32);
        let mut map = Memory::lent(second::room(own.0, own.1));
        let mut read = map
            .read_off(&mut positions.clone(), &surface)
            .map_err(|refused| refused.number);
        let of = (marks_said.unwrap_or(own.0), cells_said.unwrap_or(own.1));
        if read.is_ok() && (of, edition) != (own, 1) {
            map = Memory::lent(second::room(of.0, of.1));
            read = map
                .format_edition(of.0, of.1, edition)
                .map_err(|refusal| refusal.number());
            for (cell, face) in faces.iter().enumerate() {
                let code = face.len() as u32 - 1;
                read = read.and_then(|()| {
                    let inserted = map.insert(cell as u32, code, face);
                    inserted.map_err(|refusal| refusal.number())
                });
            }
        }
        let file = folder.file(&format!("map{round}"));
        let mut words = vec![
            "new".to_string(),
            file.clone(),
            "--from".to_string(),
            text.clone(),
        ];
        for (name, value) in [
            ("--marks", marks_said),
            ("--cells", cells_said),
            ("--edition", Some(edition)),
        ] {
            words.extend(value.map(|value| format!("{name}={value}")));
        }
        let words: Vec<&str> = words.iter().map(String::as_str).collect();
        let ran = fed(&[&words[..], &["--json"]].concat(), "");
        match read {
            Ok(()) => {
                assert_eq!(ran.status, Some(0), "{ran:?}");
                let mut there = positions.clone();
                there.resize(3 * of.0 as usize, 0);
                let off = done(&["export", &file, "--off", "-"]);
                let expected = map.write_off(&there, PLENTY).expect("a surface");
                assert_eq!(off.into_bytes(), expected);
                let count = done(&["count", &file, "--json"]);
                assert!(count.contains(&format!(
                    "\"marks\": {}, \"cells\": {}, \"edition\": {edition},",
                    of.0, of.1
                )));
                made += 1;
            }
            Err(number) => {
                assert_eq!(ran.status, Some(1), "{ran:?}");
                assert!(
                    ran.out.contains(&format!("\"refused\": {number},")),
                    "{number}: {ran:?}"
                );
                assert!(!std::path::Path::new(&file).exists());
                refused += 1;
            }
        }
    }
    println!("{made} surfaces, {refused} refused");
    assert!(made > 10 && refused > 10);
}

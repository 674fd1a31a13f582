//! The commands by their words: what they say, how they end, their pages and examples.

mod common;

use common::{bytes, done, done_with, fed, ran, root, small, Folder, PROGRAM};
use desk::help::{self, COMMANDS};
use std::fs;
use std::path::Path;
use std::process::Command;

/// The map that the repository keeps is the one that its edits make, byte for byte.
#[test]
fn the_viaduct_is_what_its_edits_make() {
    let folder = Folder::new();
    let file = folder.file("viaduct.map");
    let kept = |name: &str| {
        let path = root().join("examples").join(name);
        path.to_str().expect("a plain name").to_string()
    };
    done(&[
        "new",
        &file,
        "--from",
        &kept("viaduct/marks.off"),
        "--cells",
        "8",
    ]);
    for (day, edits) in [
        ("2026-01-05", "viaduct/winter.txt"),
        ("2026-03-02", "viaduct/spring.txt"),
        ("2026-06-10", "viaduct/summer.txt"),
        ("2026-09-21", "viaduct/autumn.txt"),
    ] {
        done(&["edit", &file, "--day", day, &kept(edits)]);
    }
    assert_eq!(bytes(&file), bytes(&kept("viaduct.map")));
}

/// The twelve faults the desk has paid for, on the map of the picture: a third sharer, sheets that touch, a removal.
#[test]
fn a_complaint_for_any_day_of_the_viaduct() {
    let map = root().join("examples/viaduct.map");
    let map = map.to_str().expect("a plain name");
    for (day, licences) in [
        ("2026-01-04", "[]"),
        ("2026-01-05", "[3301, 3302, 3303]"),
        ("2026-03-01", "[3301, 3302, 3303]"),
        ("2026-04-17", "[3301, 3302, 3303, 3410, 3420]"),
        ("2026-06-09", "[3301, 3302, 3303, 3410, 3420]"),
        ("2026-06-10", "[3301, 3302, 3303, 3410]"),
        ("2026-11-16", "[3301, 3302, 3303, 3410, 3500]"),
    ] {
        let said = done(&["complaint", map, "--mark", "2", "--day", day, "--json"]);
        assert!(
            said.contains(&format!("\"date\": \"{day}\", \"licences\": {licences},")),
            "{said}"
        );
    }
}

/// Each command has its page, and what the page gives for an example runs.
#[test]
fn every_example_runs() {
    let folder = Folder::new();
    fs::create_dir(folder.file("target")).expect("a folder");
    std::os::unix::fs::symlink(root().join("examples"), folder.file("examples")).expect("a link");
    let beside = Path::new(PROGRAM)
        .parent()
        .expect("a folder")
        .to_str()
        .expect("a plain name");
    let before = bytes(&folder.file("examples/viaduct.map"));
    let page = done(&["help"]);
    let mut new_first: Vec<_> = COMMANDS.iter().collect();
    new_first.sort_by_key(|command| command.name != "new");
    for command in new_first {
        assert!(page.contains(&format!("\n  {}", command.name)));
        let told = done(&["help", command.name]);
        assert_eq!(told, done(&[command.name, "--help"]));
        assert!(told.starts_with(command.usage) && command.usage.contains(command.name));
        for name in command.values.iter().chain(command.flags) {
            assert!(
                command.usage.contains(&format!("--{name}")),
                "{name} of {}",
                command.name
            );
        }
        assert!(!command.example.is_empty(), "{}", command.name);
        for line in command.example {
            assert!(told.contains(line));
            let ended = Command::new("sh")
                .args(["-c", line])
                .current_dir(&folder.0)
                .env("PATH", format!("{beside}:/usr/bin:/bin"))
                .output()
                .expect("a shell");
            let said = String::from_utf8_lossy(&ended.stderr);
            assert!(
                ended.status.success() && (!ended.stdout.is_empty() || line.contains('>')),
                "{line}: {said}"
            );
        }
    }
    assert_eq!(bytes(&folder.file("examples/viaduct.map")), before);
    assert!(help::command("nothing").is_none());
}

#[test]
fn edits_stop_at_the_first_refusal() {
    let folder = Folder::new();
    let file = folder.file("map");
    small(&file);
    let old = bytes(&file);
    let text = "# a morning\n\nremove 0\ninsert 3 bar 4 5 licence 1\ninsert 3 bar 4 5\nremove 1\nremove 2\n";
    let words = ["edit", &file, "--day", "140"];
    let dry = fed(&[&words[..], &["--dry-run"]].concat(), text);
    assert_eq!(dry.status, Some(1));
    assert_eq!(dry.out, "2 edits would be made on day 140.\n");
    assert_eq!(bytes(&file), old);
    let ran = fed(&words, text);
    assert_eq!(ran.status, Some(1));
    assert_eq!(ran.out, "2 edits made on day 140.\n");
    assert_eq!(
        ran.err,
        "mengkiloh: line 5: refused with 4: the cell number is live already; 2 edits behind it not tried\n"
    );
    assert_eq!(ran.err, dry.err);
    let count = done(&["count", &file, "--json"]);
    assert!(
        count.contains("\"live\": 3,") && count.contains("\"edits\": 5,"),
        "{count}"
    );
    // of lines that are no edits none is made
    let old = bytes(&file);
    let wrong = fed(&words, "remove 1\nremove all\n");
    assert_eq!(wrong.status, Some(2));
    assert!(
        wrong.out.is_empty() && wrong.err.contains("line 2 is no edit"),
        "{wrong:?}"
    );
    assert_eq!(bytes(&file), old);
    // a day before the last
    let before = fed(&["edit", &file, "--day", "139"], "remove 1\n");
    assert_eq!(before.status, Some(1));
    assert!(before
        .err
        .contains("line 1: refused with 20: the day is before that of the last edit, day 140"));
    let late = fed(&["edit", &file, "--day", "65536"], "remove 1\n");
    assert!(late.status == Some(1) && late.err.contains("refused with 1: a day is 65535 at most"));
    assert_eq!(bytes(&file), old);
}

#[test]
fn a_prompt_has_the_same_words() {
    let folder = Folder::new();
    let file = folder.file("map");
    small(&file);
    let asked = [
        "complaint --mark 1 --day 129 --cells",
        "around --mark 1",
        "neighbours --cell 0",
        "sibling --cell 0 --facet 1",
        "anchors --mark 1",
        "show 2",
        "count",
        "check",
        "export --off - --day 100",
        "help complaint",
    ];
    let mut expected = String::new();
    for line in asked {
        let mut words: Vec<&str> = line.split(' ').collect();
        if words[0] != "help" {
            words.insert(1, &file);
        }
        expected += &done(&words);
    }
    let script = asked.join("\n") + "\n\nquit\ncount\n";
    assert_eq!(done_with(&["desk", &file], &script), expected);

    assert_eq!(
        done_with(&["desk", &file], "count --json\n"),
        done(&["count", &file, "--json"])
    );

    // edits of a prompt are in the file before they are answered; what is refused leaves it going
    let script = "edit --day 140\nremove 0\nremove 0\nend\nedit --dry-run --day 141\nremove 1\nend\n\
                  edit --day never\nremove 1\nend\nbananas\nshow 1\nnew x --marks 1 --cells 1\nedit --day 150\nremove 2";
    let ran = fed(&["desk", &file], script);
    assert_eq!(ran.status, Some(0), "{ran:?}");
    let (show, words) = (
        "Cell 1, triangle on marks 2 1 3, licence 9 today.",
        "line 2: refused with 5",
    );
    assert!(
        ran.out
            .starts_with("1 edit made on day 140.\n1 edit would be made on day 141.\n"),
        "{ran:?}"
    );
    assert!(
        ran.out.contains(show) && ran.out.ends_with("1 edit made on day 150.\n"),
        "{ran:?}"
    );
    assert!(
        ran.err.contains(words) && ran.err.contains("no command `bananas`"),
        "{ran:?}"
    );
    assert_eq!(folder.names(), ["map"]);
    assert!(done(&["count", &file]).contains("1 cell: 1 triangle"));
}

#[test]
fn wrong_use_is_2() {
    let folder = Folder::new();
    let file = folder.file("map");
    small(&file);
    let old = bytes(&file);
    let f = &file[..];
    let wrong: [&[&str]; 22] = [
        &[],
        &["bananas"],
        &["help", "bananas"],
        &["complaint"],
        &["complaint", f],
        &["complaint", f, "--mark", "1"],
        &["complaint", f, "--day", "1"],
        &["complaint", f, "--mark", "one", "--day", "1"],
        &["complaint", f, "--mark", "1", "--day", "soon"],
        &["complaint", f, "--mark", "1", "--day", "2026-02-30"],
        &["complaint", f, "--mark", "1", "--mark", "2", "--day", "1"],
        &["complaint", f, "--mark", "1", "--day", "1", "--cells=yes"],
        &["complaint", f, "--mark", "4294967296", "--day", "1"],
        &["complaint", f, f, "--mark", "1", "--day", "1"],
        &["complaint", f, "--mark", "1", "--day"],
        &["edit", f],
        &["show", f],
        &["show", f, "first"],
        &["new", "nowhere"],
        &["new", "nowhere", "--marks", "1"],
        &["export", f],
        &["export", f, "--day", "100", "--off", f],
    ];
    for words in wrong {
        let ran = ran(words);
        assert_eq!(ran.status, Some(2), "{words:?}: {ran:?}");
        assert!(
            ran.out.is_empty() && !ran.err.is_empty(),
            "{words:?}: {ran:?}"
        );
    }
    assert_eq!(bytes(&file), old);
    // for programs on standard output
    let json = ran(&["complaint", f, "--json"]);
    assert_eq!(json.status, Some(2));
    assert!(
        json.out
            .starts_with("{\"status\": 2, \"refused\": null, \"said\": \"")
            && json.err.is_empty()
    );
}

#[test]
fn input_and_output_are_3() {
    let folder = Folder::new();
    let file = folder.file("map");
    small(&file);
    let none = folder.file("none");
    for words in [
        &["count", &none][..],
        &["count", folder.0.to_str().expect("a plain name")],
        &["count", "/dev/zero"],
        &["edit", &file, "--day", "200", &none],
        &["new", &folder.file("new"), "--from", &none],
        &[
            "new",
            &folder.file("no/such/folder"),
            "--marks",
            "1",
            "--cells",
            "1",
        ],
        &[
            "export",
            &file,
            "--day",
            "100",
            "--off",
            &folder.file("no/such/folder"),
        ],
    ] {
        let ran = ran(words);
        assert_eq!(ran.status, Some(3), "{words:?}: {ran:?}");
        assert!(
            ran.out.is_empty() && !ran.err.is_empty(),
            "{words:?}: {ran:?}"
        );
    }
    assert_eq!(folder.names(), ["map"]);
}

#[test]
fn refusals_are_1_and_say_what_they_mean() {
    let folder = Folder::new();
    let file = folder.file("map");
    small(&file);
    let f = &file[..];
    let out = folder.file("out.off");
    let refused: [(&[&str], &str); 9] = [
        (
            &["complaint", f, "--mark", "6", "--day", "1"],
            "refused with 8: no such mark: this map's marks are 0 to 5",
        ),
        (
            &["show", f, "4"],
            "refused with 3: no such cell: this map's cells are 0 to 3",
        ),
        (
            &["show", f, "3"],
            "refused with 5: no such cell is on the map that day",
        ),
        (&["show", f, "2", "--day", "129"], "refused with 5"),
        (
            &["sibling", f, "--cell", "0", "--facet", "3"],
            "refused with 13",
        ),
        (
            &["around", f, "--mark", "1", "--dimension", "4"],
            "refused with 6: a dimension is 1, 2 or 3",
        ),
        (
            &["fold", f, "--through", "1"],
            "refused with 22: a year of 366 days stays",
        ),
        (
            &["export", f, "--off", &out],
            "refused with 18: OFF text has triangles and quads alone, and the map has cell 2",
        ),
        (
            &["new", "none", "--marks", "65536", "--cells", "1"],
            "refused with 1: a map has room for 65535 marks",
        ),
    ];
    for (words, meaning) in refused {
        let ran = ran(words);
        assert_eq!(ran.status, Some(1), "{words:?}: {ran:?}");
        assert!(
            ran.out.is_empty() && ran.err.contains(meaning),
            "{words:?}: {ran:?}"
        );
    }
    assert!(ran(&["new", f, "--marks", "1", "--cells", "1"])
        .err
        .contains("is there already"));
    assert_eq!(folder.names(), ["map"]);
    done_with(&["edit", f, "--day", "600"], "remove 2\n");
    done(&["fold", f, "--through", "130"]);
    let early = ran(&["complaint", f, "--mark", "1", "--day", "129"]);
    assert!(
        early.status == Some(1)
            && early
                .err
                .contains("refused with 21: the day is before the last fold, day 130")
    );
    assert!(done(&["complaint", f, "--mark", "1", "--day", "130"]).contains("ask 2 licences"));
    // what is written is a file of its own, and no map is written over
    done(&["export", f, "--off", &out]);
    assert_eq!(bytes(&out), done(&["export", f, "--off", "-"]).into_bytes());
    done(&["export", f, "--off", &out]);
    assert_eq!(folder.names(), ["map", "out.off"]);
}

/// A cell without a licence is named, so that nobody is forgotten.
#[test]
fn cells_without_a_licence_are_named() {
    let folder = Folder::new();
    let file = folder.file("map");
    done(&["new", &file, "--marks", "4", "--cells", "4"]);
    assert_eq!(
        done(&["complaint", &file, "--mark", "1", "--day", "5"]),
        "Mark 1 on day 5: no cell was around it, so no licence to ask.\n"
    );
    done_with(&["edit", &file, "--day", "5"], "insert 0 bar 0 1\n");
    assert_eq!(
        done(&["complaint", &file, "--mark", "1", "--day", "5"]),
        "Mark 1 on day 5: no licence to ask.\n  1 cell without a licence:\n    cell 0, bar on marks 0 1\n"
    );
    done_with(
        &["edit", &file, "--day", "6"],
        "insert 1 bar 1 2 licence 12\n",
    );
    assert_eq!(
        done(&["complaint", &file, "--mark", "1", "--day", "6"]),
        "Mark 1 on day 6: ask 1 licence.\n  licence 12\n  1 cell without a licence:\n    cell 0, bar on marks 0 1\n"
    );
}

/// The planner's plan passes its check and leaves the wanted cells; a plan with a line wrong is told at that line, one
/// that ends elsewhere at its end.
#[test]
fn a_night_is_planned_and_checked() {
    let folder = Folder::new();
    let (file, wanted, plan) = (
        folder.file("map"),
        folder.file("wanted"),
        folder.file("plan"),
    );
    small(&file);
    let old = bytes(&file);
    let cells = "insert 1 triangle 2 1 3 licence 9\ninsert 0 triangle 0 1 2 licence 8\ninsert 3 quad 0 1 4 5\n";
    fs::write(&wanted, cells).expect("a file");
    let asked = ["plan", &file[..], "--wanted", &wanted];
    let lines = done(&asked);
    assert_eq!(
        lines,
        "remove 0\nremove 2\ninsert 0 triangle 0 1 2 licence 8\ninsert 3 quad 0 1 4 5\n"
    );
    let check = [&asked[..], &["--check", &plan]].concat();
    let wrong = |lines: &str, said: &str| {
        fs::write(&plan, lines).expect("a file");
        let ran = ran(&check);
        assert_eq!(ran.status, Some(1), "{ran:?}");
        assert!(ran.err.contains(said), "{ran:?}");
    };
    wrong(
        "remove 0\nremove 0\n",
        "refused with 24: the plan is wrong at line 2, which would be refused with 5",
    );
    wrong(
        "remove 0\n",
        "refused with 24: each of the 1 edit is accepted, but the cells afterwards",
    );
    fs::write(&plan, &lines).expect("a file");
    assert!(done(&check).contains("The plan is right: 4 edits"));
    assert_eq!(bytes(&file), old);
    done(&["edit", &file, "--day", "200", &plan]);
    assert_eq!(done(&asked), "");
    fs::write(&wanted, "insert 0 hexagon 1 2 3\n").expect("a file");
    assert!(ran(&asked)
        .err
        .contains("refused with 6: a wanted cell is of no type"));
    fs::write(&wanted, "remove 0\n").expect("a file");
    assert_eq!(ran(&asked).status, Some(2));
}

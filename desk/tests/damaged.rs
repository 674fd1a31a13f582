//! Damaged files: each is refused with what is wrong, by every command, and never written to.

mod common;

use common::{bytes, done, ran, small, Folder};
use desk::file::Damage;
use desk::map::Map;
use desk::progress::Progress;
use desk::sum;
use std::fs;
use streams::chance::Chance;

fn opened(bytes: &[u8]) -> Result<Map, Damage> {
    Map::from_bytes(bytes, &Progress::quiet())
}

/// With the checksum of the bytes behind them.
fn summed(mut bytes: Vec<u8>) -> Vec<u8> {
    let end = bytes.len() - 8;
    let sum = sum::of(&bytes[..end]);
    bytes[end..].copy_from_slice(&sum.to_le_bytes());
    bytes
}

#[test]
fn a_file_cut_at_every_length() {
    let folder = Folder::new();
    let file = folder.file("map");
    small(&file);
    let whole = bytes(&file);
    assert!(opened(&whole).is_ok_and(|map| map.to_bytes() == whole));
    for length in 0..whole.len() {
        let damage = opened(&whole[..length]).expect_err("a cut file");
        match length {
            0 => assert_eq!(damage, Damage::NotOurs),
            _ => assert!(matches!(damage, Damage::Length(..)), "{length}: {damage}"),
        }
    }
    for more in [1, 4, 64, 4096] {
        let longer = [&whole[..], &vec![0; more]].concat();
        assert!(matches!(opened(&longer), Err(Damage::Length(..))));
    }
}

#[test]
fn every_single_bit_turned() {
    let folder = Folder::new();
    let file = folder.file("map");
    small(&file);
    let mut bytes = bytes(&file);
    for bit in 0..8 * bytes.len() {
        bytes[bit / 8] ^= 1 << (bit % 8);
        assert!(opened(&bytes).is_err(), "bit {bit}");
        bytes[bit / 8] ^= 1 << (bit % 8);
    }
    assert!(opened(&bytes).is_ok());
}

/// Several bytes changed, parts moved, cut out and put in: MENGKILOH_DAMAGED files (a number), by seed.
#[test]
fn damage_by_chance() {
    let folder = Folder::new();
    let file = folder.file("map");
    small(&file);
    let whole = bytes(&file);
    let count =
        std::env::var("MENGKILOH_DAMAGED").map_or(20_000, |count| count.parse().expect("a count"));
    let mut chance = Chance::from_seed(26);
    let near = |chance: &mut Chance| chance.below(whole.len() as u32) as usize;
    for _ in 0..count {
        let mut bytes = whole.clone();
        for _ in 0..=chance.below(3) {
            let at = near(&mut chance);
            match chance.below(5) {
                0 => bytes[at] = chance.bits() as u8,
                1 => bytes.truncate(at),
                2 => {
                    let end = (at + chance.below(64) as usize).min(bytes.len());
                    bytes.drain(at.min(end)..end);
                }
                3 => {
                    let at = at.min(bytes.len());
                    let more: Vec<u8> =
                        (0..chance.below(32)).map(|_| chance.bits() as u8).collect();
                    bytes.splice(at..at, more);
                }
                _ => {
                    let end = (at + 8).min(bytes.len());
                    bytes[at.min(end)..end].fill(0);
                }
            }
            if bytes.len() < whole.len() {
                bytes.resize(whole.len(), 0);
            }
        }
        match opened(&bytes) {
            Ok(map) => assert!(bytes == whole && map.to_bytes() == whole),
            Err(_) => assert!(bytes != whole),
        }
    }
}

/// With a right checksum the proved whole checks decide: any word of mesh, journal or starting map
/// that is another is told, or is one of another map that is whole.
#[test]
fn right_checksums_over_wrong_words() {
    let folder = Folder::new();
    let file = folder.file("map");
    small(&file);
    let whole = bytes(&file);
    let mut told = [0; 5];
    for at in 24..whole.len() - 8 {
        let mut bytes = whole.clone();
        bytes[at] ^= 1 << (at % 8);
        let (kind, opened) = match opened(&summed(bytes.clone())) {
            Ok(map) => (0, Some(map)),
            Err(Damage::Mesh) => (1, None),
            Err(Damage::Start) => (2, None),
            Err(Damage::Journal) => (3, None),
            Err(Damage::Length(..) | Damage::Positions) => (4, None),
            Err(other) => panic!("{at}: {other}"),
        };
        told[kind] += 1;
        if let Some(map) = opened {
            // a position, a licence, or an entry's number: another map, and a whole one
            assert!(map.mesh.whole() && map.journal.whole());
            assert_eq!(map.to_bytes(), summed(bytes));
        }
    }
    assert!(told.iter().all(|&count| count > 0), "{told:?}");
}

/// A later form of the file is told from a damaged one.
#[test]
fn a_later_form() {
    let folder = Folder::new();
    let file = folder.file("map");
    small(&file);
    let mut later = bytes(&file);
    later[16] = 2;
    assert!(matches!(opened(&later), Err(Damage::Sum(..))));
    assert!(matches!(opened(&summed(later)), Err(Damage::Newer(2))));
}

/// Lengths in the head that no memory could have are told before any is asked for.
#[test]
fn lengths_beyond_all_memory() {
    let folder = Folder::new();
    let file = folder.file("map");
    small(&file);
    let mut bytes = bytes(&file);
    for part in 0..4 {
        bytes[24 + 8 * part..][..8].fill(0xff);
        assert!(matches!(
            opened(&summed(bytes.clone())),
            Err(Damage::Length(..))
        ));
    }
}

/// Every command refuses a damaged file with 3 and what is wrong, and leaves it and its folder as they
/// are.
#[test]
fn no_command_writes_to_a_damaged_file() {
    let folder = Folder::new();
    let file = folder.file("map");
    small(&file);
    let whole = bytes(&file);
    let text = folder.file("edits");
    fs::write(&text, "remove 0\n").expect("a file");
    let cut = whole[..whole.len() - 9].to_vec();
    let mut turned = whole.clone();
    turned[whole.len() / 2] ^= 4;
    let empty = Vec::new();
    let other =
        b"a letter to the editor, and no map at all, though it is longer than a head".to_vec();
    let kinds: [(Vec<u8>, &str); 4] = [
        (cut, "it was cut"),
        (turned, "some of them changed"),
        (empty, "does not begin"),
        (other, "does not begin"),
    ];
    for (damaged, why) in kinds {
        fs::write(&file, &damaged).expect("the file");
        let out = folder.file("out.off");
        let commands: [&[&str]; 12] = [
            &["complaint", &file, "--mark", "1", "--day", "100"],
            &["edit", &file, "--day", "140", &text],
            &["edit", &file, "--day", "140", "--dry-run", &text],
            &["around", &file, "--mark", "1"],
            &["neighbours", &file, "--cell", "0"],
            &["sibling", &file, "--cell", "0", "--facet", "0"],
            &["anchors", &file, "--mark", "1"],
            &["show", &file, "0"],
            &["count", &file],
            &["check", &file],
            &["fold", &file, "--through", "1"],
            &["export", &file, "--off", &out],
        ];
        for words in commands.into_iter().chain([&["desk", &file[..]][..]]) {
            let ran = ran(words);
            assert_eq!(ran.status, Some(3), "{words:?}: {ran:?}");
            assert!(
                ran.out.is_empty() && ran.err.contains(why),
                "{words:?}: {ran:?}"
            );
            assert_eq!(bytes(&file), damaged);
            assert_eq!(folder.names(), ["edits", "map"]);
        }
        // nor is it taken for free
        assert_eq!(
            ran(&["new", &file, "--marks", "1", "--cells", "1"]).status,
            Some(1)
        );
        assert_eq!(bytes(&file), damaged);
    }
    fs::write(&file, &whole).expect("the file");
    done(&["check", &file]);
}

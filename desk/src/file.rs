//! A map as the bytes of a file: a head, four parts and a checksum, all numbers with their
//! lowest byte first.
//!
//! | bytes | |
//! |---|---|
//! | 16 | the words `mengkiloh map`, and 0d 0a 1a, which a program that mends line ends would change |
//! | 4, 4 | the version of this form, 1; 0 |
//! | 8, 8, 8, 8 | the length of each part in bytes: mesh, positions, journal, starting map |
//! | .. | the four parts: words of 4 bytes, metres of 2 |
//! | 8 | the checksum of all bytes before |

use std::fmt;
use std::thread;

use mengkiloh::{journal_words, Journal, Mesh};

use crate::map::Map;
use crate::progress::Progress;
use crate::sum;

pub const MAGIC: &[u8; 16] = b"mengkiloh map\r\n\x1a";
const VERSION: u32 = 1;
const HEAD: usize = 16 + 8 + PARTS * 8;
const PARTS: usize = 4;
const SUM: usize = 8;

/// What is wrong with the bytes of a file.
#[derive(Debug, PartialEq, Eq)]
pub enum Damage {
    NotOurs,
    Newer(u32),
    /// The bytes that it has, and that its head says.
    Length(usize, u128),
    /// The checksum that it has, and that of its bytes.
    Sum(u64, u64),
    Mesh,
    Positions,
    Start,
    Journal,
}

impl fmt::Display for Damage {
    fn fmt(&self, to: &mut fmt::Formatter<'_>) -> fmt::Result {
        match self {
            Damage::NotOurs => to.write_str("it does not begin as a map's file does"),
            Damage::Newer(version) => write!(
                to,
                "it is of form {version}, which a later mengkiloh made; this one reads form {VERSION}"
            ),
            Damage::Length(has, says) => {
                let way = if (*has as u128) < *says { "cut" } else { "longer" };
                write!(to, "it has {has} bytes and its head says {says}: it was {way}")
            }
            Damage::Sum(has, is) => write!(
                to,
                "its checksum says {has:016x} and its bytes give {is:016x}: some of them changed"
            ),
            Damage::Mesh => to.write_str("its checksum is right and its map is not whole"),
            Damage::Positions => to.write_str("its positions are not three for each mark"),
            Damage::Start => to.write_str("its starting map is not whole, or of another kind"),
            Damage::Journal => to.write_str("its journal is not whole, or of another map"),
        }
    }
}

impl Map {
    /// The bytes of the map's file. Places of the journal that hold no edit are left out.
    pub fn to_bytes(&self) -> Vec<u8> {
        let mesh = self.mesh.words();
        let start = self.journal.start();
        let journal = self.journal.words();
        let journal = &journal[..journal_words(self.entries()).min(journal.len())];
        let lengths = [
            4 * mesh.len(),
            2 * self.positions.len(),
            4 * journal.len(),
            4 * start.len(),
        ];
        let all = HEAD + lengths.iter().sum::<usize>() + SUM;
        let mut bytes = Vec::with_capacity(all);
        bytes.extend(MAGIC);
        bytes.extend(VERSION.to_le_bytes());
        bytes.extend([0; 4]);
        for length in lengths {
            bytes.extend((length as u64).to_le_bytes());
        }
        put_words(&mut bytes, mesh);
        bytes.extend(self.positions.iter().flat_map(|metre| metre.to_le_bytes()));
        put_words(&mut bytes, journal);
        put_words(&mut bytes, start);
        bytes.extend(sum::of(&bytes).to_le_bytes());
        debug_assert_eq!(bytes.len(), all);
        bytes
    }

    /// The map of a file's bytes: head, lengths and checksum are held to them, and mesh, starting
    /// map and journal to the proved whole checks.
    pub fn from_bytes(bytes: &[u8], progress: &Progress) -> Result<Map, Damage> {
        let parts = progress.during("reading the file", || parts(bytes))?;
        let [mesh, positions, journal, start] = parts;
        let mesh = words(mesh).ok_or(Damage::Mesh)?;
        let positions = metres(positions).ok_or(Damage::Positions)?;
        let journal = words(journal).ok_or(Damage::Journal)?;
        let start = words(start).ok_or(Damage::Start)?;
        let map = Map {
            mesh: Mesh::over(mesh),
            positions,
            journal: Journal::over(journal, start),
        };
        // the journal's whole check holds the starting map to the mesh's own
        let (mesh_whole, journal_whole) =
            progress.during("checking the map and its journal", || {
                thread::scope(|both| {
                    let mesh = both.spawn(|| map.mesh.whole());
                    let journal = map.journal.whole();
                    (mesh.join().unwrap_or(false), journal)
                })
            });
        if !mesh_whole {
            return Err(Damage::Mesh);
        }
        let (marks, cells) = map.mesh.capacities().map_err(|_| Damage::Mesh)?;
        let edition = map.mesh.edition();
        let (room, numbers) = Map::sizes(marks, cells);
        if map.mesh.words().len() != room {
            return Err(Damage::Mesh);
        }
        if map.positions.len() != numbers {
            return Err(Damage::Positions);
        }
        let start = Mesh::over(map.journal.start());
        let like = start.capacities() == Ok((marks, cells)) && start.edition() == edition;
        if !like || start.words().len() != room || (!journal_whole && !start.whole()) {
            return Err(Damage::Start);
        }
        if !journal_whole {
            return Err(Damage::Journal);
        }
        Ok(map)
    }
}

/// The four parts of a file, head, lengths and checksum being right.
fn parts(bytes: &[u8]) -> Result<[&[u8]; PARTS], Damage> {
    let known = bytes.len().min(MAGIC.len());
    if bytes[..known] != MAGIC[..known] || bytes.is_empty() {
        return Err(Damage::NotOurs);
    }
    if bytes.len() < HEAD + SUM {
        return Err(Damage::Length(bytes.len(), (HEAD + SUM) as u128));
    }
    let (inside, kept) = bytes.split_at(bytes.len() - SUM);
    let (head, mut rest) = inside.split_at(HEAD);
    let version = u32::from_le_bytes(piece(&head[16..]));
    let lengths: [u64; PARTS] =
        std::array::from_fn(|part| u64::from_le_bytes(piece(&head[24 + 8 * part..])));
    let all = lengths
        .iter()
        .map(|&length| u128::from(length))
        .sum::<u128>();
    let says = all + (HEAD + SUM) as u128;
    let (kept, is) = (u64::from_le_bytes(piece(kept)), sum::of(inside));
    // another version may have other lengths, but has a checksum behind its bytes
    if version != VERSION && kept == is {
        return Err(Damage::Newer(version));
    }
    if says != bytes.len() as u128 {
        return Err(Damage::Length(bytes.len(), says));
    }
    if kept != is {
        return Err(Damage::Sum(kept, is));
    }
    Ok(lengths.map(|length| {
        // each is no longer than the file, as their sum says
        let (part, behind) = rest.split_at(length as usize);
        rest = behind;
        part
    }))
}

/// The first bytes, as many as a number has.
fn piece<const N: usize>(bytes: &[u8]) -> [u8; N] {
    bytes[..N].try_into().expect("so many bytes")
}

fn put_words(bytes: &mut Vec<u8>, words: &[u32]) {
    bytes.extend(words.iter().flat_map(|word| word.to_le_bytes()));
}

/// The words of a part, if it is of whole words.
fn words(part: &[u8]) -> Option<Vec<u32>> {
    let words = part.chunks_exact(4);
    let whole = words.remainder().is_empty();
    whole.then(|| words.map(|word| u32::from_le_bytes(piece(word))).collect())
}

fn metres(part: &[u8]) -> Option<Vec<i16>> {
    let metres = part.chunks_exact(2);
    let whole = metres.remainder().is_empty();
    whole.then(|| {
        metres
            .map(|metre| i16::from_le_bytes(piece(metre)))
            .collect()
    })
}

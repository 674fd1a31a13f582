//! The frames of the outline's table as digits, and lines that are none.

use streams::chance::Chance;

pub enum Frame {
    Format {
        marks: u32,
        cells: u32,
    },
    Insert {
        day: u32,
        cell: u32,
        code: u8,
        marks: Vec<u32>,
    },
    Remove {
        day: u32,
        cell: u32,
    },
    Star {
        dimension: u8,
        mark: u32,
    },
    Anchors {
        dimension: u8,
        mark: u32,
    },
    Sibling {
        cell: u32,
        facet: u8,
    },
}

impl Frame {
    pub fn digits(&self) -> String {
        match self {
            Frame::Format { marks, cells } => format!("f0{marks:04x}{cells:04x}"),
            Frame::Insert {
                day,
                cell,
                code,
                marks,
            } => {
                let marks: String = marks.iter().map(|mark| format!("{mark:04x}")).collect();
                format!("a0{day:04x}{cell:04x}{code:02x}{marks}")
            }
            Frame::Remove { day, cell } => format!("d0{day:04x}{cell:04x}"),
            Frame::Star { dimension, mark } => format!("50{dimension:02x}{mark:04x}"),
            Frame::Anchors { dimension, mark } => format!("51{dimension:02x}{mark:04x}"),
            Frame::Sibling { cell, facet } => format!("5b{cell:04x}{facet:02x}"),
        }
    }
}

/// A good line spoilt in one of the ways that the outline lists, or in none
/// that shows.
pub fn malformed(chance: &mut Chance, mut line: Vec<u8>) -> Vec<u8> {
    let at = chance.below(line.len() as u32) as usize;
    match chance.below(12) {
        0 => line.clear(),
        1 => line.truncate(line.len() - 1),
        2 => line.truncate(line.len() - 2),
        3 => line[at] = line[at].to_ascii_uppercase(),
        4 => line[at] = chance.below(256) as u8,
        5 => line[0] = b"0123456789abcdef"[chance.below(16) as usize],
        6 => line.extend(b"00"),
        7 => line.truncate(at),
        8 => line.push(b'\r'),
        9 => line.insert(at, b' '),
        10 => line.extend([b'0'; 64]),
        _ => line.resize(64 + chance.below(4) as usize, b'0'),
    }
    // a spoilt byte must not end the line
    line.retain(|&byte| byte != b'\n');
    line
}

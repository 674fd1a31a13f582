//! The frame program: "Lower-case hexadecimal, one frame a line, each line
//! ended by 0a. Numbers are big-endian: two bytes for marks, cells, capacities
//! and counts; one byte for codes, dimensions and facets."

use crate::calls::FIRST_EDITION;
use crate::journal::{Edit, Journal, EDIT_WORDS, HEAD_WORDS};
use crate::shapes::HALF_FACETS_A_CELL;
use crate::{room, Memory, Mesh, Refusal};

/// "The program keeps at most 384 marks and 384 cells; more is refused with 1."
pub const MOST_MARKS: u32 = 384;
pub const MOST_CELLS: u32 = 384;

/// "The program's journal holds 1,000 edits."
pub const JOURNAL_EDITS: usize = 1000;

/// "more than 64 digits" is a bad frame.
pub const MOST_DIGITS: usize = 64;

const LINE_END: u8 = 0x0a;
const ACCEPTED: u8 = 0x00;

/// The frame program between two bytes of its input.
pub struct Program {
    memory: Memory,
    journal: Journal,
    start: Memory,
    line: Line,
}

/// The line being read. Its size is fixed, however long the line: what a frame
/// has no use for is not kept.
struct Line {
    digits: [u8; MOST_DIGITS],
    count: usize,
    begun: bool,
    bad: bool,
}

/// A line that is no bad frame.
enum Frame {
    Format { marks: u32, cells: u32 },
    Edit { day: u32, edit: Edit },
    Star { dimension: u32, mark: u32 },
    Anchors { dimension: u32, mark: u32 },
    Sibling { cell: u32, facet: u32 },
}

/// The output for a whole input. "Empty input writes nothing."
pub fn run(input: &[u8]) -> Vec<u8> {
    let mut program = Program::new();
    let mut output = Vec::new();
    program.read(input, &mut output);
    program.end(&mut output);
    output
}

impl Program {
    /// "It starts with capacities 0 and 0." "In the frame program its start ..
    /// begin[s]" a journal.
    pub fn new() -> Program {
        let words = room(MOST_MARKS, MOST_CELLS);
        let mesh = Some(Mesh::formatted(0, 0, FIRST_EDITION));
        let mut program = Program {
            memory: Memory { words, mesh },
            journal: Journal::lent(HEAD_WORDS + EDIT_WORDS * JOURNAL_EDITS),
            start: Memory { words, mesh: None },
            line: Line::new(),
        };
        program.begin();
        program
    }

    /// A journal of the map as it is; there is room for any.
    fn begin(&mut self) {
        self.journal
            .begin(&self.memory, &mut self.start)
            .expect("room for a journal of any map");
    }

    /// Reads the next part of the input, cut anywhere, and adds an answer line
    /// for each line that ends in it.
    pub fn read(&mut self, input: &[u8], output: &mut Vec<u8>) {
        for &byte in input {
            if byte == LINE_END {
                let answer = self.answer();
                write_answer(answer, output);
                self.line = Line::new();
            } else {
                self.line.take(byte);
            }
        }
    }

    /// The input is over: "a last line without its end is 15".
    pub fn end(self, output: &mut Vec<u8>) {
        if self.line.begun {
            write_answer(Err(Refusal::BadFrame), output);
        }
    }

    fn answer(&mut self) -> Result<Vec<u8>, Refusal> {
        let bytes = self.line.bytes().ok_or(Refusal::BadFrame)?;
        let frame = Frame::from_bytes(&bytes).ok_or(Refusal::BadFrame)?;
        self.obey(frame)
    }

    /// The bytes after the accepting byte.
    fn obey(&mut self, frame: Frame) -> Result<Vec<u8>, Refusal> {
        let memory = &mut self.memory;
        match frame {
            Frame::Format { marks, cells } => {
                if marks > MOST_MARKS || cells > MOST_CELLS {
                    return Err(Refusal::CapacityAbove);
                }
                memory.format(marks, cells)?;
                self.begin();
                Ok(Vec::new())
            }
            Frame::Edit { day, edit } => self.journal.enter(memory, day, edit).map(|()| Vec::new()),
            Frame::Star { dimension, mark } => memory
                .star(dimension, mark, usize::MAX)
                .map(|star| counted(&star, |&cell| two_bytes(cell))),
            Frame::Anchors { dimension, mark } => memory
                .anchors(dimension, mark, usize::MAX)
                .map(|anchors| counted(&anchors, |&half| cell_and_facet(half))),
            Frame::Sibling { cell, facet } => memory
                .sibling(cell, facet)
                .map(|(half, way)| [cell_and_facet(half), vec![way as u8]].concat()),
        }
    }
}

impl Default for Program {
    fn default() -> Program {
        Program::new()
    }
}

impl Line {
    fn new() -> Line {
        Line {
            digits: [0; MOST_DIGITS],
            count: 0,
            begun: false,
            bad: false,
        }
    }

    fn take(&mut self, byte: u8) {
        self.begun = true;
        match digit(byte) {
            Some(value) if self.count < MOST_DIGITS => {
                self.digits[self.count] = value;
                self.count += 1;
            }
            _ => self.bad = true,
        }
    }

    /// None for another character, more than 64 digits or an odd count.
    fn bytes(&self) -> Option<Vec<u8>> {
        let pairs = self.digits[..self.count].chunks_exact(2);
        if self.bad || !pairs.remainder().is_empty() {
            return None;
        }
        Some(pairs.map(|pair| 16 * pair[0] + pair[1]).collect())
    }
}

impl Frame {
    /// None for an empty line, an unknown code, "a frame that stops before its
    /// fixed fields, trailing bytes, half a mark"; "an edit's code is followed by
    /// two bytes of day".
    fn from_bytes(bytes: &[u8]) -> Option<Frame> {
        match *bytes {
            [0xf0, m0, m1, c0, c1] => Some(Frame::Format {
                marks: number(m0, m1),
                cells: number(c0, c1),
            }),
            [0xa0, d0, d1, c0, c1, code, ref marks @ ..] => {
                let pairs = marks.chunks_exact(2);
                let whole = pairs.remainder().is_empty();
                whole.then(|| Frame::Edit {
                    day: number(d0, d1),
                    edit: Edit::Insert {
                        cell: number(c0, c1),
                        code: code.into(),
                        // "Insert without one, as in the frame program .., means 0."
                        licence: 0,
                        marks: pairs.map(|pair| number(pair[0], pair[1])).collect(),
                    },
                })
            }
            [0xd0, d0, d1, c0, c1] => Some(Frame::Edit {
                day: number(d0, d1),
                edit: Edit::Remove {
                    cell: number(c0, c1),
                },
            }),
            [0x50, dimension, m0, m1] => Some(Frame::Star {
                dimension: dimension.into(),
                mark: number(m0, m1),
            }),
            [0x51, dimension, m0, m1] => Some(Frame::Anchors {
                dimension: dimension.into(),
                mark: number(m0, m1),
            }),
            [0x5b, c0, c1, facet] => Some(Frame::Sibling {
                cell: number(c0, c1),
                facet: facet.into(),
            }),
            _ => None,
        }
    }
}

/// The value of a lower-case hexadecimal digit.
fn digit(byte: u8) -> Option<u8> {
    match byte {
        b'0'..=b'9' => Some(byte - b'0'),
        b'a'..=b'f' => Some(byte - b'a' + 10),
        _ => None,
    }
}

fn number(high: u8, low: u8) -> u32 {
    u16::from_be_bytes([high, low]).into()
}

/// The two low bytes, big-endian. No cell number or count here is above 384.
fn two_bytes(number: u32) -> Vec<u8> {
    number.to_be_bytes()[2..].to_vec()
}

fn cell_and_facet(half: u32) -> Vec<u8> {
    let mut bytes = two_bytes(half / HALF_FACETS_A_CELL);
    bytes.push((half % HALF_FACETS_A_CELL) as u8);
    bytes
}

/// The count of a list, then its members.
fn counted(list: &[u32], member: impl Fn(&u32) -> Vec<u8>) -> Vec<u8> {
    let mut bytes = two_bytes(list.len() as u32);
    bytes.extend(list.iter().flat_map(member));
    bytes
}

/// "00 means accepted; a refusal is its byte alone."
fn write_answer(answer: Result<Vec<u8>, Refusal>, output: &mut Vec<u8>) {
    match answer {
        Ok(bytes) => {
            write_byte(ACCEPTED, output);
            bytes.iter().for_each(|&byte| write_byte(byte, output));
        }
        Err(refusal) => write_byte(refusal.number(), output),
    }
    output.push(LINE_END);
}

fn write_byte(byte: u8, output: &mut Vec<u8>) {
    const DIGITS: &[u8; 16] = b"0123456789abcdef";
    output.push(DIGITS[usize::from(byte >> 4)]);
    output.push(DIGITS[usize::from(byte & 0x0f)]);
}

//! Request 7: surfaces in and out, as plain OFF text.
//!
//! Reading cuts a text into its words and takes them one after another, as the
//! request's sentence lists them; nothing is known of the places of words beyond
//! what a refusal tells.

use crate::map::Mark;
use crate::positions::NUMBERS_A_MARK;
use crate::{room, Memory, Refusal};

/// "17 .. with the byte place of the first word that breaks this form, or the
/// length of a text that ends early"
pub const FORM_BROKEN: u8 = Refusal::OffBroken as u8;

/// "18 for a live cell not triangle or quad"
pub const NOT_SURFACE: u8 = Refusal::NotSurface as u8;

/// "triangles and quads only"
const TRIANGLE: &str = "TRI_3";
const QUAD: &str = "QUAD_4";

/// What a text says: "the first two counts become the capacities", three whole
/// metres a mark, and the marks of each face in file order.
#[derive(Clone, Debug, PartialEq, Eq)]
pub struct Surface {
    pub marks: u32,
    pub cells: u32,
    pub positions: Vec<i16>,
    pub faces: Vec<Vec<u32>>,
}

/// A refused read: the number, and the place in the text or of the face.
#[derive(Clone, Copy, Debug, PartialEq, Eq)]
pub struct Refused {
    pub number: u8,
    pub place: usize,
}

/// A word of a text and the byte place where it begins.
struct Word<'a> {
    place: usize,
    bytes: &'a [u8],
}

/// "parted by spaces or line ends (0a), which may also stand first or last"
fn words(text: &[u8]) -> Vec<Word<'_>> {
    let parts = |byte: &u8| *byte == b' ' || *byte == 0x0a;
    let mut place = 0;
    let mut found = Vec::new();
    for bytes in text.split(parts) {
        if !bytes.is_empty() {
            found.push(Word { place, bytes });
        }
        place += bytes.len() + 1;
    }
    found
}

/// "A number is 1 to 6 digits"
fn number(bytes: &[u8]) -> Option<u32> {
    let fits = (1..=6).contains(&bytes.len()) && bytes.iter().all(u8::is_ascii_digit);
    fits.then(|| {
        let digit = |so_far: u32, byte: &u8| 10 * so_far + u32::from(byte - b'0');
        bytes.iter().fold(0, digit)
    })
}

/// "a coordinate may have a minus first"; "within request 4's range"
fn coordinate(bytes: &[u8]) -> Option<i16> {
    let whole = match bytes.strip_prefix(b"-") {
        Some(digits) => -i64::from(number(digits)?),
        None => i64::from(number(bytes)?),
    };
    i16::try_from(whole).ok()
}

/// "3 or 4"
fn size(bytes: &[u8]) -> Option<u32> {
    number(bytes).filter(|size| [3, 4].contains(size))
}

/// "the word OFF"
fn title(bytes: &[u8]) -> Option<()> {
    (bytes == b"OFF").then_some(())
}

/// The words that are left, and how long the text is.
struct Left<'a> {
    words: std::vec::IntoIter<Word<'a>>,
    length: usize,
}

impl Left<'_> {
    /// The next word as `says` reads it, or the place of 17.
    fn take<T>(&mut self, says: impl Fn(&[u8]) -> Option<T>) -> Result<T, usize> {
        let word = self.words.next().ok_or(self.length)?;
        says(word.bytes).ok_or(word.place)
    }

    fn many<T>(
        &mut self,
        count: usize,
        says: impl Fn(&[u8]) -> Option<T>,
    ) -> Result<Vec<T>, usize> {
        let mut taken = Vec::new();
        for _ in 0..count {
            taken.push(self.take(&says)?);
        }
        Ok(taken)
    }
}

/// "The text is the word OFF, three counts (edges not used), three numbers a
/// vertex, then 3 or 4 and that many places a face". Words after the last face
/// break the form too.
pub fn read(text: &[u8]) -> Result<Surface, usize> {
    let mut left = Left {
        words: words(text).into_iter(),
        length: text.len(),
    };
    left.take(title)?;
    let marks = left.take(number)?;
    let cells = left.take(number)?;
    left.take(number)?;
    let positions = left.many(NUMBERS_A_MARK * marks as usize, coordinate)?;
    let mut faces = Vec::new();
    for _ in 0..cells {
        let size = left.take(size)?;
        faces.push(left.many(size as usize, number)?);
    }
    match left.words.next() {
        Some(word) => Err(word.place),
        None => Ok(Surface {
            marks,
            cells,
            positions,
            faces,
        }),
    }
}

/// "Ours has a line each for the word, the counts (edges 0), a vertex and a live
/// face, single spaces."
pub fn text(marks: u32, positions: &[i16], faces: &[Vec<u32>]) -> Vec<u8> {
    let mut lines = vec!["OFF".to_string(), format!("{marks} {} 0", faces.len())];
    for at in positions.chunks(NUMBERS_A_MARK).take(marks as usize) {
        lines.push(format!("{} {} {}", at[0], at[1], at[2]));
    }
    for face in faces {
        let marks: Vec<String> = face.iter().map(u32::to_string).collect();
        lines.push(format!("{} {}", face.len(), marks.join(" ")));
    }
    lines
        .into_iter()
        .flat_map(|line| (line + "\n").into_bytes())
        .collect()
}

/// A face as a build record: "faces cells 0, 1, 2 in file order", with licence 0,
/// as "for a face read from OFF".
fn record(number: usize, face: &[u32]) -> Vec<u32> {
    let name = if face.len() == 3 { TRIANGLE } else { QUAD };
    let row = crate::shapes::TYPES.iter().find(|row| row.name == name);
    let code = row.expect("the type is in the table").code;
    [&[number as u32, code, 0], face].concat()
}

impl Memory {
    /// Read a surface: 17, then 1, 2 and 16, then the build's own with the place
    /// of the face. "a refused read leaves the positions unchanged".
    pub fn read_off(&mut self, positions: &mut [i16], text: &[u8]) -> Result<(), Refused> {
        let refused = |number: u8, place: usize| Refused { number, place };
        let surface = read(text).map_err(|place| refused(FORM_BROKEN, place))?;
        let (marks, cells) = (surface.marks, surface.cells);
        if marks > 65_535 || cells > 65_535 {
            return Err(refused(Refusal::CapacityAbove.number(), 0));
        }
        if self.words < room(marks, cells) {
            return Err(refused(Refusal::MemoryShort.number(), 0));
        }
        if positions.len() < surface.positions.len() {
            return Err(refused(Refusal::PositionsShort.number(), 0));
        }
        let faces = surface.faces.iter().enumerate();
        let records: Vec<u32> = faces.flat_map(|(at, face)| record(at, face)).collect();
        self.build(marks, cells, &records)
            .map_err(|(refusal, place)| refused(refusal.number(), place))?;
        positions[..surface.positions.len()].copy_from_slice(&surface.positions);
        Ok(())
    }

    /// Write a surface: 14, 16, 18, 12.
    pub fn write_off(&self, positions: &[i16], room: usize) -> Result<Vec<u8>, u8> {
        let mesh = self.held().map_err(Refusal::number)?;
        if positions.len() < NUMBERS_A_MARK * mesh.marks as usize {
            return Err(Refusal::PositionsShort.number());
        }
        let is_face = |name: &str| name == TRIANGLE || name == QUAD;
        if !mesh.live.iter().all(|cell| is_face(cell.row.name)) {
            return Err(NOT_SURFACE);
        }
        let mut live: Vec<_> = mesh.live.iter().collect();
        live.sort_by_key(|cell| cell.number);
        let marks = |marks: &[Mark]| marks.iter().map(|mark| mark.0).collect();
        let faces: Vec<Vec<u32>> = live.iter().map(|cell| marks(&cell.marks)).collect();
        let text = text(mesh.marks, positions, &faces);
        if room < text.len() {
            return Err(Refusal::OutputShort.number());
        }
        Ok(text)
    }
}

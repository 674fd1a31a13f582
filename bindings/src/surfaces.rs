//! Surfaces in and out, as plain Geomview OFF text.

use std::fmt;
use std::io::{self, Read, Write};

use crate::{calls, room, Mesh, Refusal, MOST_CAPACITY};

/// A text that was refused: why, and where. With [`Refusal::OffBroken`] the place
/// is that of a byte, of the first word that breaks the form, or the length of a
/// text that ends early; at a face it is the face's, from 0; else it is 0.
#[derive(Clone, Copy, Debug, PartialEq, Eq)]
pub struct OffRefused {
    pub refusal: Refusal,
    pub place: usize,
}

impl fmt::Display for OffRefused {
    fn fmt(&self, to: &mut fmt::Formatter<'_>) -> fmt::Result {
        let what = match self.refusal {
            Refusal::OffBroken => "byte",
            _ => "face",
        };
        write!(to, "{what} {}: {}", self.place, self.refusal)
    }
}

impl std::error::Error for OffRefused {}

/// Why a surface was not read from a file or not written to one.
#[derive(Debug)]
pub enum OffError {
    /// The file could not be read or written.
    File(io::Error),
    /// Its text is refused.
    Text(OffRefused),
    /// The surface cannot be written.
    Surface(Refusal),
}

impl fmt::Display for OffError {
    fn fmt(&self, to: &mut fmt::Formatter<'_>) -> fmt::Result {
        match self {
            OffError::File(fault) => fault.fmt(to),
            OffError::Text(refused) => refused.fmt(to),
            OffError::Surface(refusal) => refusal.fmt(to),
        }
    }
}

impl std::error::Error for OffError {}

impl From<io::Error> for OffError {
    fn from(fault: io::Error) -> OffError {
        OffError::File(fault)
    }
}

/// A mesh and its positions, three whole metres for each mark of the capacity.
///
/// ```
/// # use mengkiloh::{OffError, Refusal, Surface};
/// # fn main() -> Result<(), OffError> {
/// let file = "OFF 3 1 0\n 0 0 0 4 0 0 0 3 1\n 3 0 1 2";
/// let surface = Surface::read(file.as_bytes())?;
/// assert_eq!(surface.mesh.capacities().unwrap(), (3, 1));
/// assert_eq!(surface.positions[3..6], [4, 0, 0]);
/// let mut written = Vec::new();
/// surface.write(&mut written)?;
/// assert_eq!(written, b"OFF\n3 1 0\n0 0 0\n4 0 0\n0 3 1\n3 0 1 2\n");
///
/// let Err(OffError::Text(refused)) = Surface::read("OFF 1 0 0 0 0.5 0".as_bytes()) else {
///     panic!("half a metre is refused");
/// };
/// assert_eq!((refused.refusal, refused.place), (Refusal::OffBroken, 12));
/// # Ok(())
/// # }
/// ```
#[derive(Clone, Debug)]
pub struct Surface {
    pub mesh: Mesh<Vec<u32>>,
    pub positions: Vec<i16>,
}

impl Surface {
    /// A file's surface, in memory of its own.
    ///
    /// # Errors
    ///
    /// [`OffError::File`] where it could not be read; [`OffError::Text`] as
    /// [`read_off`](Mesh::read_off), but memory and positions are never short.
    pub fn read(mut from: impl Read) -> Result<Surface, OffError> {
        let mut text = Vec::new();
        from.read_to_end(&mut text)?;
        // three numbers a mark and four a face, each a digit and what parts it
        // from the number before: no text of this length has more
        let most = |bytes: usize| (text.len() / bytes).min(MOST_CAPACITY as usize);
        let (marks, faces) = (most(6), most(8));
        let mut surface = Surface {
            mesh: Mesh::over(vec![0; room(marks as u32, faces as u32)]),
            positions: vec![0; 3 * marks],
        };
        let Surface { mesh, positions } = &mut surface;
        mesh.read_off(positions, &text).map_err(OffError::Text)?;
        let (marks, cells) = mesh.capacities().map_err(OffError::Surface)?;
        mesh.words.truncate(room(marks, cells));
        positions.truncate(3 * marks as usize);
        Ok(surface)
    }

    /// The surface written to a file.
    ///
    /// # Errors
    ///
    /// [`OffError::Surface`] as [`write_off`](Mesh::write_off);
    /// [`OffError::File`] where it could not be written.
    pub fn write(&self, mut to: impl Write) -> Result<(), OffError> {
        let text = self.mesh.write_off(&self.positions);
        to.write_all(&text.map_err(OffError::Surface)?)?;
        Ok(to.flush()?)
    }
}

/// The bytes that the longest text of so many marks and faces takes.
pub const fn off_room(marks: u32, faces: u32) -> usize {
    18 + 21 * marks as usize + 26 * faces as usize
}

impl<W: AsMut<[u32]>> Mesh<W> {
    /// Makes the words the mesh of a surface, under edition 1: the first two
    /// counts of the text become the capacities, its faces cells 0, 1, 2 in their
    /// order, and its metres the first numbers of `positions`. A text refused
    /// at a face leaves a mesh with no cell, and the positions as they were.
    ///
    /// # Errors
    ///
    /// [`Refusal::OffBroken`], [`Refusal::CapacityAbove`],
    /// [`Refusal::MemoryShort`], [`Refusal::PositionsShort`], and at a face as
    /// [`insert`](Mesh::insert). The first that fits, in this order.
    pub fn read_off(&mut self, positions: &mut [i16], text: &[u8]) -> Result<(), OffRefused> {
        let words = self.words.as_mut();
        let mut place = 0;
        // SAFETY: each pointer and count are those of one slice; what is written
        // is lent to this call alone.
        Refusal::from_number(unsafe {
            calls::mk_off_read(
                words.as_mut_ptr(),
                words.len(),
                positions.as_mut_ptr(),
                positions.len(),
                text.as_ptr(),
                text.len(),
                &mut place,
            )
        })
        .map_err(|refusal| OffRefused { refusal, place })
    }
}

impl<W: AsRef<[u32]>> Mesh<W> {
    /// The surface as OFF text: a line each for the word, the counts, each mark of
    /// the capacity and each live face, ascending. Memory whose marks are no
    /// marks of the capacity is no well-formed mesh; the refusal may then be
    /// [`Refusal::OutputShort`].
    ///
    /// # Errors
    ///
    /// [`Refusal::NotMesh`], [`Refusal::PositionsShort`],
    /// [`Refusal::NotSurface`] for a live cell that is neither triangle nor quad.
    /// The first that fits, in this order.
    pub fn write_off(&self, positions: &[i16]) -> Result<Vec<u8>, Refusal> {
        let (marks, _) = self.capacities()?;
        let mut text = vec![0; off_room(marks, self.live()?.len() as u32)];
        let length = self.write_off_into(positions, &mut text)?;
        text.truncate(length);
        Ok(text)
    }

    /// The text in the first bytes of `out`; how many they are.
    ///
    /// # Errors
    ///
    /// [`Refusal::NotMesh`], [`Refusal::PositionsShort`],
    /// [`Refusal::NotSurface`], [`Refusal::OutputShort`]. The first that fits, in
    /// this order.
    pub fn write_off_into(&self, positions: &[i16], out: &mut [u8]) -> Result<usize, Refusal> {
        let words = self.words();
        let mut length = 0;
        // SAFETY: as in `read_off`.
        Refusal::from_number(unsafe {
            calls::mk_off_write(
                words.as_ptr(),
                words.len(),
                positions.as_ptr(),
                positions.len(),
                out.as_mut_ptr(),
                out.len(),
                &mut length,
            )
        })?;
        Ok(length)
    }
}

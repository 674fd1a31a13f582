//! Iterators: over the live cells, over one sibling cycle, and over lists
//! without an allocation.

use std::iter::FusedIterator;

use crate::{Cell, Half, Mark, Mesh, Refusal, Type, Walker, Way, MOST_AROUND};

/// The live cells, ascending, each with its type and its marks: the very words
/// of the mesh that store them.
///
/// ```
/// # use mengkiloh::{Cell, Mark, Mesh, Type};
/// # fn main() -> Result<(), mengkiloh::Refusal> {
/// let mut map = Mesh::with_room(6, 4)?;
/// map.insert(Cell(3), Type::Bar, &[2, 5].map(Mark))?;
/// map.insert(Cell(0), Type::Triangle, &[0, 1, 2].map(Mark))?;
/// for (cell, kind, marks) in &map {
///     println!("{cell}: {kind:?} on {marks:?}");
/// }
/// let cells: Vec<Cell> = map.iter().map(|(cell, ..)| cell).collect();
/// assert_eq!(cells, [Cell(0), Cell(3)]);
/// # Ok(())
/// # }
/// ```
#[derive(Clone, Debug)]
pub struct Live<'a> {
    mesh: Mesh<&'a [u32]>,
    next: u32,
    end: u32,
}

impl<'a> Iterator for Live<'a> {
    type Item = (Cell, Type, &'a [Mark]);

    fn next(&mut self) -> Option<Self::Item> {
        while self.next < self.end {
            let cell = Cell(self.next);
            self.next += 1;
            let marks = crate::marks_in(self.mesh.words, cell);
            if let (Ok(kind), Ok(marks)) = (self.mesh.type_of(cell), marks) {
                return Some((cell, kind, marks));
            }
        }
        None
    }

    fn size_hint(&self) -> (usize, Option<usize>) {
        (0, Some((self.end - self.next) as usize))
    }
}

impl FusedIterator for Live<'_> {}

impl<W: AsRef<[u32]>> Mesh<W> {
    /// The live cells, ascending, each with its type and its marks. There are
    /// none where the words are not a mesh.
    pub fn iter(&self) -> Live<'_> {
        let words = self.words();
        Live {
            mesh: Mesh::over(words),
            next: 0,
            end: self.capacities().map_or(0, |(_, cells)| cells),
        }
    }

    /// The cells of every dimension that hold a mark: bars, then triangles and
    /// quads, then solids, each ascending.
    ///
    /// ```
    /// # use mengkiloh::{Cell, Mark, Mesh, Type};
    /// # fn main() -> Result<(), mengkiloh::Refusal> {
    /// let mut map = Mesh::with_room(6, 4)?;
    /// map.insert(Cell(0), Type::Triangle, &[0, 1, 2].map(Mark))?;
    /// map.insert(Cell(3), Type::Bar, &[2, 5].map(Mark))?;
    /// assert!(map.around(Mark(2))?.eq([3, 0].map(Cell)));
    /// assert_eq!(map.around(Mark(4))?.count(), 0);
    /// # Ok(())
    /// # }
    /// ```
    ///
    /// # Errors
    ///
    /// [`Refusal::NotMesh`], [`Refusal::MarkOutside`]. The first that fits, in
    /// this order.
    pub fn around(&self, mark: Mark) -> Result<impl Iterator<Item = Cell>, Refusal> {
        let [bars, sheets, solids] = [1, 2, 3].map(|dimension| {
            let mut list = [Cell(0); MOST_AROUND];
            let count = self.star_into(dimension, mark, &mut list);
            count.map(|count| list.into_iter().take(count))
        });
        Ok(bars?.chain(sheets?).chain(solids?))
    }

    /// The half-facets of one sibling cycle, that of a cell's facet first, each
    /// with the way in which the next one runs.
    pub fn walk(&self, cell: Cell, facet: u32) -> Walk<'_> {
        Walk {
            mesh: Mesh::over(self.words()),
            start: (cell, facet),
            next: Some((cell, facet)),
            left: MOST_AROUND,
        }
    }
}

impl<'a, W: AsRef<[u32]>> IntoIterator for &'a Mesh<W> {
    type Item = (Cell, Type, &'a [Mark]);
    type IntoIter = Live<'a>;

    fn into_iter(self) -> Live<'a> {
        self.iter()
    }
}

impl Walker {
    /// The walker's own walk, from its place until it is back there.
    ///
    /// ```
    /// # use mengkiloh::{Cell, Half, Mark, Mesh, Refusal, Type, Walker};
    /// # fn main() -> Result<(), mengkiloh::Refusal> {
    /// let mut map = Mesh::with_room(6, 4)?;
    /// for (cell, third) in [(0, 2), (1, 3), (2, 4)] {
    ///     map.insert(Cell(cell), Type::Triangle, &[0, 1, third].map(Mark))?;
    /// }
    /// let start = Walker(Half::of(Cell(1), 0));
    /// let walk: Result<Vec<_>, Refusal> = start.over(&map).collect();
    /// let halves: Vec<u32> = walk?.iter().map(|(half, _)| half.0).collect();
    /// assert_eq!(halves, [8, 16, 0]);
    /// # Ok(())
    /// # }
    /// ```
    pub fn over<W: AsRef<[u32]>>(self, mesh: &Mesh<W>) -> Walk<'_> {
        let Walker(half) = self;
        mesh.walk(half.cell(), half.facet())
    }
}

/// A walk once round a sibling cycle: each half-facet with the way in which the
/// next one runs. A refusal is its last item. On words that are no well-formed
/// mesh it ends after 128 steps, the most that a cycle has.
#[derive(Clone, Debug)]
pub struct Walk<'a> {
    mesh: Mesh<&'a [u32]>,
    start: (Cell, u32),
    next: Option<(Cell, u32)>,
    left: usize,
}

impl Iterator for Walk<'_> {
    type Item = Result<(Half, Way), Refusal>;

    fn next(&mut self) -> Option<Self::Item> {
        let (cell, facet) = self.next.take()?;
        Some(self.mesh.sibling(cell, facet).map(|(there, way)| {
            self.left -= 1;
            let place = (there.cell(), there.facet());
            if self.left > 0 && place != self.start {
                self.next = Some(place);
            }
            (Half::of(cell, facet), way)
        }))
    }
}

impl FusedIterator for Walk<'_> {}

//! Planned changes: a list of edits checked before the night, and a planner.

use std::fmt;

use crate::{calls, Edits, Mesh, Records, Refusal};

/// A plan that is wrong, or was not checked: why, and where. With
/// [`Refusal::PlanWrong`] the place is that of the first wrong edit, from 0, or the
/// number of edits where only the end differs; else there is none.
#[derive(Clone, Copy, Debug, PartialEq, Eq)]
pub struct PlanRefused {
    pub refusal: Refusal,
    pub place: Option<usize>,
}

impl fmt::Display for PlanRefused {
    fn fmt(&self, to: &mut fmt::Formatter<'_>) -> fmt::Result {
        match self.place {
            Some(place) => write!(to, "at edit {place}: {}", self.refusal),
            None => self.refusal.fmt(to),
        }
    }
}

impl std::error::Error for PlanRefused {}

/// No plan has more words: a removal for each cell of the capacity, and an insert, one
/// word longer than its record, for each record, of which none has under 5 words.
fn most_words(cells: u32, wanted: usize) -> usize {
    2 * cells as usize + wanted + wanted / 5
}

impl<W: AsRef<[u32]>> Mesh<W> {
    /// Whether the edits take this mesh to the wanted cells: every edit in order would
    /// be accepted, and the live cells afterwards, with type, marks in their order and
    /// licence, are the wanted ones, each once. The words of `second` are made the mesh
    /// after the edits that were accepted; this mesh is only read.
    ///
    /// ```
    /// use mengkiloh::{Cell, Edits, Licence, Mark, Mesh, Records, Refusal, Type};
    ///
    /// # fn main() -> Result<(), Box<dyn std::error::Error>> {
    /// let mut today = Mesh::with_room(6, 4)?;
    /// today.insert(Cell(0), Type::Triangle, &[0, 1, 2].map(Mark))?;
    /// let mut wanted = Records::new();
    /// wanted.add(Cell(0), Type::Triangle, Licence(7), &[0, 1, 2].map(Mark));
    /// wanted.add(Cell(1), Type::Bar, Licence(7), &[2, 3].map(Mark));
    ///
    /// let mut tomorrow = Mesh::with_room(6, 4)?;
    /// let plan = today.plan(&wanted)?;
    /// today.check_plan(&plan, &wanted, &mut tomorrow)?;
    /// assert_eq!(tomorrow.licence(Cell(0))?, Licence(7));
    ///
    /// let mut wrong = Edits::new();
    /// wrong.remove(Cell(0));
    /// wrong.remove(Cell(0));
    /// let refused = today.check_plan(&wrong, &wanted, &mut tomorrow).unwrap_err();
    /// assert_eq!((refused.refusal, refused.place), (Refusal::PlanWrong, Some(1)));
    /// # Ok(())
    /// # }
    /// ```
    ///
    /// # Errors
    ///
    /// [`Refusal::NotMesh`], [`Refusal::MemoryShort`]; at the first wanted record that is
    /// wrong [`Refusal::CountWrong`] where it is cut short or [`Refusal::TypeUnknown`];
    /// these leave `second` as it was. [`Refusal::PlanWrong`] with its place. The first
    /// that fits, in this order.
    pub fn check_plan<S: AsMut<[u32]>>(
        &self,
        edits: &Edits,
        wanted: &Records,
        second: &mut Mesh<S>,
    ) -> Result<(), PlanRefused> {
        let (words, edits, wanted) = (self.words(), edits.words(), wanted.words());
        let second = second.words.as_mut();
        let mut place = 0;
        // SAFETY: each pointer and count are those of one slice; second and the place
        // are lent to this call alone.
        Refusal::from_number(unsafe {
            calls::mk_plan_check(
                words.as_ptr(),
                words.len(),
                edits.as_ptr(),
                edits.len(),
                wanted.as_ptr(),
                wanted.len(),
                second.as_mut_ptr(),
                second.len(),
                &mut place,
            )
        })
        .map_err(|refusal| PlanRefused {
            refusal,
            place: (refusal == Refusal::PlanWrong).then_some(place),
        })
    }

    /// A plan: a removal of each live cell that is not wanted as it stands, ascending,
    /// then an insert of each wanted cell that does not stand so, in the list's order.
    /// Whenever the wanted list can be built under the same capacities and edition,
    /// [`check_plan`](Mesh::check_plan) says yes to it.
    ///
    /// # Errors
    ///
    /// [`Refusal::NotMesh`]; at the first wanted record that is wrong
    /// [`Refusal::CountWrong`] where it is cut short or [`Refusal::TypeUnknown`]. The
    /// first that fits, in this order.
    pub fn plan(&self, wanted: &Records) -> Result<Edits, Refusal> {
        let (_, cells) = self.capacities()?;
        let mut plan = vec![0; most_words(cells, wanted.words().len())];
        let count = self.plan_into(wanted, &mut plan)?;
        plan.truncate(count);
        Ok(Edits::from(plan))
    }

    /// The words of the plan in the first places of `out`; how many they are.
    ///
    /// # Errors
    ///
    /// As [`plan`](Mesh::plan), then [`Refusal::OutputShort`].
    pub fn plan_into(&self, wanted: &Records, out: &mut [u32]) -> Result<usize, Refusal> {
        let (words, wanted) = (self.words(), wanted.words());
        let mut count = 0;
        // SAFETY: as in `check_plan`.
        Refusal::from_number(unsafe {
            calls::mk_plan(
                words.as_ptr(),
                words.len(),
                wanted.as_ptr(),
                wanted.len(),
                out.as_mut_ptr(),
                out.len(),
                &mut count,
            )
        })?;
        Ok(count)
    }
}

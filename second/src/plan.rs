//! Request 12: planned changes, checked before the night.
//!
//! "The survey office proposes a list of edits to take today's map to a wanted
//! list of cells." The edits are request 2's words, the wanted cells build records.

use crate::calls::{room, Memory, INSERT, REMOVE};
use crate::map::{live_cells, Cell, LiveCell, Mark};
use crate::shapes::type_with_code;
use crate::Refusal;

impl Memory {
    /// "A small check says yes exactly when every edit in order would be accepted
    /// and the live cells afterwards, with type, mark order and licence, are the
    /// wanted ones, each once. It works in a second memory, where yes or 24 leaves
    /// the map after the edits accepted."
    ///
    /// 14; "before it 2, then 7 for a wanted list cut short or 6 for an unknown type
    /// in it"; "24 with the place (from 0) of the first wrong edit, or with the length
    /// of the list if only the end differs". A place comes with 24 alone.
    pub fn plan_check(
        &self,
        edits: &[u32],
        wanted: &[u32],
        second: &mut Memory,
    ) -> Result<(), (Refusal, Option<usize>)> {
        let other = |refusal| (refusal, None);
        let today = self.held().map_err(other)?;
        if second.words < room(today.marks, today.cells) {
            return Err(other(Refusal::MemoryShort));
        }
        let wanted = wanted_cells(wanted).map_err(other)?;
        second.mesh = Some(today.clone());
        let wrong = |place| (Refusal::PlanWrong, Some(place));
        let length = second.one_by_one(edits).map_err(|(_, at)| wrong(at))?;
        let tomorrow = &second.held().map_err(other)?.live;
        match are_the_wanted(tomorrow, &wanted) {
            true => Ok(()),
            false => Err(wrong(length)),
        }
    }

    /// "Write a planner too: remove every cell that is not wanted as it stands, then
    /// insert the missing." Removals ascend, the missing come in the wanted list's
    /// order. 14; "the planner 7 or 6 likewise, then 12 if its plan does not fit".
    pub fn plan(&self, wanted: &[u32], room: usize) -> Result<Vec<u32>, Refusal> {
        let today = &self.held()?.live;
        let wanted = wanted_cells(wanted)?;
        let mut plan = Vec::new();
        for cell in live_cells(today) {
            if !wanted.contains(cell) {
                plan.extend([REMOVE, cell.number.0]);
            }
        }
        for cell in &wanted {
            if !today.contains(cell) {
                plan.extend([INSERT, cell.number.0, cell.row.code, cell.licence]);
                plan.extend(cell.marks.iter().map(|mark| mark.0));
            }
        }
        match plan.len() <= room {
            true => Ok(plan),
            false => Err(Refusal::OutputShort),
        }
    }
}

/// The cells that a wanted list names: "7 for a wanted list cut short or 6 for an
/// unknown type in it", read record by record, whichever comes first. Without its
/// number, type and licence a record is 7; one of a type that there is, without all
/// its marks, 7 too.
pub fn wanted_cells(words: &[u32]) -> Result<Vec<LiveCell>, Refusal> {
    let mut left = words;
    let mut cells = Vec::new();
    while !left.is_empty() {
        let [number, code, licence, rest @ ..] = left else {
            return Err(Refusal::CountWrong);
        };
        let row = type_with_code(*code).ok_or(Refusal::TypeUnknown)?;
        if rest.len() < row.marks {
            return Err(Refusal::CountWrong);
        }
        let (marks, after) = rest.split_at(row.marks);
        cells.push(LiveCell {
            number: Cell(*number),
            row,
            licence: *licence,
            marks: marks.iter().copied().map(Mark).collect(),
        });
        left = after;
    }
    Ok(cells)
}

/// "the live cells .., with type, mark order and licence, are the wanted ones, each
/// once": as many, and each live cell, no two of which are equal, among them.
fn are_the_wanted(live: &[LiveCell], wanted: &[LiveCell]) -> bool {
    live.len() == wanted.len() && live.iter().all(|cell| wanted.contains(cell))
}

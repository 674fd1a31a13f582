//! The second program: the outline by its definitions, in plain Rust.
//!
//! It exists to be compared with. So it stores no link and keeps no answer: a
//! mesh is two capacities, an edition and a list of live cells, and every
//! question scans that list as the outline's sentence says.
//!
//! - [`shapes`]: the type table; a new type is one more row.
//! - [`map`]: the definitions over the list of live cells.
//! - [`refusal`]: the refusal numbers.
//! - [`calls`]: every call, its checks in the listed order, then the answer.
//! - [`positions`]: points, centres and measures, in whole metres.
//! - [`cases`]: the outline's cases, with every answer, as text.
//! - [`off`]: surfaces in and out as OFF text.
//! - [`journal`]: the map on any day: edits with their days, begun, entered, asked, folded.
//! - [`matcher`]: the licences to ask, for a mark and a day.
//! - [`plan`]: planned changes, checked before the night, and a planner.
//! - [`frames`]: the frame program, from input bytes to output bytes.

#![forbid(unsafe_code)]

pub mod calls;
pub mod cases;
pub mod frames;
pub mod journal;
pub mod map;
pub mod matcher;
pub mod off;
pub mod plan;
pub mod positions;
pub mod refusal;
pub mod shapes;

pub use calls::{room, Memory, Mesh, Tally, Walker};
pub use journal::Journal;
pub use map::Way;
pub use refusal::Refusal;

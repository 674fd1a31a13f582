//! Request 4: marks with positions, in whole numbers.
//!
//! "Keep beside the mesh three whole metres per mark, each a signed 16-bit
//! number." Everything here is a whole number; "the float equal to the
//! whole-number formula, without rounding" is made of it at the end.

use crate::map::{LiveCell, Mark};

/// Three whole metres: a position, or the way from one to another.
#[derive(Clone, Copy, Debug, PartialEq, Eq)]
pub struct Metres {
    pub x: i64,
    pub y: i64,
    pub z: i64,
}

/// "three numbers per mark"
pub const NUMBERS_A_MARK: usize = 3;

/// "one measure, whose kind follows the cell"
#[derive(Clone, Copy, Debug, PartialEq, Eq)]
pub enum Measure {
    SquaredLength(i64),
    DoubledArea(i64),
    SixfoldVolume(i64),
}

impl Measure {
    /// 1 to 3, in the order of the request.
    pub fn kind(self) -> u32 {
        match self {
            Measure::SquaredLength(_) => 1,
            Measure::DoubledArea(_) => 2,
            Measure::SixfoldVolume(_) => 3,
        }
    }

    pub fn whole(self) -> i64 {
        let (Measure::SquaredLength(whole)
        | Measure::DoubledArea(whole)
        | Measure::SixfoldVolume(whole)) = self;
        whole
    }
}

/// The float of a whole number. One that the float would round is a fault.
pub fn float(whole: i64) -> f64 {
    let float = whole as f64;
    assert_eq!(float as i128, i128::from(whole), "rounded");
    float
}

/// The position of a mark.
pub fn position(positions: &[i16], mark: Mark) -> Metres {
    let first = NUMBERS_A_MARK * mark.0 as usize;
    let metres = |place: usize| i64::from(positions[first + place]);
    Metres {
        x: metres(0),
        y: metres(1),
        z: metres(2),
    }
}

/// "the position of each corner"
pub fn corners(positions: &[i16], cell: &LiveCell) -> Vec<Metres> {
    let at = |&mark: &Mark| position(positions, mark);
    cell.marks.iter().map(at).collect()
}

/// "each coordinate sum held exactly", to be "divided once by the count of
/// corners"
pub fn sums(corners: &[Metres]) -> Metres {
    Metres {
        x: corners.iter().map(|corner| corner.x).sum(),
        y: corners.iter().map(|corner| corner.y).sum(),
        z: corners.iter().map(|corner| corner.z).sum(),
    }
}

/// The edge from a corner to another.
fn edge(corners: &[Metres], from: usize, to: usize) -> Metres {
    let (a, b) = (corners[from], corners[to]);
    Metres {
        x: b.x - a.x,
        y: b.y - a.y,
        z: b.z - a.z,
    }
}

/// The cross product of two edges.
fn cross(a: Metres, b: Metres) -> Metres {
    Metres {
        x: a.y * b.z - a.z * b.y,
        y: a.z * b.x - a.x * b.z,
        z: a.x * b.y - a.y * b.x,
    }
}

fn dot(a: Metres, b: Metres) -> i64 {
    a.x * b.x + a.y * b.y + a.z * b.z
}

/// "squared length of a bar, doubled signed plan area of a triangle or quad (x
/// and y: edges 0 to 1 and 0 to 2 crossed, in a quad 0 to 2 and 1 to 3), sixfold
/// signed volume of a tetrahedron (edge from corner 0 to 1, dotted with the cross
/// product of those to 2 and to 3)"; nothing for "a solid without a measure".
pub fn measure(name: &str, corners: &[Metres]) -> Option<Measure> {
    let along = |from, to| edge(corners, from, to);
    match name {
        "BAR_2" => Some(Measure::SquaredLength(dot(along(0, 1), along(0, 1)))),
        "TRI_3" => Some(Measure::DoubledArea(cross(along(0, 1), along(0, 2)).z)),
        "QUAD_4" => Some(Measure::DoubledArea(cross(along(0, 2), along(1, 3)).z)),
        "TETRA_4" => {
            let across = cross(along(0, 2), along(0, 3));
            Some(Measure::SixfoldVolume(dot(along(0, 1), across)))
        }
        _ => None,
    }
}

//! The type table. Everything the program knows of a type stands in its row.

use std::ops::RangeInclusive;

/// A row of the table: a type of cell.
#[derive(Debug, PartialEq, Eq)]
pub struct Type {
    pub code: u32,
    pub name: &'static str,
    pub dimension: u32,
    /// How many marks a cell of this type has.
    pub marks: usize,
    /// For each local facet the places of its marks in the cell's list.
    pub facets: &'static [&'static [usize]],
}

/// "Local facet numbering is a fixed table, with places counted from 0 (CGNS
/// counts from 1)"; rows 5 to 7 are request 1's. Rows stand in code order.
pub const TYPES: &[Type] = &[
    Type {
        code: 1,
        name: "BAR_2",
        dimension: 1,
        marks: 2,
        facets: &[&[0], &[1]],
    },
    Type {
        code: 2,
        name: "TRI_3",
        dimension: 2,
        marks: 3,
        facets: &[&[0, 1], &[1, 2], &[2, 0]],
    },
    Type {
        code: 3,
        name: "QUAD_4",
        dimension: 2,
        marks: 4,
        facets: &[&[0, 1], &[1, 2], &[2, 3], &[3, 0]],
    },
    Type {
        code: 4,
        name: "TETRA_4",
        dimension: 3,
        marks: 4,
        facets: &[&[0, 2, 1], &[0, 1, 3], &[1, 2, 3], &[2, 0, 3]],
    },
    Type {
        code: 5,
        name: "PYRA_5",
        dimension: 3,
        marks: 5,
        facets: &[
            &[0, 3, 2, 1],
            &[0, 1, 4],
            &[1, 2, 4],
            &[2, 3, 4],
            &[3, 0, 4],
        ],
    },
    Type {
        code: 6,
        name: "PENTA_6",
        dimension: 3,
        marks: 6,
        facets: &[
            &[0, 1, 4, 3],
            &[1, 2, 5, 4],
            &[2, 0, 3, 5],
            &[0, 2, 1],
            &[3, 4, 5],
        ],
    },
    Type {
        code: 7,
        name: "HEXA_8",
        dimension: 3,
        marks: 8,
        facets: &[
            &[0, 3, 2, 1],
            &[0, 1, 5, 4],
            &[1, 2, 6, 5],
            &[2, 3, 7, 6],
            &[0, 4, 7, 3],
            &[4, 5, 6, 7],
        ],
    },
];

/// Refusal 6: "dimension not 1 to 3".
pub const DIMENSIONS: RangeInclusive<u32> = 1..=3;

/// The dimension of the solids.
pub const SOLID: u32 = 3;

/// "Lookup takes sets of up to 4 marks."
pub const LOOKUP_MARKS: RangeInclusive<usize> = 1..=4;

/// "Half-facet number = 8 × cell + local facet."
pub const HALF_FACETS_A_CELL: u32 = 8;

/// The row with this code, if the table has one.
pub fn type_with_code(code: u32) -> Option<&'static Type> {
    TYPES.iter().find(|row| row.code == code)
}

/// The facet numbering as text, one line for each type in code order.
pub fn numbering() -> String {
    TYPES.iter().map(line).collect()
}

fn line(row: &Type) -> String {
    let facets: String = row.facets.iter().map(|places| facet(places)).collect();
    format!(
        "{} {} dimension {} marks {} facets{facets}\n",
        row.code, row.name, row.dimension, row.marks
    )
}

fn facet(places: &[usize]) -> String {
    let places: Vec<String> = places.iter().map(usize::to_string).collect();
    format!(" ({})", places.join(","))
}

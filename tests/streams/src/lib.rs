//! What runs by chance share.

pub mod chance;
pub mod lattice;

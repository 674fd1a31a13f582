//! What the test files share. Each of them is a crate of its own and uses its
//! own part of this, so unused parts are no fault.
#![allow(dead_code)]

pub mod answers;
pub mod maps;
pub mod pairs;
pub mod random;

//! Which of two faults is answered.
//!
//! A test makes calls whose arguments have known faults, named by refusal
//! number, and hands them here with the answer. The fault earlier in the
//! call's listed order must be the one answered, and in the end every pair
//! must have been shown, save those the test lists as never both there.

use super::maps::*;
use second::Refusal;
use std::collections::BTreeSet;

/// 7 for a missing number or code, which a build record is checked for before
/// 3; the other 7, for missing marks, comes after 6.
pub const MISSING: u8 = 107;

/// 6 for another edition, which a format or build is checked for before 1; the
/// other 6, for an unknown type, comes after 4.
pub const EDITION: u8 = 106;

/// A value of an argument and the faults it brings.
pub type Choice<T> = (T, &'static [u8]);

/// A number above every capacity.
pub const ABOVE_ALL: u32 = 70_000;

pub const NO_LIVE_CELL: &str = "without a mesh no cell is live";
pub const LIVE_IS_BELOW: &str = "a live number is below the capacity";

/// The words of a build record, or of a listed insert, after its number, and the
/// faults that they bring on the map with a full mark.
pub fn after_the_number() -> Vec<Choice<&'static [u32]>> {
    vec![
        (&[TRI, 7, 3, 4, 5], &[]),
        (&[], &[MISSING]),
        (&[TRI], &[MISSING]),
        (&[258], &[MISSING, 6]),
        (&[258, 7, 3, 4, 5], &[6]),
        (&[TRI, 7, 3, 4], &[7]),
        (&[TRI, 7], &[7]),
        (&[TRI, 7, 3, 4, ABOVE_ALL], &[8]),
        (&[TRI, 7, 3, 4, 4], &[9]),
        (&[TRI, 7, 2, 0, 1], &[10]),
        (&[TRI, 7, 3, 4, 10], &[11]),
        // An unknown type is 6 whatever follows its licence, also nothing.
        (&[258, 7], &[6, 7]),
        (&[258, 7, 3, 4, ABOVE_ALL], &[6, 8]),
        (&[258, 7, 3, 3, 4], &[6, 9]),
        (&[258, 7, 10, 4, 5], &[6, 11]),
        (&[TRI, 7, ABOVE_ALL, 4], &[7, 8]),
        (&[TRI, 7, 3, 3], &[7, 9]),
        (&[TRI, 7, 10, 3], &[7, 11]),
        (&[TRI, 7, 3, 3, ABOVE_ALL], &[8, 9]),
        (&[TRI, 7, 10, 3, ABOVE_ALL], &[8, 11]),
        (&[TRI, 7, 10, 3, 3], &[9, 11]),
        (&[BAR, 7, 30, 10], &[10, 11]),
    ]
}

/// The same of a third solid on a face, on the map with full faces.
pub fn third_solids_after_the_number() -> Vec<Choice<&'static [u32]>> {
    vec![
        (&[TETRA, 7, 160, 161, 162, 170], &[19]),
        (&[PYRA, 7, 160, 170, 171, 161, 162], &[19]),
        (&[TETRA, 7, 160, 161, 162], &[7, 19]),
        (&[TETRA, 7, 160, 161, 162, ABOVE_ALL], &[8, 19]),
        (&[TETRA, 7, 160, 161, 162, 160], &[9, 19]),
        (&[TETRA, 7, 163, 162, 161, 160], &[10, 19]),
        (&[TETRA, 7, 10, 165, 166, 170], &[19, 11]),
    ]
}

pub struct Pairs {
    order: &'static [u8],
    answered: BTreeSet<u8>,
    shown: BTreeSet<(u8, u8)>,
    accepted: bool,
}

impl Pairs {
    pub fn in_order(order: &'static [u8]) -> Pairs {
        Pairs {
            order,
            answered: BTreeSet::new(),
            shown: BTreeSet::new(),
            accepted: false,
        }
    }

    /// One call: the faults of each of its arguments, and its refusal if any.
    pub fn see(&mut self, faults: &[&[u8]], answer: Option<Refusal>) {
        let faults = faults.concat();
        let unlisted = faults.iter().find(|fault| !self.order.contains(fault));
        assert_eq!(unlisted, None, "a fault that is not of this call");
        let in_order = self.order.iter().filter(|fault| faults.contains(fault));
        let held: Vec<u8> = in_order.copied().collect();
        let due = held.first().map(|fault| fault % 100);
        let given = answer.map(Refusal::number);
        assert_eq!(given, due, "a call with the faults {held:?}");
        match held.as_slice() {
            [] => self.accepted = true,
            [earliest, later @ ..] => {
                self.answered.insert(*earliest);
                self.shown
                    .extend(later.iter().map(|fault| (*earliest, *fault)));
            }
        }
    }

    /// The end of the test. `never` lists the pairs that no call can show, each
    /// with the reason.
    pub fn end(self, never: &[(u8, u8, &str)]) {
        assert!(self.accepted, "no call without a fault was made");
        for (place, &earlier) in self.order.iter().enumerate() {
            assert!(self.answered.contains(&earlier), "{earlier} never answered");
            for &later in &self.order[place + 1..] {
                let shown = self.shown.contains(&(earlier, later));
                let listed = never.iter().any(|&(a, b, _)| (a, b) == (earlier, later));
                assert!(shown || listed, "{earlier} before {later} not shown");
                assert!(!(shown && listed), "{earlier} with {later} does occur");
            }
        }
        for &(a, b, why) in never {
            let place = |fault| self.order.iter().position(|&it| it == fault);
            let is_pair = place(a).is_some() && place(a) < place(b);
            assert!(
                is_pair && !why.is_empty(),
                "{a}, {b} is no pair of this call"
            );
        }
    }
}

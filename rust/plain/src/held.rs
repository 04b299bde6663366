//! The faults held in a search: Card 1 of document 02, "Faults already excluded
//! on the phone".

use crate::field::MOST_ABDUCIBLES;
use crate::program::Program;
use crate::refusal::FreshRefusal;
use crate::scenario::{digits, Digit};

/// Two 16-bit masks, bit i for the i-th abducible.
#[derive(Clone, Copy, Debug, PartialEq, Eq, Hash)]
pub struct Held {
    /// Faults held as assumed (digit 1).
    pub assumed: u16,
    /// Faults held as ruled out (digit 2).
    pub ruled: u16,
}

impl Held {
    /// No fault is held.
    pub const NONE: Held = Held {
        assumed: 0,
        ruled: 0,
    };

    /// 15 when the masks share a bit, then 16 when a bit at or above k is set.
    pub fn test(self, program: &Program) -> Result<(), FreshRefusal> {
        if self.assumed & self.ruled != 0 {
            return Err(FreshRefusal::SharedBit);
        }
        let either = u32::from(self.assumed | self.ruled);
        if either >> program.abducibles.len() != 0 {
            return Err(FreshRefusal::UnlistedBit);
        }
        Ok(())
    }

    /// Whether the scenario's digit at each held fault is the held one. One whose
    /// digit at a held fault is another, 0 too, does not agree.
    pub fn agrees(self, scenario: u32) -> bool {
        let mut digits = digits(scenario, MOST_ABDUCIBLES).into_iter().enumerate();
        digits.all(|(abducible, digit)| {
            let as_assumed = !has_bit(self.assumed, abducible) || digit == Digit::Assumed;
            let as_ruled_out = !has_bit(self.ruled, abducible) || digit == Digit::RuledOut;
            as_assumed && as_ruled_out
        })
    }
}

fn has_bit(mask: u16, bit: usize) -> bool {
    mask >> bit & 1 == 1
}

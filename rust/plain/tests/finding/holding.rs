//! Records and masks of searches with held faults and without.

use plain::{encode_file, Held, Program, Record};
use random::Random;

/// The faults held by these masks.
pub fn held(assumed: u16, ruled: u16) -> Held {
    Held { assumed, ruled }
}

/// A fresh search over the program that holds these faults.
pub fn fresh_holding(program: &Program, held: Held) -> Record {
    let record = plain::fresh(&encode_file(program), held.assumed, held.ruled);
    record.expect("masks that are accepted")
}

/// A fresh search over the program that holds no fault.
pub fn fresh(program: &Program) -> Record {
    fresh_holding(program, Held::NONE)
}

/// The record of a search that holds these faults.
pub fn at_holding(position: u32, found: u32, held: Held) -> Record {
    Record {
        position,
        found,
        assumed: held.assumed,
        ruled: held.ruled,
    }
}

/// The record of a search that holds no fault.
pub fn at(position: u32, found: u32) -> Record {
    at_holding(position, found, Held::NONE)
}

/// Whether the scenario's digit, found by division, is 1 at each fault held as
/// assumed and 2 at each held as ruled out.
pub fn agrees(held: Held, scenario: u32) -> bool {
    let has_digit = |mask: u16, digit: u32| {
        let mut bits = (0..16).filter(|&bit| mask & (1 << bit) != 0);
        bits.all(|bit| scenario / 3_u32.pow(bit) % 3 == digit)
    };
    has_digit(held.assumed, 1) && has_digit(held.ruled, 2)
}

/// How a test chooses the faults that a search over the program holds.
pub type Choice = fn(&mut Random, &Program) -> Held;

/// Holds no fault, and takes no random number.
pub fn none(_: &mut Random, _: &Program) -> Held {
    Held::NONE
}

/// Random masks that a fresh search over the program accepts. One abducible, where
/// there is any, is held, each other less often.
pub fn masks(random: &mut Random, program: &Program) -> Held {
    let mut held = Held::NONE;
    let abducibles = program.abducibles.len();
    let sure = random.below(abducibles.max(1));
    for abducible in 0..abducibles {
        let choices = if abducible == sure { 2 } else { 10 };
        match random.below(choices) {
            0 => held.assumed |= 1 << abducible,
            1 => held.ruled |= 1 << abducible,
            _ => {}
        }
    }
    held
}

//! Searches of not p4 that hold faults, as Card 1 of document 02 has them, and
//! masks with which there is none.
//!
//! Its abducibles are a and b. 2, 5 and 8 have a ruled out, and of these only 5,
//! which assumes b, explains: 3, which is part of it, does not agree. The models
//! of 0, 2 and 6 take one round, the others two.

use crate::continuing::State::{self, Ended, Full};
use crate::lent::list_pattern;

/// The bits of the abducibles.
pub const A: u16 = 0b01;
pub const B: u16 = 0b10;

/// A fresh search in one call that allows more than there is to try, and what it
/// gives.
#[derive(Clone, Copy, Debug)]
pub struct Holding {
    /// The masks of the faults held as assumed and as ruled out.
    pub masks: (u16, u16),
    pub list_length: usize,
    pub tried: u32,
    pub rounds: u64,
    pub state: State,
    pub found: &'static [u32],
}

/// Makes each of these searches by a finder, which is given the masks and the
/// list and tells the scenarios tried, their rounds, the state and how many were
/// found, and checks what comes of it.
pub fn each(
    searches: &[Holding],
    mut search: impl FnMut((u16, u16), &mut [u32]) -> (u32, u64, State, u32),
) {
    for holding in searches {
        let mut list = list_pattern(holding.list_length);
        let given = search(holding.masks, &mut list);
        let found = holding.found.len();
        let expected = (holding.tried, holding.rounds, holding.state, found as u32);
        assert_eq!(given, expected, "{holding:?}");
        assert_eq!(list[..found], *holding.found, "{holding:?}");
        let beyond = &list_pattern(holding.list_length)[found..];
        assert_eq!(list[found..], *beyond, "{holding:?}");
    }
}

const fn holding(
    masks: (u16, u16),
    list_length: usize,
    (tried, rounds, state): (u32, u64, State),
    found: &'static [u32],
) -> Holding {
    Holding {
        masks,
        list_length,
        tried,
        rounds,
        state,
        found,
    }
}

pub const HOLDINGS: &[Holding] = &[
    holding((0, 0), 4, (9, 15, Ended), &[1, 3]),
    holding((A, 0), 4, (9, 6, Ended), &[1]),
    holding((0, A), 4, (9, 5, Ended), &[5]),
    holding((B, 0), 4, (9, 6, Ended), &[3]),
    holding((0, B), 4, (9, 5, Ended), &[7]),
    holding((A, B), 4, (9, 2, Ended), &[7]),
    holding((A | B, 0), 4, (9, 2, Ended), &[4]),
    holding((0, A | B), 4, (9, 2, Ended), &[]),
    // What does not agree is no stopping point, so neither 1 nor 3 is one.
    holding((0, A), 1, (9, 5, Ended), &[5]),
    holding((0, A), 0, (5, 1, Full), &[]),
    holding((A, 0), 0, (1, 0, Full), &[]),
    holding((0, A | B), 0, (9, 2, Ended), &[]),
];

/// Masks with which a fresh search over its file is refused, and the number; a
/// record that has them is spoilt.
pub const REFUSED_MASKS: &[((u16, u16), u8)] = &[
    ((A, A), 15),
    ((B, A | B), 15),
    ((u16::MAX, u16::MAX), 15),
    // 16 would refuse these too.
    ((0b101, 0b100), 15),
    ((0b101, 0b001), 15),
    ((1 << 15, 1 << 15), 15),
    ((0b101, 0b010), 16),
    ((0b100, 0), 16),
    ((0, 0b100), 16),
    ((A, 1 << 15), 16),
    ((1 << 15, B), 16),
    ((0x5555, 0xAAAA), 16),
];

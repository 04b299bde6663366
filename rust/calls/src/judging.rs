//! The reference calls that judge a scenario.

use crate::programs::{Source, CONTRADICTION, CONTRADICTION_ALONE, DESK, EXAMPLE_2_1, EXAMPLE_3_1};

/// A call and what it gives.
#[derive(Clone, Copy, Debug)]
pub struct Judging {
    pub program: Source,
    pub query: &'static str,
    pub scenario: u32,
    pub explains: bool,
    pub rounds: u64,
    pub model: &'static [u8],
    pub dual_length: usize,
}

pub const JUDGINGS: &[Judging] = &[
    OF_EXAMPLE_2_1,
    Judging {
        query: "c, -b, not b",
        ..OF_EXAMPLE_2_1
    },
    // What is undefined does not hold, and its not does not either.
    Judging {
        query: "a",
        explains: false,
        ..OF_EXAMPLE_2_1
    },
    Judging {
        query: "not a",
        explains: false,
        ..OF_EXAMPLE_2_1
    },
    Judging {
        program: EXAMPLE_3_1,
        query: "s",
        scenario: 0,
        explains: true,
        rounds: 2,
        model: &[1, 2, 2, 2, 2, 2, 2, 2, 2],
        // 08 with one fold for each atom, 09 with three literals twice and
        // with two literals twice, 08 for each negation and for falsum.
        dual_length: 4 * 7 + (2 * 11 + 2 * 9) + 5 * 5 + 3,
    },
    OF_CONTRADICTION,
    OF_CONTRADICTION_ALONE,
    // A byte 3 of an atom that the query does not touch, or touches by not.
    Judging {
        query: "a",
        ..OF_CONTRADICTION_ALONE
    },
    Judging {
        query: "not d",
        ..OF_CONTRADICTION_ALONE
    },
    Judging {
        query: "",
        ..OF_CONTRADICTION_ALONE
    },
    // With a ruled out nothing is both.
    Judging {
        query: "-d",
        scenario: 2,
        explains: true,
        rounds: 1,
        model: &[2, 1, 2, 1, 2],
        ..OF_CONTRADICTION_ALONE
    },
    Judging {
        program: DESK,
        query: "p",
        scenario: 1,
        explains: true,
        rounds: 1,
        model: &[1, 2, 1, 2, 2],
        dual_length: (7 + 7) + 5 + 5 + 3,
    },
];

const OF_EXAMPLE_2_1: Judging = Judging {
    program: EXAMPLE_2_1,
    query: "c",
    scenario: 0,
    explains: true,
    rounds: 3,
    model: &[0, 2, 2, 1, 1, 2, 2],
    dual_length: 60,
};

/// All is true in round 1; d and -d, and with them falsum, are false in 2.
const OF_CONTRADICTION: Judging = Judging {
    program: CONTRADICTION,
    query: "d",
    scenario: 1,
    explains: false,
    rounds: 2,
    model: &[1, 2, 3, 3, 3],
    dual_length: (7 + 7) + (7 + 9) + 3,
};

/// Falsum is 2 and d holds, and so it was an explanation before Card 3.
const OF_CONTRADICTION_ALONE: Judging = Judging {
    program: CONTRADICTION_ALONE,
    model: &[1, 2, 3, 3, 2],
    dual_length: (7 + 7) + 5 + 3,
    ..OF_CONTRADICTION
};

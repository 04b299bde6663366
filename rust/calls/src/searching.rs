//! The reference calls that search among all scenarios.

use crate::programs::{
    Source, CONTRADICTION, CONTRADICTION_ALONE, DESK, EXAMPLE_3_2, P0, P11, P3, P4, P8,
};

/// A program and query, and what a fresh search gives.
#[derive(Clone, Copy, Debug)]
pub struct Searching {
    pub program: Source,
    pub query: &'static str,
    /// 3^k, which are all tried.
    pub scenarios: u32,
    /// The minimal explanations, rising.
    pub found: &'static [u32],
}

const fn searching(
    program: Source,
    query: &'static str,
    scenarios: u32,
    found: &'static [u32],
) -> Searching {
    Searching {
        program,
        query,
        scenarios,
        found,
    }
}

pub const OF_NOT_P4: Searching = searching(P4, "not p4", 9, &[1, 3]);

pub const OF_DESK: Searching = searching(DESK, "p", 3, &[1]);

pub const SEARCHINGS: &[Searching] = &[
    searching(EXAMPLE_3_2, "q", 9, &[5]),
    // Scenario 2, [not a], is none: then p0 and q0 are undefined with b.
    searching(P0, "not p0", 9, &[8]),
    OF_NOT_P4,
    searching(P8, "q8", 9, &[2, 3]),
    searching(P11, "not q11", 3, &[1, 2]),
    searching(P3, "p3", 1, &[]),
    searching(P3, "not p3", 1, &[]),
    searching(CONTRADICTION, "d", 3, &[]),
    // Card 3: the one scenario that makes d true makes it false as well.
    searching(CONTRADICTION_ALONE, "d", 3, &[]),
    searching(CONTRADICTION_ALONE, "a", 3, &[]),
    searching(CONTRADICTION_ALONE, "-d", 3, &[0]),
    searching(CONTRADICTION_ALONE, "-d, -a", 3, &[2]),
    OF_DESK,
];

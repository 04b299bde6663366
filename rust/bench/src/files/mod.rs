//! The files that are measured.
//!
//! * [`seeded`] are made from a seed, in three sizes;
//! * [`many_finds`] has hundreds of smallest explanations;
//! * [`layered`] has layers that are settled one after the other;
//! * [`largest`] has as much as a file can have;
//! * [`there_and_back`] takes the longest for one scenario.

pub mod largest;
pub mod layered;
pub mod many_finds;
pub mod seeded;
pub mod there_and_back;

use plain::{encode_file, encode_sheet, scenario_count, Program, Query};

/// Papers that are accepted.
pub struct Papers {
    pub name: &'static str,
    pub file: Vec<u8>,
    pub sheet: Vec<u8>,
    pub program: Program,
    pub query: Query,
    pub scenarios: u32,
}

impl Papers {
    pub fn new(name: &'static str, program: Program, query: Query) -> Self {
        Papers {
            name,
            file: encode_file(&program),
            sheet: encode_sheet(&query),
            scenarios: scenario_count(&program),
            program,
            query,
        }
    }

    /// Papers whose query is empty.
    pub fn without_query(name: &'static str, program: Program) -> Self {
        Papers::new(name, program, Query { literals: vec![] })
    }
}

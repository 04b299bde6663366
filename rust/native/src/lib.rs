//! A finder without proofs, written straight from document 01 for speed: 64
//! scenarios to a word, bit l of a literal's word for the scenario in lane l.
//!
//! It goes through whole searches over papers that are read already, and is
//! lent nothing: what the library does beside that counts against the library.
//!
//! * [`program`] has the rules as numbers, [`digits`] what the scenarios assume;
//! * [`model`] settles 64 scenarios, and [`search`] goes through all of them.

#![forbid(unsafe_code)]

mod digits;
mod model;
mod program;
mod search;

pub use search::{search, Found};

//! The reference calls of document 01: programs and queries as it writes them,
//! their papers, and what it says that the calls give; and calls of document 02.
//!
//! * [`text`] makes papers of programs and queries;
//! * [`programs`] are the programs of the calls;
//! * [`judging`] are the calls that judge a scenario, [`searching`] those that
//!   search among all, [`continuing`] those that go on with a search, and
//!   [`holding`] those that hold faults;
//! * [`lent`] fills what is lent.
//!
//! Nothing here comes from a finder, so that any can be tested with it.

#![forbid(unsafe_code)]

pub mod continuing;
pub mod holding;
pub mod judging;
pub mod lent;
pub mod programs;
pub mod searching;
pub mod text;

pub use judging::{Judging, JUDGINGS};
pub use programs::Source;
pub use searching::{Searching, SEARCHINGS};
pub use text::{file, sheet};

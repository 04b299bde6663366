//! Makes the two papers of document 01 of rules written as text with names,
//! which `examples/README.md` describes.
//!
//! * [`tokens`] takes the text apart;
//! * [`mod@parse`] makes a call of it, or tells the [`mistake`] in it;
//! * [`typed`] writes its rules as Card 4 of document 02 has them typed;
//! * [`call`] is a call. Its rule file is what `finder` imports these rules as;
//!   its query sheet is written here.

#![forbid(unsafe_code)]

pub mod call;
pub mod mistake;
pub mod parse;
pub mod tokens;
pub mod typed;

pub use call::{Call, Literal, Objective, Rule};
pub use mistake::Mistake;
pub use parse::parse;

//! Whether the names on a page of `docs/` stand where it says.
//!
//! * [`tree`] has the files of the project, [`code`] their lines and words that
//!   are no comments;
//! * [`antt`] and [`rust`] find what a file defines, [`definitions`] has it of all
//!   files, and [`project`] is asked for it;
//! * [`page`] takes a page apart into its code spans and what is between them,
//!   [`span`] tells what kind each is, and [`said`] what the page says of it;
//! * [`claims`] checks all that.

#![forbid(unsafe_code)]

pub mod antt;
pub mod claims;
pub mod code;
pub mod definitions;
pub mod page;
pub mod project;
pub mod rust;
pub mod said;
pub mod span;
pub mod tree;

//! A separate fault finder, written from documents 01 and 02 alone.
//!
//! It is meant to be compared with, so it is written to be read against the
//! documents line by line; speed comes second. Each part of document 01 has
//! its module here:
//!
//! * "Numberings" is [`numbering`];
//! * "The file and the sheet" is [`field`], [`program`], [`refusal`],
//!   [`read`] and [`mod@write`];
//! * "The dual table" is [`mod@dual`];
//! * "Scenarios and the model" is [`scenario`], [`sets`] and [`mod@model`],
//!   with falsity from the dual in [`falsity`];
//! * "The search" is [`search`], and what the desk program prints [`mod@desk`].
//!
//! Of document 02, Card 1 is [`held`], which [`search`] goes by, Card 3 is
//! [`Model::is_contradictory`], which [`Model::explains`] goes by, Card 4 is
//! [`mod@import`], which goes by the tokens of [`tokens`], and Card 5 is
//! [`BodyLiteral`], of which the bodies of a [`Program`] are made.

#![forbid(unsafe_code)]

pub mod desk;
pub mod dual;
pub mod falsity;
pub mod field;
pub mod held;
pub mod import;
pub mod model;
pub mod numbering;
pub mod program;
pub mod read;
pub mod refusal;
pub mod scenario;
pub mod search;
pub mod sets;
pub mod tokens;
pub mod write;

pub use desk::desk;
pub use dual::{dual, write_dual, Dual, Entry, Folding};
pub use falsity::next_false_by_dual;
pub use held::Held;
pub use import::{import, import_text};
pub use model::{explains, judge, model, Interpretation, Judgement, Model};
pub use numbering::{Atom, BodyLiteral, Fold, Form, Literal, ObjectiveLiteral, UNDEFINED};
pub use program::{Program, Query, Rule};
pub use read::{read_file, read_papers, read_sheet, rest_of_paper};
pub use refusal::{
    ContinueRefusal, FreshRefusal, ImportRefusal, JudgeRefusal, Number, Paper, Refusal,
    TextRefusal, WriteRefusal,
};
pub use scenario::{contains_assumptions, digits, scenario_count, Digit, Valuation, Value};
pub use search::{
    continue_search, explanations, fresh, fresh_over, minimal_explanations, minimal_of,
    stopping_point, Continued, Record, Search, State,
};
pub use sets::JudgedSet;
pub use write::{encode_dual, encode_file, encode_sheet};

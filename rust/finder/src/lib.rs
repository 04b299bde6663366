//! The fault finder behind its C boundary, made safe to call.
//!
//! Documents 01 and 02 say what the calls mean, include/finder.h how they cross
//! the boundary. Each call of the header has its module here.

mod boundary;
pub mod dual;
pub mod fresh;
pub mod import;
pub mod judge;
pub mod refusal;
pub mod rest;
pub mod search;

pub use boundary::SLOTS;
pub use dual::{write_dual, write_dual_words, WriteRefusal};
pub use fresh::{fresh, fresh_words, FreshRefusal};
pub use import::{import_text, import_words, ImportRefusal, LONGEST_FILE};
pub use judge::{judge, judge_words, JudgeRefusal, Judgement};
pub use refusal::{Paper, Refusal, TextRefusal};
pub use rest::{rest, rest_words, Answer};
pub use search::{continue_search, continue_words, ContinueRefusal, Continued, Record, State};

//! Random papers on which the separate finder and the finder behind the C
//! boundary must agree, and a count of what they reached.
//!
//! * [`programs`] makes programs and queries, within and around the limits;
//!   [`causes`] small ones in which much follows, and [`edges`] the largest, by
//!   hand;
//! * [`fields`] takes papers apart, [`places`] says where to damage them, and
//!   [`damage`] damages their bytes, fields and numbers;
//! * [`noise`] makes bytes that were never a paper;
//! * [`rounds`] puts these together into pairs of papers, and [`files`] into
//!   files for their duals; [`masks`] makes those of held faults, and
//!   [`searches`] calls that continue searches;
//! * [`typing`] types programs as text, [`text_limits`] adds too much to them and
//!   [`text_damage`] damages their lines, tokens and bytes; [`texts`] puts these
//!   together;
//! * [`lent`] makes the buffers and lists that are lent;
//! * [`examples`] are calls that were not made at random;
//! * [`definition`] is what a whole search must come to, however it is sliced;
//! * [`comparison`] is what all comparisons do, with the [`words`] that must
//!   come, and `run` what they print as tests;
//! * [`coverage`] counts which answers came to pairs of papers, and knows which
//!   must; [`dual_coverage`] does so for the writing of duals, [`judge_coverage`]
//!   for judging, with what [`judged`] scenarios have, [`fresh_coverage`] for
//!   beginning a search and [`search_coverage`] for continuing it, with
//!   [`held_coverage`] for what held faults do and [`spoilt`] for test 14, and
//!   [`text_coverage`] for importing; all but the first with the counts of
//!   [`tally`], and where something is written with those of [`buffers`];
//!   [`undefined_coverage`] counts where FFFF stood;
//! * [`surveyed`] is what stands in a text, and with it [`broken_texts`],
//!   [`unfit_texts`] and [`imported_texts`] are what texts have that are refused by
//!   17 or 18, refused by the file's own numbers, and accepted.

#![forbid(unsafe_code)]

pub mod broken_texts;
pub mod buffers;
pub mod causes;
pub mod comparison;
pub mod coverage;
pub mod damage;
pub mod definition;
pub mod dual_coverage;
pub mod edges;
pub mod examples;
pub mod fields;
pub mod files;
pub mod fresh_coverage;
pub mod held_coverage;
pub mod imported_texts;
pub mod judge_coverage;
pub mod judged;
pub mod lent;
pub mod masks;
pub mod noise;
pub mod places;
pub mod programs;
pub mod rounds;
mod run;
pub mod search_coverage;
pub mod searches;
pub mod spoilt;
pub mod surveyed;
pub mod tally;
pub mod text_coverage;
pub mod text_damage;
pub mod text_limits;
pub mod texts;
pub mod typing;
pub mod undefined_coverage;
pub mod unfit_texts;
pub mod words;

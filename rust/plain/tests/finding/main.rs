//! Judging, searching and the desk.
//!
//! The first modules are what the others use: the example of document 01, bytes
//! by hand, records and masks, calls that check what must stay in lent buffers,
//! random programs, programs as text, and what an explanation is by the bytes.

#[path = "../example/mod.rs"]
mod example;
#[path = "../hand/mod.rs"]
mod hand;
mod holding;
mod lent;
mod programs;
mod text;
mod verdict;

mod contradiction;
mod desk;
mod edges;
mod falsity;
mod fresh;
mod held;
mod judging;
mod least;
mod records;
mod reference;
mod searching;
mod undefined;

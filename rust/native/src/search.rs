//! A whole search.

use plain::Query;

use crate::digits::{digits, Assumptions};
use crate::model::Settling;
use crate::program::{Body, Program};

/// What came of a search that ended.
#[derive(Clone, Debug, PartialEq, Eq)]
pub struct Found {
    /// The minimal explanations, rising.
    pub scenarios: Vec<u32>,
    pub tried: u64,
    pub rounds: u64,
}

/// All scenarios of a program, 64 at a time.
pub fn search(program: &plain::Program, query: &Query) -> Found {
    let program = Program::new(program);
    let query = Body::of_query(&query.literals);
    let count = program.scenarios();
    let mut settling = Settling::new(&program);
    let mut listed: Vec<Assumptions> = vec![];
    let mut found = Found {
        scenarios: vec![],
        tried: count.into(),
        rounds: 0,
    };
    for base in (0..count).step_by(64) {
        let lanes = (count - base).min(64) as usize;
        let digits = digits(base, program.abducibles.len());
        settling.settle(&program, &digits);
        found.rounds += settling.rounds[..lanes].iter().sum::<u64>();
        let explained = explained(&program, &query, &settling);
        for lane in (0..lanes).filter(|lane| explained >> lane & 1 == 1) {
            let these = Assumptions::of_lane(&digits, lane);
            if !listed.iter().any(|&entry| these.contain(entry)) {
                listed.push(these);
                found.scenarios.push(base + lane as u32);
            }
        }
    }
    found
}

/// The lanes in which falsum is false and not true, the query holds, and no
/// literal is both.
fn explained(program: &Program, query: &Body, settling: &Settling) -> u64 {
    let falsum = program.falsum();
    let lanes = settling.f[falsum] & !settling.t[falsum];
    let holding = query.lanes(lanes, &settling.t, &settling.f);
    let literals = settling.t.iter().zip(&settling.f);
    let both = literals.fold(0, |both, (t, f)| both | t & f);
    holding & !both
}

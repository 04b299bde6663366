//! What the desk program prints.

use crate::dual::LONGEST_DUAL;
use crate::program::{Program, Query};
use crate::read::read_papers;
use crate::scenario::{digits, scenario_count, Digit};
use crate::search::{fresh_over, Search, State};

/// The bytes of a paper that are read. No accepted paper is longer.
pub const READ_BYTES: usize = 65_536;
/// L.
pub const LIST_LENGTH: usize = 1_024;
/// Of each continue call.
pub const ALLOWANCE: u32 = 4_096;

/// What the desk program prints where the files `causes` and `sheet` hold these
/// bytes; one that can't be read is none here, and counts as empty.
pub fn desk(causes: Option<&[u8]>, sheet: Option<&[u8]>) -> String {
    match read_papers(first_bytes(causes), first_bytes(sheet)) {
        Ok((program, query)) => report(program, query),
        Err(refusal) => format!("{refusal}\n"),
    }
}

fn first_bytes(paper: Option<&[u8]>) -> &[u8] {
    let bytes = paper.unwrap_or(&[]);
    &bytes[..bytes.len().min(READ_BYTES)]
}

fn report(program: Program, query: Query) -> String {
    let first_line = format!(
        "atoms {} abducibles {} scenarios {}\n",
        program.atoms,
        program.abducibles.len(),
        scenario_count(&program)
    );
    let search = search_whole(program.clone(), query);
    let found_lines = search
        .found
        .iter()
        .map(|&entry| found_line(&program, entry));
    let last_line = format!(
        "{} tried {} rounds {}\n",
        search.state, search.tried, search.rounds
    );
    first_line + &found_lines.collect::<String>() + &last_line
}

/// The word found, the scenario, then each assumed (+) or ruled-out (-) atom,
/// rising.
fn found_line(program: &Program, scenario: u32) -> String {
    let mut line = format!("found {scenario}");
    let digits = digits(scenario, program.abducibles.len());
    for (atom, digit) in program.abducibles.iter().zip(digits) {
        match digit {
            Digit::Open => {}
            Digit::Assumed => line += &format!(" {}+", atom.0),
            Digit::RuledOut => line += &format!(" {}-", atom.0),
        }
    }
    line + "\n"
}

struct WholeSearch {
    found: Vec<u32>,
    /// The last call's state.
    state: State,
    /// The sums over all calls.
    tried: u64,
    rounds: u64,
}

/// Continues a fresh search, with no fault held, until ended or full.
fn search_whole(program: Program, query: Query) -> WholeSearch {
    let mut search = Search::new(program, query);
    let mut dual = vec![0; LONGEST_DUAL];
    let mut list = vec![0; LIST_LENGTH];
    let mut record = fresh_over(search.program(), 0, 0).expect("masks without a bit");
    let (mut tried, mut rounds) = (0, 0);
    loop {
        let continued = search
            .continue_search(&mut dual, &mut list, record, ALLOWANCE)
            .expect("the dual has room and the record is reached from a fresh one");
        record = continued.record;
        tried += u64::from(continued.tried);
        rounds += continued.rounds;
        if continued.state != State::Going {
            list.truncate(record.found as usize);
            return WholeSearch {
                found: list,
                state: continued.state,
                tried,
                rounds,
            };
        }
    }
}

//! The search.
//!
//! What an explanation is, [`crate::Model::explains`] alone says; a contradictory
//! scenario is none, and its rounds count as those of any other.
//!
//! [`minimal_explanations`] and [`stopping_point`] are the definition: all
//! explanations of that search first, then the minimal ones. Continuing goes by
//! the general rule, which holds for any record that passes test 14; on a search
//! reached from a fresh one the two agree, and the tests compare them there.

use std::collections::HashMap;
use std::fmt;

use crate::dual::dual;
use crate::held::Held;
use crate::model::{explains, Judgement};
use crate::program::{Program, Query};
use crate::read::{read_file, read_papers};
use crate::refusal::{ContinueRefusal, FreshRefusal};
use crate::scenario::{contains_assumptions, scenario_count};
use crate::write::encode_dual;

/// All explanations of a search with these held faults, rising. A scenario that
/// does not agree is none.
pub fn explanations(program: &Program, query: &Query, held: Held) -> Vec<u32> {
    (0..scenario_count(program))
        .filter(|&scenario| held.agrees(scenario) && explains(program, query, scenario))
        .collect()
}

/// The minimal explanations of a search with these held faults, rising.
pub fn minimal_explanations(program: &Program, query: &Query, held: Held) -> Vec<u32> {
    minimal_of(&explanations(program, query, held))
}

/// An explanation is minimal if no other explanation has only part of its
/// assumptions; all explanations of the search are given.
pub fn minimal_of(explanations: &[u32]) -> Vec<u32> {
    let is_minimal = |scenario: u32| {
        !explanations
            .iter()
            .any(|&other| other != scenario && contains_assumptions(scenario, other))
    };
    let mut minimal = explanations.to_vec();
    minimal.retain(|&scenario| is_minimal(scenario));
    minimal
}

/// The stopping point of a search reached from a fresh one: the number of its
/// minimal explanation L+1 in rising order, else 3^k.
pub fn stopping_point(program: &Program, minimal: &[u32], list_length: usize) -> u32 {
    match minimal.get(list_length) {
        Some(&scenario) => scenario,
        None => scenario_count(program),
    }
}

/// How far a search has come.
#[derive(Clone, Copy, Debug, PartialEq, Eq)]
pub struct Record {
    pub position: u32,
    pub found: u32,
    /// The mask of the faults held as assumed.
    pub assumed: u16,
    /// The mask of the faults held as ruled out.
    pub ruled: u16,
}

impl Record {
    pub fn held(self) -> Held {
        Held {
            assumed: self.assumed,
            ruled: self.ruled,
        }
    }
}

/// A fresh search takes the file and two masks. These are refused after the
/// file's own checks.
pub fn fresh(file: &[u8], assumed: u16, ruled: u16) -> Result<Record, FreshRefusal> {
    let program = read_file(file).map_err(FreshRefusal::File)?;
    fresh_over(&program, assumed, ruled)
}

/// Begins as [`fresh`] does with the program's file. Fresh record: position 0,
/// found 0, and both masks.
pub fn fresh_over(program: &Program, assumed: u16, ruled: u16) -> Result<Record, FreshRefusal> {
    let record = Record {
        position: 0,
        found: 0,
        assumed,
        ruled,
    };
    record.held().test(program)?;
    Ok(record)
}

/// What became of a call.
#[derive(Clone, Copy, Debug, PartialEq, Eq)]
pub enum State {
    Ended,
    Full,
    Going,
}

impl fmt::Display for State {
    fn fmt(&self, f: &mut fmt::Formatter) -> fmt::Result {
        f.write_str(match self {
            State::Ended => "ended",
            State::Full => "full",
            State::Going => "going",
        })
    }
}

/// What continuing reports.
#[derive(Clone, Copy, Debug, PartialEq, Eq)]
pub struct Continued {
    /// The new record: its position is the old one plus tried, its masks are the
    /// old ones.
    pub record: Record,
    pub tried: u32,
    /// The round counts of the scenarios tried added up, that of one that does
    /// not agree taken as zero.
    pub rounds: u64,
    pub state: State,
}

/// Continues the search of the record. Leaves the dual at the start of the dual
/// buffer and adds to the list, whose entries beyond found stay; where
/// continuing is refused both stay.
pub fn continue_search(
    file: &[u8],
    sheet: &[u8],
    dual_buffer: &mut [u8],
    list: &mut [u32],
    record: Record,
    allowance: u32,
) -> Result<Continued, ContinueRefusal> {
    let (program, query) = read_papers(file, sheet).map_err(ContinueRefusal::Papers)?;
    Search::new(program, query).continue_search(dual_buffer, list, record, allowance)
}

/// Both papers, read once for many calls.
#[derive(Clone, Debug)]
pub struct Search {
    program: Program,
    query: Query,
    dual: Vec<u8>,
    /// The judgement of each scenario judged so far, where they are kept.
    kept: Option<HashMap<u32, Judgement>>,
}

impl Search {
    /// Judges a scenario each time that a call looks at it.
    pub fn new(program: Program, query: Query) -> Self {
        Search {
            dual: encode_dual(&dual(&program)),
            program,
            query,
            kept: None,
        }
    }

    /// Judges a scenario only the first time that a call looks at it.
    pub fn keeping(program: Program, query: Query) -> Self {
        Search {
            kept: Some(HashMap::new()),
            ..Search::new(program, query)
        }
    }

    pub fn program(&self) -> &Program {
        &self.program
    }

    /// Continues as [`continue_search`] does with the two papers.
    pub fn continue_search(
        &mut self,
        dual_buffer: &mut [u8],
        list: &mut [u32],
        record: Record,
        allowance: u32,
    ) -> Result<Continued, ContinueRefusal> {
        let Some(dual_start) = dual_buffer.get_mut(..self.dual.len()) else {
            return Err(ContinueRefusal::ShortDual);
        };
        if self.is_spoilt(list, record) {
            return Err(ContinueRefusal::SpoiltSearch);
        }
        dual_start.copy_from_slice(&self.dual);
        Ok(self.try_scenarios(list, record, allowance))
    }

    /// Test 14: position above 3^k, found above list length, the first found
    /// entries not strictly rising or not all below position, or masks that 15 or
    /// 16 would refuse.
    fn is_spoilt(&self, list: &[u32], record: Record) -> bool {
        let Some(entries) = list.get(..record.found as usize) else {
            return true;
        };
        let are_rising = entries.windows(2).all(|pair| pair[0] < pair[1]);
        let are_below = entries.iter().all(|&entry| entry < record.position);
        record.position > scenario_count(&self.program)
            || !are_rising
            || !are_below
            || record.held().test(&self.program).is_err()
    }

    /// Tries min(w, stop - p) scenarios and adds to the list those that are
    /// minimal: explanations of that search containing no listed entry's
    /// assumptions, listed entries including those this call adds. The stopping
    /// point is the first of these that finds the list full, else 3^k. It is
    /// looked at but not tried and adds no rounds.
    fn try_scenarios(&mut self, list: &mut [u32], mut record: Record, allowance: u32) -> Continued {
        let mut tried = 0;
        let mut rounds = 0;
        while tried < allowance && record.position < scenario_count(&self.program) {
            let scenario = record.position;
            let judgement = self.judgement_in_search(scenario, record.held());
            let listed = &list[..record.found as usize];
            if judgement.explains && !contains_listed(scenario, listed) {
                let Some(entry) = list.get_mut(record.found as usize) else {
                    break;
                };
                *entry = scenario;
                record.found += 1;
            }
            record.position += 1;
            tried += 1;
            rounds += judgement.rounds;
        }
        Continued {
            record,
            tried,
            rounds,
            state: self.state(record.position, tried, allowance),
        }
    }

    /// Ended: position is 3^k. Full: not ended and tried is below the
    /// allowance. Else going.
    fn state(&self, position: u32, tried: u32, allowance: u32) -> State {
        if position == scenario_count(&self.program) {
            State::Ended
        } else if tried < allowance {
            State::Full
        } else {
            State::Going
        }
    }

    /// What a search with these held faults takes the scenario's judgement as: one
    /// that does not agree has zero rounds and is no explanation of that search.
    fn judgement_in_search(&mut self, scenario: u32, held: Held) -> Judgement {
        if held.agrees(scenario) {
            self.judgement(scenario)
        } else {
            Judgement {
                explains: false,
                rounds: 0,
            }
        }
    }

    /// The judgement of the scenario, which is below 3^k, whatever is held.
    pub fn judgement(&mut self, scenario: u32) -> Judgement {
        let judge = || Judgement::of(&self.program, &self.query, scenario);
        match &mut self.kept {
            Some(kept) => *kept.entry(scenario).or_insert_with(judge),
            None => judge(),
        }
    }

    /// All explanations of a search with these held faults, rising.
    pub fn explanations(&mut self, held: Held) -> Vec<u32> {
        (0..scenario_count(&self.program))
            .filter(|&scenario| self.judgement_in_search(scenario, held).explains)
            .collect()
    }

    /// The minimal explanations of a search with these held faults, rising.
    pub fn minimal_explanations(&mut self, held: Held) -> Vec<u32> {
        minimal_of(&self.explanations(held))
    }
}

/// Whether the scenario contains a listed entry's assumptions.
fn contains_listed(scenario: u32, listed: &[u32]) -> bool {
    listed
        .iter()
        .any(|&entry| contains_assumptions(scenario, entry))
}

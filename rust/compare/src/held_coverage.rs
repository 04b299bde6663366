//! What came of continuing searches that hold faults, and which of it must come
//! for a comparison to be worth something.

use plain::{contains_assumptions, Continued, State};

use crate::definition::Definition;
use crate::masks::Asked;
use crate::searches::{Papers, Went, LANES};
use crate::tally::Feature;

/// The most scenarios of a file of which those that do not agree are judged as
/// well. No search does so.
const FEW_SCENARIOS: u32 = 2_187;

/// A call that was accepted, of a search that holds faults.
pub struct HeldCall {
    asked: Asked,
    is_reached: bool,
    continued: Continued,
    added: u32,
    /// Whether each of those tried agrees.
    agreeing: Vec<bool>,
    /// Whether an explanation was passed over as it does not agree, and whether
    /// one that would have found the list full was.
    is_passed_over: bool,
    is_stop_passed_over: bool,
    /// Whether an entry that was listed before does not agree, and whether such
    /// entries alone barred an explanation that does.
    is_other_listed: bool,
    is_barred_by_other: bool,
}

impl HeldCall {
    pub fn new(papers: &mut Papers, went: &Went) -> Self {
        let held = went.record.held();
        let agreeing: Vec<bool> = went.tried().map(|it| held.agrees(it)).collect();
        let mut call = HeldCall {
            asked: Asked {
                held,
                abducibles: papers.abducibles,
            },
            is_reached: went.is_reached,
            continued: went.continued,
            added: went.continued.record.found - went.record.found,
            agreeing: vec![],
            is_passed_over: false,
            is_stop_passed_over: false,
            is_other_listed: went.listed().iter().any(|&entry| !held.agrees(entry)),
            is_barred_by_other: false,
        };
        for (scenario, &agrees) in went.tried().zip(&agreeing) {
            let is_judged = agrees || papers.scenarios <= FEW_SCENARIOS;
            if is_judged && papers.search.judgement(scenario).explains {
                call.look_at(scenario, agrees, went);
            }
        }
        HeldCall { agreeing, ..call }
    }

    /// Looks at an explanation that was tried.
    fn look_at(&mut self, scenario: u32, agrees: bool, went: &Went) {
        let found = went.found();
        let listed = &found[..found.partition_point(|&entry| entry < scenario)];
        let barring = |&&entry: &&u32| contains_assumptions(scenario, entry);
        let mut barring = listed.iter().filter(barring).peekable();
        let is_barred = barring.peek().is_some();
        if agrees {
            let held = self.asked.held;
            self.is_barred_by_other |= is_barred && barring.all(|&entry| !held.agrees(entry));
        } else {
            self.is_passed_over |= !is_barred;
            self.is_stop_passed_over |= !is_barred && listed.len() == went.after.len();
        }
    }

    fn is(&self, state: State) -> bool {
        self.continued.state == state
    }

    fn count_agreeing(&self) -> usize {
        self.agreeing.iter().filter(|&&agrees| agrees).count()
    }

    /// Whether a batch is such.
    fn has_batch(&self, is_it: impl FnMut(&[bool]) -> bool) -> bool {
        batches(&self.agreeing).any(is_it)
    }
}

/// Those tried, as many at a time as can be settled at once.
fn batches(agreeing: &[bool]) -> impl Iterator<Item = &[bool]> {
    agreeing.chunks_exact(LANES as usize)
}

/// Whether none of them agrees.
fn is_idle(batch: &[bool]) -> bool {
    !batch.contains(&true)
}

pub const HELD_CALLS: &[Feature<HeldCall>] = &[
    ("going", |it| it.is(State::Going)),
    ("full", |it| it.is(State::Full)),
    ("ended", |it| it.is(State::Ended)),
    ("another record", |it| !it.is_reached),
    ("one fault held", |it| it.asked.count() == 1),
    ("several held, not all", |it| {
        (2..it.asked.abducibles).contains(&it.asked.count())
    }),
    ("all held", |it| it.asked.count() == it.asked.abducibles),
    ("none held as ruled out", |it| it.asked.held.ruled == 0),
    ("none held as assumed", |it| it.asked.held.assumed == 0),
    ("some held either way", |it| {
        it.asked.held.assumed != 0 && it.asked.held.ruled != 0
    }),
    ("the first fault held", |it| it.asked.has_bit(0)),
    ("the last fault held", |it| {
        it.asked.has_bit(it.asked.abducibles - 1)
    }),
    ("bit 15 held", |it| it.asked.has_bit(15)),
    ("all tried agreeing", |it| {
        !it.agreeing.is_empty() && it.count_agreeing() == it.agreeing.len()
    }),
    ("some tried agreeing and some not", |it| {
        it.count_agreeing() > 0 && it.count_agreeing() < it.agreeing.len()
    }),
    ("some tried and none agreeing", |it| {
        !it.agreeing.is_empty() && it.count_agreeing() == 0
    }),
    ("a batch of 64 of which none agrees", |it| {
        it.has_batch(is_idle)
    }),
    ("a batch of which some agree", |it| {
        it.has_batch(|batch| !is_idle(batch) && batch.contains(&false))
    }),
    ("a batch of which all agree", |it| {
        it.has_batch(|batch| !batch.contains(&false))
    }),
    ("one that agrees behind a batch of which none does", |it| {
        let first = batches(&it.agreeing).next();
        first.is_some_and(is_idle) && it.count_agreeing() > 0
    }),
    ("1,000 tried of which none agrees", |it| {
        it.agreeing.len() >= 1_000 && it.count_agreeing() == 0
    }),
    ("ended without one that agrees", |it| {
        it.is(State::Ended) && it.continued.tried > 0 && it.count_agreeing() == 0
    }),
    ("full behind some that do not agree", |it| {
        it.is(State::Full) && it.agreeing.last() == Some(&false)
    }),
    ("an entry added", |it| it.added > 0),
    ("several entries added", |it| it.added > 1),
    ("an explanation passed over as it does not agree", |it| {
        it.is_passed_over
    }),
    ("one passed over that would find the list full", |it| {
        it.is_stop_passed_over
    }),
    ("a listed entry that does not agree", |it| {
        it.is_other_listed
    }),
    ("an explanation barred by such entries alone", |it| {
        it.is_barred_by_other
    }),
];

/// A fresh search that holds faults, gone through to its stopping point.
pub struct HeldSearch {
    pub asked: Asked,
    /// What the definition says of it, and of the same where no fault is held.
    pub holding: Definition,
    pub without: Definition,
    pub scenarios: u32,
}

impl HeldSearch {
    fn has_ended(&self) -> bool {
        self.holding.stop == self.scenarios
    }
}

pub const HELD_SEARCHES: &[Feature<HeldSearch>] = &[
    ("its end", |it| it.has_ended()),
    ("a full list", |it| !it.has_ended()),
    ("the finds of a search without held faults", |it| {
        it.holding.found == it.without.found && !it.holding.found.is_empty()
    }),
    ("other finds", |it| it.holding.found != it.without.found),
    ("a find that is not minimal without held faults", |it| {
        let mut found = it.holding.found.iter();
        found.any(|entry| !it.without.minimal.contains(entry))
    }),
    ("no find, though there are some without held faults", |it| {
        it.holding.minimal.is_empty() && !it.without.minimal.is_empty()
    }),
    ("several finds", |it| it.holding.found.len() > 1),
    ("a later stopping point than without held faults", |it| {
        it.holding.stop > it.without.stop
    }),
    ("all faults held", |it| {
        it.asked.count() == it.asked.abducibles
    }),
];

#[cfg(test)]
mod tests {
    use super::*;
    use calls::holding::{A, B};
    use calls::searching::OF_NOT_P4;
    use plain::Record;

    /// What there is of these in a call with allowance 9 from a record with such
    /// masks and the listed entries.
    fn features(
        (assumed, ruled): (u16, u16),
        position: u32,
        listed: &[u32],
        list_length: usize,
        of: &[&'static str],
    ) -> Vec<&'static str> {
        let mut papers = Papers::of_call(&OF_NOT_P4);
        let record = Record {
            position,
            found: listed.len() as u32,
            assumed,
            ruled,
        };
        let mut before = listed.to_vec();
        before.resize(list_length, u32::MAX);
        let mut after = before.clone();
        let mut dual = vec![0; papers.dual_length];
        let continued = papers
            .search
            .continue_search(&mut dual, &mut after, record, 9)
            .expect("an accepted call");
        let went = Went {
            record,
            is_reached: listed.is_empty() && position == 0,
            allowance: 9,
            before: &before,
            after: &after,
            continued,
        };
        let call = HeldCall::new(&mut papers, &went);
        let had = HELD_CALLS.iter().filter(|(_, has)| has(&call));
        had.map(|&(name, _)| name)
            .filter(|name| of.contains(name))
            .collect()
    }

    #[test]
    fn what_held_faults_do_in_a_call() {
        const PASSED: &str = "an explanation passed over as it does not agree";
        const STOP_PASSED: &str = "one passed over that would find the list full";
        const OTHER: &str = "a listed entry that does not agree";
        const BARRED: &str = "an explanation barred by such entries alone";
        const FULL: &str = "full behind some that do not agree";
        let of = [FULL, PASSED, STOP_PASSED, OTHER, BARRED];
        assert_eq!(features((0, A), 0, &[], 2, &of), [PASSED]);
        assert_eq!(
            features((0, A), 0, &[], 0, &of),
            [FULL, PASSED, STOP_PASSED]
        );
        // 3 bars 4 and 5, of which 4 does not agree; 7 does not agree either.
        assert_eq!(features((0, A), 4, &[3], 2, &of), [PASSED, OTHER, BARRED]);
        assert_eq!(features((0, A), 8, &[3], 2, &of), [OTHER]);
        // 1 agrees and bars 4 and 7.
        assert_eq!(features((A, 0), 4, &[1], 2, &of), [PASSED]);
        assert_eq!(features((A | B, 0), 5, &[4], 2, &of), [PASSED]);
    }

    #[test]
    fn a_batch_is_idle_where_none_agrees() {
        let idle = |agreeing: &[bool]| batches(agreeing).filter(|it| is_idle(it)).count();
        assert_eq!(idle(&[false; 63]), 0);
        assert_eq!(idle(&[false; 129]), 2);
        let mut one = [false; 128];
        one[64] = true;
        assert_eq!(idle(&one), 1);
    }
}

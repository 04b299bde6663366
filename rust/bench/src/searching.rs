//! Whole searches as the desk program makes them: calls with its allowance over
//! a list of its length, until ended or full.

use finder::Record;
use plain::desk::ALLOWANCE;
use plain::Held;

use crate::files::Papers;
use crate::finders::{Buffers, Finder};
use crate::measuring::{times, work, Agreed};
use crate::timing::Times;

/// What came of a whole search.
#[derive(Clone, Debug, PartialEq, Eq)]
pub struct Outcome {
    pub found: Vec<u32>,
    pub tried: u64,
    pub rounds: u64,
    pub has_ended: bool,
}

impl Outcome {
    /// Whether it is the same beside what was found.
    pub fn is_like(&self, other: &Outcome) -> bool {
        let beside = |it: &Outcome| (it.tried, it.rounds, it.has_ended);
        beside(self) == beside(other)
    }
}

/// The state of a search that was continued, as a word.
const GOING: u64 = 0;
const ENDED: u64 = 2;

/// A search under way.
pub struct Search<'s> {
    finder: &'s dyn Finder,
    papers: &'s Papers,
    buffers: Buffers,
    record: Record,
    tried: u64,
    rounds: u64,
    state: u64,
}

impl<'s> Search<'s> {
    pub fn fresh(finder: &'s dyn Finder, papers: &'s Papers, held: Held) -> Self {
        Search {
            finder,
            papers,
            buffers: Buffers::new(),
            record: fresh(finder, papers, held),
            tried: 0,
            rounds: 0,
            state: GOING,
        }
    }

    pub fn is_going(&self) -> bool {
        self.state == GOING
    }

    /// Makes the next call.
    pub fn call(&mut self) {
        let (papers, record) = (self.papers, self.record);
        let words = self
            .finder
            .continue_search(papers, record, ALLOWANCE, &mut self.buffers);
        self.record = record_after(record, &words);
        let [.., tried, rounds, state] = words;
        self.tried += tried;
        self.rounds += rounds;
        self.state = state;
    }

    fn outcome(mut self) -> Outcome {
        self.buffers.list.truncate(self.record.found as usize);
        Outcome {
            found: self.buffers.list,
            tried: self.tried,
            rounds: self.rounds,
            has_ended: self.state == ENDED,
        }
    }
}

/// A search that holds no fault.
pub fn whole(finder: &dyn Finder, papers: &Papers) -> Outcome {
    whole_holding(finder, papers, Held::NONE)
}

pub fn whole_holding(finder: &dyn Finder, papers: &Papers, held: Held) -> Outcome {
    let mut search = Search::fresh(finder, papers, held);
    while search.is_going() {
        search.call();
    }
    search.outcome()
}

/// What comes of a whole search that holds these faults, and the seconds that it
/// takes. Where there are any, finders that hold none are left out.
pub fn whole_times(finders: &[&dyn Finder], papers: &Papers, held: Held) -> (Outcome, Times) {
    let agreed = Agreed::new();
    let times = times(finders, |finder| {
        let agreed = &agreed;
        let run = move || {
            let given = whole_holding(finder, papers, held);
            agreed.expect_told(&given, finder, Outcome::is_like);
            1
        };
        let can_hold = held == Held::NONE || finder.holds_faults();
        can_hold.then(|| work(finder, run))
    });
    (agreed.answer().clone(), times)
}

/// The same by the finder without proofs, in one go.
pub fn whole_by_native(papers: &Papers) -> Outcome {
    let found = native::search(&papers.program, &papers.query);
    Outcome {
        found: found.scenarios,
        tried: found.tried,
        rounds: found.rounds,
        has_ended: true,
    }
}

/// The record of a fresh search.
pub fn fresh(finder: &dyn Finder, papers: &Papers, held: Held) -> Record {
    let Held { assumed, ruled } = held;
    let words = finder.fresh(papers, held);
    let begun = [0, 0, 0, 0, 0, assumed.into(), ruled.into(), 0];
    assert_eq!(words, begun, "{} begins a search", finder.name());
    Record {
        position: 0,
        found: 0,
        assumed,
        ruled,
    }
}

/// The record after a call that went on from `before` and was not refused, with
/// these words.
pub fn record_after(before: Record, words: &[u64; 8]) -> Record {
    let [number, _, _, position, found, ..] = *words;
    assert_eq!(number, 0, "the call is accepted");
    let word = |slot| u32::try_from(slot).expect("a word of 32 bits");
    Record {
        position: word(position),
        found: word(found),
        ..before
    }
}

#[cfg(test)]
mod tests {
    use super::*;
    use crate::files::seeded::MIDDLE;
    use crate::finders::Linked;

    #[test]
    fn a_search_of_many_calls_goes_through_all_scenarios() {
        let papers = MIDDLE.papers();
        let outcome = whole(&Linked, &papers);
        assert_eq!(outcome.tried, 59_049);
        assert_eq!(outcome.found.len(), 23);
        assert!(outcome.has_ended);
        assert_eq!(outcome, whole_by_native(&papers));
    }
}

//! Which searches were continued and what came of it, and which of these must
//! come for a comparison to be worth something.

use plain::{contains_assumptions, ContinueRefusal, Continued, Held, Paper, Record, State};

use crate::definition::Definition;
use crate::fresh_coverage::HIDDEN;
use crate::held_coverage::{HeldCall, HeldSearch, HELD_CALLS, HELD_SEARCHES};
use crate::searches::{Papers, Went, LANES};
use crate::spoilt::{Spoilt, SPOILT};
use crate::tally::{Counted, Feature, Numbers, Tally, OF_FILE, OF_SHEET};

/// How many of those tried in a call were not added, though nothing but one thing
/// was against them.
#[derive(Default)]
struct Barred {
    /// Explanations that contain an entry listed before the call, and those that
    /// contain but entries that the call added.
    by_earlier: u32,
    by_added: u32,
    /// Those that a byte 3 alone bars, and which of these would have found the
    /// list full.
    by_contradiction: u32,
    stops_by_contradiction: u32,
}

impl Barred {
    fn new(papers: &mut Papers, went: &Went) -> Self {
        let held = went.record.held();
        let mut barred = Barred::default();
        for scenario in went.tried() {
            let found = went.found();
            let before = &found[..found.partition_point(|&entry| entry < scenario)];
            let is_new = !contains_one_of(scenario, before);
            if papers.explains(held, scenario) {
                let is_earlier = contains_one_of(scenario, went.listed());
                barred.by_earlier += u32::from(is_earlier);
                barred.by_added += u32::from(!is_earlier && !is_new);
            } else if is_new && papers.is_contradicted(held, scenario) {
                barred.by_contradiction += 1;
                barred.stops_by_contradiction += u32::from(before.len() == went.after.len());
            }
        }
        barred
    }
}

fn contains_one_of(scenario: u32, entries: &[u32]) -> bool {
    let mut entries = entries.iter();
    entries.any(|&entry| contains_assumptions(scenario, entry))
}

/// A call that was accepted.
pub struct Call {
    /// 3^k.
    scenarios: u32,
    list_length: usize,
    /// Whether the record was reached from a fresh search.
    is_reached: bool,
    record: Record,
    allowance: u32,
    continued: Continued,
    barred: Barred,
    /// Whether the new position is the stopping point and not 3^k.
    is_at_stop: bool,
}

impl Call {
    fn new(papers: &mut Papers, went: &Went) -> Self {
        let Went {
            record, continued, ..
        } = *went;
        let (found, end) = (went.found(), continued.record.position);
        Call {
            scenarios: papers.scenarios,
            list_length: went.after.len(),
            is_reached: went.is_reached,
            record,
            allowance: went.allowance,
            continued,
            barred: Barred::new(papers, went),
            is_at_stop: end < papers.scenarios
                && found.len() == went.after.len()
                && papers.explains(record.held(), end)
                && !contains_one_of(end, found),
        }
    }

    fn is(&self, state: State) -> bool {
        self.continued.state == state
    }

    fn added(&self) -> u32 {
        self.continued.record.found - self.record.found
    }

    fn allows(&self, least: u32, most: u32) -> bool {
        (least..=most).contains(&self.allowance)
    }
}

const CALLS: &[Feature<Call>] = &[
    ("going", |it| it.is(State::Going)),
    ("full", |it| it.is(State::Full)),
    ("ended", |it| it.is(State::Ended)),
    ("a record reached from a fresh search", |it| it.is_reached),
    ("another record, going", |it| {
        !it.is_reached && it.is(State::Going)
    }),
    ("another record, full", |it| {
        !it.is_reached && it.is(State::Full)
    }),
    ("another record, ended", |it| {
        !it.is_reached && it.is(State::Ended)
    }),
    ("allowance 0", |it| it.allowance == 0),
    ("allowance 1", |it| it.allowance == 1),
    ("allowance 2 to 62", |it| it.allows(2, LANES - 2)),
    ("allowance 63", |it| it.allowance == LANES - 1),
    ("allowance 64", |it| it.allowance == LANES),
    ("allowance 65", |it| it.allowance == LANES + 1),
    ("allowance 66 to 1,000", |it| it.allows(LANES + 2, 1_000)),
    ("the largest allowance", |it| it.allowance == u32::MAX),
    ("1 tried", |it| it.continued.tried == 1),
    ("63 tried", |it| it.continued.tried == LANES - 1),
    ("64 tried", |it| it.continued.tried == LANES),
    ("65 tried", |it| it.continued.tried == LANES + 1),
    ("128 tried", |it| it.continued.tried == 2 * LANES),
    ("more tried", |it| it.continued.tried > 2 * LANES),
    ("a start that is no multiple of 64", |it| {
        !it.record.position.is_multiple_of(LANES)
    }),
    ("an entry added", |it| it.added() > 0),
    ("several entries added", |it| it.added() > 1),
    ("an entry added after those of earlier calls", |it| {
        it.record.found > 0 && it.added() > 0
    }),
    ("an explanation barred by an earlier entry", |it| {
        it.barred.by_earlier > 0
    }),
    ("an explanation barred by an added entry", |it| {
        it.barred.by_added > 0
    }),
    ("one that would be added but for a byte 3", |it| {
        it.barred.by_contradiction > 0
    }),
    ("several of these and an entry added", |it| {
        it.barred.by_contradiction > 1 && it.added() > 0
    }),
    ("one that would find the list full but for a byte 3", |it| {
        it.barred.stops_by_contradiction > 0
    }),
    ("full at once", |it| {
        it.is(State::Full) && it.continued.tried == 0
    }),
    ("full after 1 to 63", |it| {
        it.is(State::Full) && (1..LANES).contains(&it.continued.tried)
    }),
    ("full after 64 or more", |it| {
        it.is(State::Full) && it.continued.tried >= LANES
    }),
    ("full by the entries of this call", |it| {
        it.is(State::Full) && it.added() > 0
    }),
    ("going at the stopping point", |it| {
        it.is(State::Going) && it.is_at_stop && it.allowance > 0
    }),
    ("going with nothing allowed at the stopping point", |it| {
        it.is(State::Going) && it.is_at_stop && it.allowance == 0
    }),
    ("a full list that stops nothing", |it| {
        it.record.found as usize == it.list_length && it.continued.tried > 0
    }),
    ("ended at once", |it| {
        it.is(State::Ended) && it.continued.tried == 0
    }),
    ("ended with all that was allowed", |it| {
        it.is(State::Ended) && it.continued.tried == it.allowance && it.allowance > 0
    }),
    ("ended with less than was allowed", |it| {
        it.is(State::Ended) && it.continued.tried > 0 && it.continued.tried < it.allowance
    }),
    ("a list of length 0", |it| it.list_length == 0),
    ("a list of length 1", |it| it.list_length == 1),
    ("a list with room for all scenarios", |it| {
        it.list_length >= it.scenarios as usize
    }),
    ("one scenario", |it| it.scenarios == 1),
    ("3 to 27 scenarios", |it| (3..=27).contains(&it.scenarios)),
    ("81 scenarios", |it| it.scenarios == 81),
    ("243 scenarios or more", |it| it.scenarios >= 243),
    ("9 abducibles or more", |it| it.scenarios >= 19_683),
    ("16 abducibles", |it| it.scenarios == 43_046_721),
];

/// A call that was refused for its dual buffer.
pub struct ShortDual {
    pub spoilt: Spoilt,
    pub record: Record,
    pub lent: usize,
    pub dual_length: usize,
}

const SHORT_DUALS: &[Feature<ShortDual>] = &[
    ("an empty buffer", |it| it.lent == 0),
    ("one byte too few", |it| it.lent + 1 == it.dual_length),
    ("entries found before", |it| {
        !it.spoilt.is_spoilt() && it.record.found > 0
    }),
    ("a spoilt search", |it| it.spoilt.is_spoilt()),
    ("a search that is spoilt by its masks alone", |it| {
        it.spoilt.is_spoilt_by_masks_alone()
    }),
    ("held faults", |it| {
        !it.spoilt.is_spoilt() && it.record.held() != Held::NONE
    }),
];

/// What the definition can say of a fresh search over a file with FFFF.
const WITH_UNDEFINED: &[Feature<Definition>] = &[
    ("a find", |it| !it.found.is_empty()),
    ("several finds", |it| it.found.len() > 1),
    ("a find of some assumptions", |it| {
        it.found.iter().any(|&entry| entry > 0)
    }),
    ("more finds than the list has room for", |it| {
        it.minimal.len() > it.found.len()
    }),
    ("nothing to find", |it| it.minimal.is_empty()),
    ("held faults and a find", |it| {
        it.held != Held::NONE && !it.found.is_empty()
    }),
    ("held faults and nothing to find", |it| {
        it.held != Held::NONE && it.minimal.is_empty()
    }),
];

/// How often each answer came.
pub struct SearchCoverage {
    file: Numbers,
    sheet: Numbers,
    hidden: Tally<Held>,
    pub short_duals: Tally<ShortDual>,
    pub spoilt: Tally<Spoilt>,
    calls: Tally<Call>,
    held_calls: Tally<HeldCall>,
    pub held_searches: Tally<HeldSearch>,
    pub with_undefined: Tally<Definition>,
}

impl Default for SearchCoverage {
    fn default() -> Self {
        SearchCoverage {
            file: Numbers::new("file refused", OF_FILE),
            sheet: Numbers::new("sheet refused", OF_SHEET),
            hidden: Tally::new("papers refused", HIDDEN),
            short_duals: Tally::new("refused 11", SHORT_DUALS),
            spoilt: Tally::new("refused 14", SPOILT),
            calls: Tally::new("calls accepted", CALLS),
            held_calls: Tally::new("calls that hold faults", HELD_CALLS),
            held_searches: Tally::new("searches that hold faults", HELD_SEARCHES),
            with_undefined: Tally::new("searches over files with FFFF", WITH_UNDEFINED),
        }
    }
}

impl SearchCoverage {
    /// Counts the refusal of a paper, whatever was held.
    pub fn count_refused(&mut self, refusal: &ContinueRefusal, held: &Held) {
        self.hidden.count(held);
        let ContinueRefusal::Papers(of_paper) = refusal else {
            panic!("the papers are not accepted");
        };
        match of_paper.paper {
            Paper::File => self.file.count(refusal.number()),
            Paper::Sheet => self.sheet.count(refusal.number()),
        }
    }

    /// Counts a call that was accepted.
    pub fn count_accepted(&mut self, papers: &mut Papers, went: &Went) {
        self.calls.count(&Call::new(papers, went));
        if went.record.held() != Held::NONE {
            self.held_calls.count(&HeldCall::new(papers, went));
        }
    }

    pub fn parts(&self) -> [&dyn Counted; 9] {
        [
            &self.file,
            &self.sheet,
            &self.hidden,
            &self.short_duals,
            &self.spoilt,
            &self.calls,
            &self.held_calls,
            &self.held_searches,
            &self.with_undefined,
        ]
    }
}

#[cfg(test)]
mod tests {
    use super::*;

    #[test]
    fn what_never_came_is_complained_of() {
        let numbers = 10 + 5;
        let of_held = HELD_CALLS.len() + HELD_SEARCHES.len();
        let refused = HIDDEN.len() + SHORT_DUALS.len() + SPOILT.len();
        let features = refused + CALLS.len() + of_held + WITH_UNDEFINED.len();
        let coverage = SearchCoverage::default();
        let complaints = coverage.parts().map(|part| part.complaints().len());
        assert_eq!(complaints.iter().sum::<usize>(), numbers + features);
    }
}

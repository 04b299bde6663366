//! Random searches: their papers, the faults that they hold, what each call is
//! allowed and lent, and records that were not reached from a fresh search.

use std::collections::HashMap;
use std::ops::Range;

use plain::{
    dual, encode_dual, encode_file, encode_sheet, model, scenario_count, Continued, Held, Program,
    Query, Record, Search,
};
use random::Random;

use crate::causes::{causes, query_of_heads, Causes};
use crate::judged::is_contradicted;
use crate::masks::{self, Asked};
use crate::programs::mentions_undefined;

/// Papers that are accepted.
pub struct Papers {
    pub file: Vec<u8>,
    pub sheet: Vec<u8>,
    pub search: Search,
    pub dual_length: usize,
    /// k, and 3^k.
    pub abducibles: usize,
    pub scenarios: u32,
    /// Whether a body has FFFF.
    pub has_undefined: bool,
    query: Query,
    /// Whether a byte 3 alone bars them, of the scenarios that were asked for.
    contradicted: HashMap<u32, bool>,
}

impl Papers {
    pub fn new(program: Program, query: Query) -> Self {
        Papers {
            query: query.clone(),
            contradicted: HashMap::new(),
            file: encode_file(&program),
            sheet: encode_sheet(&query),
            dual_length: encode_dual(&dual(&program)).len(),
            abducibles: program.abducibles.len(),
            scenarios: scenario_count(&program),
            has_undefined: mentions_undefined(&program),
            search: Search::keeping(program, query),
        }
    }

    /// Those of a reference call.
    #[cfg(test)]
    pub fn of_call(call: &calls::Searching) -> Self {
        let (file, sheet) = (call.program.file(), call.program.sheet(call.query));
        let (program, query) = plain::read_papers(&file, &sheet).expect("accepted papers");
        Papers::new(program, query)
    }

    /// Those of a file all of whose scenarios can be judged, with a program that
    /// is made so.
    pub fn searchable(random: &mut Random, make: Causes) -> Self {
        let abducibles = random.pick(&[0, 1, 1, 2, 2, 3, 3, 3, 4, 4, 4, 4, 4, 5, 5, 5]);
        let more = usize::from(random.one_in(8)) + usize::from(random.one_in(64));
        Papers::with_abducibles(random, abducibles + more, make)
    }

    /// Those of a file with more scenarios.
    pub fn wide(random: &mut Random) -> Self {
        let abducibles = random.pick(&[9, 10, 11, 12, 13, 14, 15, 16, 16]);
        Papers::with_abducibles(random, abducibles, causes)
    }

    fn with_abducibles(random: &mut Random, abducibles: usize, make: Causes) -> Self {
        let others = random.between(1, 5);
        let program = make(random, abducibles, others);
        let query = query_of_heads(random, &program);
        Papers::new(program, query)
    }

    /// What a search over them may hold; nothing every other time.
    pub fn some_held(&self, random: &mut Random) -> Held {
        if random.one_in(2) {
            Held::NONE
        } else {
            masks::sound(random, self.abducibles)
        }
    }

    /// Whether the scenario is an explanation of a search that holds these.
    pub fn explains(&mut self, held: Held, scenario: u32) -> bool {
        held.agrees(scenario) && self.search.judgement(scenario).explains
    }

    /// Whether a byte 3 alone keeps the scenario from being one.
    pub fn is_contradicted(&mut self, held: Held, scenario: u32) -> bool {
        let (program, query) = (self.search.program(), &self.query);
        let judge = || is_contradicted(query, &model(program, scenario).bytes());
        held.agrees(scenario) && *self.contradicted.entry(scenario).or_insert_with(judge)
    }

    /// From 0 on; often about as many entries as there are to find.
    pub fn a_list_length(&mut self, random: &mut Random, held: Held) -> usize {
        match random.below(8) {
            0 => 0,
            1 => 1,
            2 => random.below(20),
            3 => self.scenarios as usize + random.below(2),
            4 => random.pick(&[63, 64, 65, 1_024, 5_000]),
            _ if self.scenarios <= 243 => {
                let minimal = self.search.minimal_explanations(held).len();
                (minimal + random.below(3)).saturating_sub(1)
            }
            _ => random.below(5),
        }
    }

    /// Anywhere, more often at either end or where a scenario agrees.
    pub fn a_position(&self, random: &mut Random, held: Held) -> u32 {
        let scenarios = self.scenarios;
        match random.below(8) {
            0 => 0,
            1 => scenarios,
            2 | 3 => scenarios - random.below(scenarios.min(150) as usize) as u32,
            4 | 5 => self.an_agreeing_scenario(random, held),
            _ => random.below(scenarios as usize + 1) as u32,
        }
    }

    fn an_agreeing_scenario(&self, random: &mut Random, held: Held) -> u32 {
        (0..self.abducibles).rev().fold(0, |scenario, fault| {
            let has_bit = |mask: u16| mask >> fault & 1 == 1;
            let digit = match (has_bit(held.assumed), has_bit(held.ruled)) {
                (true, _) => 1,
                (_, true) => 2,
                _ => random.below(3) as u32,
            };
            3 * scenario + digit
        })
    }
}

/// How much the calls of a search are allowed.
#[derive(Clone, Copy)]
pub enum Pace {
    Small,
    /// About as many as can be settled at once.
    About64,
    /// About all that are left.
    AboutRest,
    Large,
    /// Any of these, from call to call.
    Mixed,
}

impl Pace {
    pub const ALL: [Pace; 5] = [
        Pace::Small,
        Pace::About64,
        Pace::AboutRest,
        Pace::Large,
        Pace::Mixed,
    ];

    /// An allowance where so many scenarios are left.
    fn allowance(self, random: &mut Random, left: u32) -> u32 {
        match self {
            Pace::Small => random.below(6) as u32,
            Pace::About64 => random.between(62, 67) as u32,
            Pace::AboutRest => (left + random.below(3) as u32).saturating_sub(1),
            Pace::Large => random.pick(&[128, 129, 1_000, 1 << 16, 1 << 31, u32::MAX, u32::MAX]),
            Pace::Mixed => {
                let pace = random.pick(&Pace::ALL[..4]);
                pace.allowance(random, left)
            }
        }
    }
}

/// What is allowed and lent in one call.
pub struct Terms {
    pub allowance: u32,
    pub dual_lent: usize,
}

impl Terms {
    /// Those of a call that goes as far as there is to go.
    pub fn whole(papers: &Papers) -> Self {
        Terms {
            allowance: u32::MAX,
            dual_lent: papers.dual_length,
        }
    }

    pub fn new(random: &mut Random, pace: Pace, papers: &Papers, record: Record) -> Self {
        let left = papers.scenarios.saturating_sub(record.position);
        let allowance = pace.allowance(random, left);
        let asked = Asked {
            held: record.held(),
            abducibles: papers.abducibles,
        };
        // Where more are left than can be gone through, less is allowed; where
        // next to all faults are held, few of them are judged.
        let most = match asked.count() {
            _ if left <= 10_000 => u32::MAX,
            count if count + 3 >= papers.abducibles => 3_000,
            _ => 300,
        };
        Terms {
            allowance: allowance.min(most),
            dual_lent: match random.below(12) {
                0 => random.pick(&[
                    0,
                    papers.dual_length / 2,
                    papers.dual_length - 1,
                    papers.dual_length - 1,
                ]),
                1 => papers.dual_length + random.between(1, 50),
                _ => papers.dual_length,
            },
        }
    }
}

/// How many scenarios can be settled at once.
pub const LANES: u32 = 64;

/// A call that was accepted, as it went.
pub struct Went<'l> {
    pub record: Record,
    /// Whether the record was reached from a fresh search.
    pub is_reached: bool,
    pub allowance: u32,
    /// The list as it was before the call, and as it was after.
    pub before: &'l [u32],
    pub after: &'l [u32],
    pub continued: Continued,
}

impl Went<'_> {
    pub fn tried(&self) -> Range<u32> {
        self.record.position..self.continued.record.position
    }

    /// The entries that were listed before.
    pub fn listed(&self) -> &[u32] {
        &self.before[..self.record.found as usize]
    }

    /// Those that are listed after it.
    pub fn found(&self) -> &[u32] {
        &self.after[..self.continued.record.found as usize]
    }
}

/// A record of no search, and the entries at the start of its list.
pub struct AnyRecord {
    pub record: Record,
    pub entries: Vec<u32>,
    pub list_length: usize,
}

impl AnyRecord {
    /// One that goes on with these papers or is spoilt.
    pub fn new(random: &mut Random, papers: &Papers) -> Self {
        let mut any = AnyRecord::sound(random, papers);
        // Twice where a way to spoil it is to hide another.
        for _ in 0..random.pick(&[0, 0, 0, 0, 1, 1, 2]) {
            any.spoil(random, papers);
        }
        any
    }

    fn sound(random: &mut Random, papers: &Papers) -> Self {
        let held = papers.some_held(random);
        let position = papers.a_position(random, held);
        let mut entries: Vec<u32> = (0..random.below(6).min(position as usize))
            .map(|_| random.below(position as usize) as u32)
            .collect();
        entries.sort_unstable();
        entries.dedup();
        // The assumptions of 0, of which there are none, are in all scenarios.
        if entries.first() == Some(&0) && !random.one_in(4) {
            entries.remove(0);
        }
        AnyRecord {
            record: Record {
                position,
                found: entries.len() as u32,
                assumed: held.assumed,
                ruled: held.ruled,
            },
            list_length: entries.len() + random.pick(&[0, 0, 1, 2, 3, 10]),
            entries,
        }
    }

    /// Spoils the record, or the entries listed, in one of the ways of test 14
    /// where it can.
    fn spoil(&mut self, random: &mut Random, papers: &Papers) {
        let AnyRecord {
            record,
            entries,
            list_length,
        } = self;
        let scenarios = papers.scenarios;
        let any = random.below(6) as u32;
        match random.below(5) {
            0 => record.position = random.pick(&[scenarios + 1, scenarios + 2 + any, u32::MAX]),
            1 => {
                let above = *list_length as u32 + 1;
                record.found = random.pick(&[above, above + any, u32::MAX]);
            }
            2 => {
                let mut held = record.held();
                masks::spoil(random, &mut held, papers.abducibles);
                (record.assumed, record.ruled) = (held.assumed, held.ruled);
            }
            3 if entries.len() > 1 => {
                let one = random.below(entries.len() - 1);
                if random.one_in(2) {
                    entries.swap(one, one + 1);
                } else {
                    entries[one + 1] = entries[one];
                }
            }
            _ => {
                let Some(last) = entries.last_mut() else {
                    return;
                };
                if random.one_in(2) {
                    let above = random.pick(&[0, 0, any, u32::MAX]);
                    *last = record.position.saturating_add(above);
                } else {
                    record.position = *last - any.min(*last);
                }
            }
        }
    }
}

#[cfg(test)]
mod tests {
    use super::*;
    use crate::spoilt::Spoilt;
    use random::seed::seed;

    fn is_spoilt(papers: &Papers, any: &AnyRecord) -> bool {
        let mut list = any.entries.clone();
        list.resize(any.list_length, 0);
        Spoilt::new(papers.abducibles, &list, any.record).is_spoilt()
    }

    #[test]
    fn a_record_is_spoilt_only_by_being_spoilt() {
        let mut random = Random::new(seed(9));
        let mut spoilt = 0;
        for _ in 0..2_000 {
            let papers = Papers::searchable(&mut random, causes);
            let mut any = AnyRecord::sound(&mut random, &papers);
            assert!(!is_spoilt(&papers, &any));
            any.spoil(&mut random, &papers);
            spoilt += usize::from(is_spoilt(&papers, &any));
        }
        // Without entries there are but three ways.
        assert!(spoilt > 1_000, "{spoilt} are spoilt");
    }

    #[test]
    fn a_scenario_that_is_to_agree_does() {
        let mut random = Random::new(seed(14));
        for _ in 0..2_000 {
            let papers = Papers::searchable(&mut random, causes);
            let held = papers.some_held(&mut random);
            let scenario = papers.an_agreeing_scenario(&mut random, held);
            assert!(scenario < papers.scenarios && held.agrees(scenario));
        }
    }
}

//! Compares the two finders in continuing searches over random files, with held
//! faults and without: fresh ones in random calls, which must come to what the
//! definition says, and records that were not reached from a fresh search.

mod beginning;
mod crossing;

use compare::causes::{causes, consistent_causes};
use compare::comparison::{Comparison, Told};
use compare::definition::{Definition, Sums};
use compare::held_coverage::HeldSearch;
use compare::lent::Lent;
use compare::masks::{self, Asked};
use compare::rounds::{limit_round, small_round, Examiner};
use compare::search_coverage::{SearchCoverage, ShortDual};
use compare::searches::{AnyRecord, Pace, Papers, Terms, Went};
use compare::spoilt::Spoilt;
use compare::words;
use plain::{
    continue_search, encode_file, encode_sheet, read_papers, ContinueRefusal, Continued, Held,
    Program, Query, Record, State,
};
use random::Random;

use beginning::begin;
use crossing::crossing;

/// Files with a fresh search in many calls, and as many that do not contradict
/// themselves.
const FILES: u64 = 20_000;

/// Files with more scenarios than can be gone through.
const WIDE_FILES: u64 = 3_000;

/// Rounds of papers that are damaged, some of them large.
const SMALL_ROUNDS: u64 = 300;
const LIMIT_ROUNDS: u64 = 60;

fn main() {
    let comparison = Comparison::start(
        "plain_and_finder_search_the_same",
        "searches over random files",
    );
    let mut random = Random::new(comparison.seed());
    let mut searches = Searches {
        comparison,
        coverage: SearchCoverage::default(),
    };
    for file in 0..2 * FILES {
        let make = if file < FILES {
            causes
        } else {
            consistent_causes
        };
        let mut papers = Papers::searchable(&mut random, make);
        for held in [Held::NONE, masks::sound(&mut random, papers.abducibles)] {
            fresh_search(&mut random, &mut papers, &mut searches, held);
        }
        // Half of them hold no fault.
        for _ in 0..8 {
            any_search(&mut random, &mut papers, &mut searches);
        }
    }
    for _ in 0..WIDE_FILES {
        let mut papers = Papers::wide(&mut random);
        for _ in 0..4 {
            any_search(&mut random, &mut papers, &mut searches);
        }
    }
    for _ in 0..SMALL_ROUNDS {
        small_round(&mut random, &mut searches);
    }
    for _ in 0..LIMIT_ROUNDS {
        limit_round(&mut random, &mut searches);
    }

    let Searches {
        comparison,
        coverage,
    } = searches;
    let calls = comparison.calls;
    let compared = format!("{calls} calls compared over 2 x {FILES} files and others");
    comparison.end(&compared, &coverage.parts());
}

/// Goes through a fresh search, in pieces and at once: both must come to what
/// the definition says.
fn fresh_search(random: &mut Random, papers: &mut Papers, searches: &mut Searches, held: Held) {
    let length = papers.a_list_length(random, held);
    let patterns = &mut searches.comparison.patterns;
    let list = patterns.list(length, papers.scenarios);
    let begun = begin(&mut searches.comparison, &papers.file, held);
    let start = begun.expect("masks that are accepted");
    let definition = Definition::new(papers, held, length);
    if papers.has_undefined {
        searches.coverage.with_undefined.count(&definition);
    }

    let mut in_pieces = list.clone();
    let (record, sums) = pieces(random, papers, searches, &mut in_pieces, start);
    searches.expect_definition(papers, &definition, (record, sums), in_pieces.part());

    let mut at_once = list;
    let terms = Terms::whole(papers);
    let continued = searches.accepted(papers, &mut at_once, start, &terms, true);
    let continued = continued.expect("a call that is accepted");
    let mut sums = Sums::default();
    sums.add(&continued);
    searches.expect_definition(
        papers,
        &definition,
        (continued.record, sums),
        at_once.part(),
    );
    if held != Held::NONE {
        searches.count_held(papers, held, definition, length);
    }
}

/// Goes on from a fresh record in random calls, a few of them refused, until
/// the search has stopped twice.
fn pieces(
    random: &mut Random,
    papers: &mut Papers,
    searches: &mut Searches,
    list: &mut Lent<u32>,
    start: Record,
) -> (Record, Sums) {
    let mut record = start;
    let mut sums = Sums::default();
    let pace = random.pick(&Pace::ALL);
    let (mut calls, mut stops) = (0, 0);
    while stops < 2 {
        let pace = if calls < 30 { pace } else { Pace::Large };
        let terms = Terms::new(random, pace, papers, record);
        if let Some(continued) = searches.accepted(papers, list, record, &terms, true) {
            record = continued.record;
            sums.add(&continued);
            stops += usize::from(continued.state != State::Going);
        }
        calls += 1;
    }
    (record, sums)
}

/// Goes on for a few calls from a record of no search, with a list to match or
/// spoilt.
fn any_search(random: &mut Random, papers: &mut Papers, searches: &mut Searches) {
    let AnyRecord {
        mut record,
        entries,
        list_length,
    } = AnyRecord::new(random, papers);
    let patterns = &mut searches.comparison.patterns;
    let mut list = patterns.list(list_length, papers.scenarios);
    list.part()[..entries.len()].copy_from_slice(&entries);
    let pace = random.pick(&Pace::ALL);
    for _ in 0..random.between(1, 3) {
        let terms = Terms::new(random, pace, papers, record);
        if let Some(continued) = searches.accepted(papers, &mut list, record, &terms, false) {
            record = continued.record;
        }
    }
}

struct Searches {
    comparison: Comparison,
    coverage: SearchCoverage,
}

/// Papers that may be refused.
impl Examiner for Searches {
    fn valid(&mut self, program: &Program, query: &Query) {
        let (file, sheet) = (encode_file(program), encode_sheet(query));
        if read_papers(&file, &sheet).is_err() {
            self.fail("written papers are not accepted", &file, &sheet);
        }
    }

    fn pair(&mut self, file: &[u8], sheet: &[u8]) {
        let patterns = &mut self.comparison.patterns;
        let mut random = Random::new(patterns.random.word());
        match read_papers(file, sheet) {
            Ok((program, query)) => {
                let mut papers = Papers::new(program, query);
                let mut list = patterns.list(random.below(3), papers.scenarios);
                let held = papers.some_held(&mut random);
                let record = Record {
                    position: papers.a_position(&mut random, held),
                    found: 0,
                    assumed: held.assumed,
                    ruled: held.ruled,
                };
                let terms = Terms {
                    allowance: random.below(4) as u32,
                    ..Terms::new(&mut random, Pace::Small, &papers, record)
                };
                self.accepted(&mut papers, &mut list, record, &terms, false);
            }
            Err(_) => self.refused(&mut random, file, sheet),
        }
    }
}

impl Searches {
    /// Fails where a search that has stopped is not as the definition says.
    fn expect_definition(
        &self,
        papers: &Papers,
        definition: &Definition,
        (record, sums): (Record, Sums),
        list: &[u32],
    ) {
        if let Some(complaint) = definition.complaint(record, sums, list) {
            self.fail(&complaint, &papers.file, &papers.sheet);
        }
    }

    fn count_held(
        &mut self,
        papers: &mut Papers,
        held: Held,
        holding: Definition,
        list_length: usize,
    ) {
        self.coverage.held_searches.count(&HeldSearch {
            asked: Asked {
                held,
                abducibles: papers.abducibles,
            },
            without: Definition::new(papers, Held::NONE, list_length),
            holding,
            scenarios: papers.scenarios,
        });
    }

    /// Continues with papers that are accepted, and gives what comes where the
    /// call is accepted too.
    fn accepted(
        &mut self,
        papers: &mut Papers,
        list: &mut Lent<u32>,
        record: Record,
        terms: &Terms,
        is_reached: bool,
    ) -> Option<Continued> {
        let before = list.part().to_vec();
        let search = &mut papers.search;
        let answer = self.compare(
            (&papers.file, &papers.sheet),
            list,
            record,
            terms,
            |dual, list| search.continue_search(dual, list, record, terms.allowance),
        );
        let spoilt = Spoilt::new(papers.abducibles, &before, record);
        match answer {
            Ok(continued) => {
                let went = Went {
                    record,
                    is_reached,
                    allowance: terms.allowance,
                    before: &before,
                    after: list.part(),
                    continued,
                };
                self.coverage.count_accepted(papers, &went);
                return Some(continued);
            }
            Err(ContinueRefusal::ShortDual) => self.coverage.short_duals.count(&ShortDual {
                spoilt,
                record,
                lent: terms.dual_lent,
                dual_length: papers.dual_length,
            }),
            Err(ContinueRefusal::SpoiltSearch) => self.coverage.spoilt.count(&spoilt),
            Err(ContinueRefusal::Papers(_)) => {
                self.fail("accepted papers are refused", &papers.file, &papers.sheet);
            }
        }
        None
    }

    /// Continues with papers that are refused, from any record.
    fn refused(&mut self, random: &mut Random, file: &[u8], sheet: &[u8]) {
        let mut list = self.comparison.patterns.list(random.below(4), 9);
        let Held { assumed, ruled } = masks::any(random);
        let record = Record {
            position: random.pick(&[0, 1, 9, u32::MAX]),
            found: random.pick(&[0, 0, 1, 4, u32::MAX]),
            assumed,
            ruled,
        };
        let terms = Terms {
            allowance: random.pick(&[0, 1, 64, u32::MAX]),
            dual_lent: random.below(200),
        };
        let answer = self.compare((file, sheet), &mut list, record, &terms, |dual, list| {
            continue_search(file, sheet, dual, list, record, terms.allowance)
        });
        let refusal = answer.expect_err("refused papers");
        self.coverage.count_refused(&refusal, &record.held());
    }

    /// Lends both finders the same and compares all that they can change.
    fn compare(
        &mut self,
        (file, sheet): (&[u8], &[u8]),
        list: &mut Lent<u32>,
        record: Record,
        terms: &Terms,
        plain: impl FnOnce(&mut [u8], &mut [u32]) -> Result<Continued, ContinueRefusal>,
    ) -> Result<Continued, ContinueRefusal> {
        let Searches { comparison, .. } = self;
        let Terms {
            allowance,
            dual_lent,
        } = *terms;
        let mut expected_dual = comparison.patterns.buffer(dual_lent);
        let mut found_dual = expected_dual.clone();
        let mut found_list = list.clone();
        let mut found = comparison.patterns.words();

        let answer = plain(expected_dual.part(), list.part());
        let given = crossing(record);
        let (dual, entries) = (found_dual.part(), found_list.part());
        finder::continue_words(file, sheet, dual, entries, given, allowance, &mut found);

        let length = list.part().len();
        let with = format!(
            "{record:?}, allowance {allowance}, dual buffer of {dual_lent}, list of {length}"
        );
        let call = Told { file, sheet, with };
        comparison.expect_words(&found, &words::of_continuing(&answer, record), &call);
        comparison.expect_items("dual buffer", &found_dual, &expected_dual, &call);
        comparison.expect_items("list", &found_list, list, &call);
        answer
    }

    fn fail(&self, what: &str, file: &[u8], sheet: &[u8]) -> ! {
        let with = String::new();
        self.comparison.fail(what, &Told { file, sheet, with });
    }
}

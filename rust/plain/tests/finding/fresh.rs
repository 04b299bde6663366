//! Fresh searches in random slices, on random programs, with no fault held and
//! with random ones, against the definition: all explanations of that search
//! first, then the minimal ones.

use plain::{
    continue_search, dual, encode_dual, encode_file, encode_sheet, explanations, judge,
    minimal_explanations, minimal_of, model, scenario_count, stopping_point, ContinueRefusal,
    Continued, Held, Program, Query, Record, Search, State,
};
use random::seed::seed;
use random::Random;

use crate::holding::{agrees, at_holding, fresh_holding, masks, none, Choice};
use crate::programs::{are_above, program_to_search, query};
use crate::verdict::is_barred_by_3;

const PROGRAMS: usize = 3_000;
/// Searches with held faults over each program.
const HOLDING: usize = 6;

/// What the random searches reached.
#[derive(Debug, Default)]
struct Reached {
    ended: usize,
    full: usize,
    going: usize,
    refused: usize,
    /// Calls that add an entry after an earlier call has added one.
    added_later: usize,
    /// Explanations that are tried in a later call than an entry whose
    /// assumptions they contain.
    not_minimal: usize,
    /// Scenarios tried that a byte 3 alone bars.
    barred: usize,
    several_minimal: usize,
    no_room: usize,
    one_scenario: usize,
    held: usize,
    /// Scenarios tried that do not agree.
    not_agreeing: usize,
    /// Minimal explanations that are not where no fault is held.
    minimal_by_held: usize,
}

impl Reached {
    /// What is asked whatever is held.
    fn assert_above(&self, floor: usize, floor_of_kinds: usize) {
        let calls = [self.ended, self.full, self.going, self.refused];
        let entries = [self.added_later, self.not_minimal];
        let kinds = [self.several_minimal, self.no_room, self.one_scenario];
        assert!(are_above(floor, &calls), "{self:?}");
        assert!(are_above(floor, &entries), "{self:?}");
        assert!(are_above(floor_of_kinds, &kinds), "{self:?}");
        assert!(self.barred > PROGRAMS / 2, "{self:?}");
    }

    fn of_held(&self) -> [usize; 3] {
        [self.held, self.not_agreeing, self.minimal_by_held]
    }
}

/// A fresh search and what the definition says of it.
struct FreshSearch {
    file: Vec<u8>,
    sheet: Vec<u8>,
    held: Held,
    dual: Vec<u8>,
    explanations: Vec<u32>,
    minimal: Vec<u32>,
    /// The scenarios that agree and that a byte 3 alone bars.
    barred: Vec<u32>,
    stop: u32,
    scenarios: u32,
    /// The round count of each scenario, judged by a call of its own, and zero
    /// where it does not agree.
    rounds: Vec<u64>,
    /// The same search with its judgements kept.
    keeping: Search,
    list: Vec<u32>,
    list_before: Vec<u32>,
    record: Record,
}

impl FreshSearch {
    fn new(random: &mut Random, program: &Program, query: &Query, held: Held) -> Self {
        let (file, sheet) = (encode_file(program), encode_sheet(query));
        let scenarios = scenario_count(program);
        let minimal = minimal_explanations(program, query, held);
        let length = random.below(minimal.len() + 3);
        let list: Vec<u32> = (0..length).map(|_| random.word() as u32).collect();
        let (mut dual_buffer, mut model) = (vec![0; 60_000], vec![0; 513]);
        let rounds = (0..scenarios).map(|scenario| {
            if !agrees(held, scenario) {
                return 0;
            }
            let judgement = judge(&file, &sheet, scenario, &mut dual_buffer, &mut model);
            judgement.unwrap().rounds
        });
        FreshSearch {
            rounds: rounds.collect(),
            dual: encode_dual(&dual(program)),
            explanations: explanations(program, query, held),
            barred: barred(program, query, held),
            stop: stopping_point(program, &minimal, length),
            scenarios,
            minimal,
            record: fresh_holding(program, held),
            keeping: Search::keeping(program.clone(), query.clone()),
            list_before: list.clone(),
            list,
            file,
            sheet,
            held,
        }
    }

    /// What the definition says of a call with this allowance.
    fn expected(&self, allowance: u32) -> Continued {
        let Record { position, .. } = self.record;
        let tried = allowance.min(self.stop - position);
        let end = position + tried;
        let found = self
            .minimal
            .iter()
            .filter(|&&scenario| scenario < end)
            .count();
        let state = if end == self.scenarios {
            State::Ended
        } else if tried < allowance {
            State::Full
        } else {
            State::Going
        };
        Continued {
            record: at_holding(end, found as u32, self.held),
            tried,
            rounds: self.rounds[position as usize..end as usize].iter().sum(),
            state,
        }
    }

    /// A call whose dual buffer is too short: it is refused and changes nothing.
    fn refused_call(&mut self, random: &mut Random) {
        let before = self.list.clone();
        let mut lent = vec![0xA5; random.below(self.dual.len())];
        let FreshSearch { file, sheet, .. } = self;
        let answer = continue_search(file, sheet, &mut lent, &mut self.list, self.record, 1);
        assert_eq!(answer, Err(ContinueRefusal::ShortDual));
        assert!(lent.iter().all(|&byte| byte == 0xA5));
        assert_eq!(self.list, before);
    }

    fn call(&mut self, allowance: u32, beyond: usize) -> Continued {
        let expected = self.expected(allowance);
        let (record, dual_length) = (self.record, self.dual.len());
        let mut kept_list = self.list.clone();
        let mut lent = vec![0xA5; dual_length + beyond];
        let FreshSearch { file, sheet, .. } = self;
        let answer = continue_search(file, sheet, &mut lent, &mut self.list, record, allowance);
        assert_eq!(answer, Ok(expected));
        assert_eq!(lent[..dual_length], self.dual);
        assert_eq!(lent[dual_length..], vec![0xA5; beyond]);
        let found = expected.record.found as usize;
        assert_eq!(self.list[..found], self.minimal[..found]);
        assert_eq!(self.list[found..], self.list_before[found..]);

        let keeping = &mut self.keeping;
        let kept = keeping.continue_search(&mut lent, &mut kept_list, record, allowance);
        assert_eq!(kept, Ok(expected));
        assert_eq!(kept_list, self.list);
        self.record = expected.record;
        expected
    }

    /// One call that goes as far as the slices gives what they gave, and their sum
    /// of rounds.
    fn compare_with_one_call(&self, rounds: u64) {
        let FreshSearch { file, sheet, .. } = self;
        let fresh = at_holding(0, 0, self.held);
        let mut lent = vec![0; self.dual.len()];
        let mut list = self.list_before.clone();
        let answer = continue_search(file, sheet, &mut lent, &mut list, fresh, u32::MAX).unwrap();
        assert_eq!(answer.record, self.record);
        assert_eq!(answer.tried, self.record.position);
        assert_eq!(answer.rounds, rounds);
        assert_eq!(list, self.list);
    }
}

fn barred(program: &Program, query: &Query, held: Held) -> Vec<u32> {
    let is_barred = |scenario| is_barred_by_3(&model(program, scenario).bytes(), query);
    (0..scenario_count(program))
        .filter(|&scenario| agrees(held, scenario) && is_barred(scenario))
        .collect()
}

fn count(search: &FreshSearch, before: Record, continued: &Continued, reached: &mut Reached) {
    let after = continued.record;
    let tried = before.position..after.position;
    let is_not_minimal =
        |scenario: &&u32| tried.contains(scenario) && !search.minimal.contains(scenario);
    let is_after_find = before.found > 0;
    if is_after_find {
        reached.not_minimal += search.explanations.iter().filter(is_not_minimal).count();
        reached.added_later += (after.found - before.found) as usize;
    }
    let is_tried = |scenario: &&u32| tried.contains(scenario);
    reached.barred += search.barred.iter().filter(is_tried).count();
    let is_not_agreeing = |&scenario: &u32| !agrees(search.held, scenario);
    reached.not_agreeing += tried.clone().filter(is_not_agreeing).count();
    match continued.state {
        State::Ended => reached.ended += 1,
        State::Full => reached.full += 1,
        State::Going => reached.going += 1,
    }
}

/// Goes on in random slices until ended, or until full twice.
fn go_through(random: &mut Random, search: &mut FreshSearch, reached: &mut Reached) {
    let mut stops = 0;
    let mut rounds = 0;
    while stops < 2 {
        if random.one_in(10) {
            search.refused_call(random);
            reached.refused += 1;
        }
        let allowance = match random.below(12) {
            0 => u32::MAX,
            1 => 0,
            _ => random.below(10) as u32,
        };
        let before = search.record;
        let beyond = random.below(3);
        let continued = search.call(allowance, beyond);
        count(search, before, &continued, reached);
        stops += usize::from(continued.state != State::Going);
        rounds += continued.rounds;
    }
    search.compare_with_one_call(rounds);
}

/// The explanations are those where no fault is held, less those that do not
/// agree.
fn compare_explanations(search: &FreshSearch, of_none: &[u32]) {
    let mut expected = of_none.to_vec();
    expected.retain(|&scenario| agrees(search.held, scenario));
    assert_eq!(search.explanations, expected);
}

fn count_kind(search: &FreshSearch, of_none: &[u32], reached: &mut Reached) {
    reached.several_minimal += usize::from(search.minimal.len() > 1);
    reached.no_room += usize::from(search.list.is_empty() && !search.minimal.is_empty());
    reached.one_scenario += usize::from(search.scenarios == 1);
    reached.held += usize::from(search.held != Held::NONE);
    let minimal_of_none = minimal_of(of_none);
    let is_by_held = |scenario: &&u32| !minimal_of_none.contains(scenario);
    reached.minimal_by_held += search.minimal.iter().filter(is_by_held).count();
}

/// Goes through so many searches over each of the random programs, and tells what
/// was reached.
fn go_through_programs(mut random: Random, searches: usize, choice: Choice) -> Reached {
    let mut reached = Reached::default();
    for _ in 0..PROGRAMS {
        let program = program_to_search(&mut random, 4, 4);
        let query = query(&mut random, &program);
        let of_none = explanations(&program, &query, Held::NONE);
        for _ in 0..searches {
            let held = choice(&mut random, &program);
            let mut search = FreshSearch::new(&mut random, &program, &query, held);
            compare_explanations(&search, &of_none);
            count_kind(&search, &of_none, &mut reached);
            go_through(&mut random, &mut search, &mut reached);
        }
    }
    reached
}

#[test]
fn a_fresh_search_in_slices_finds_the_minimal_explanations() {
    let reached = go_through_programs(Random::new(seed(13)), 1, none);
    reached.assert_above(PROGRAMS / 20, PROGRAMS / 100);
    assert_eq!(reached.of_held(), [0; 3], "{reached:?}");
}

#[test]
fn a_fresh_search_with_held_faults_in_slices_finds_its_minimal_explanations() {
    let reached = go_through_programs(Random::new(seed(23)), HOLDING, masks);
    reached.assert_above(PROGRAMS / 20, PROGRAMS / 5);
    assert!(are_above(PROGRAMS, &reached.of_held()), "{reached:?}");
    let often = [reached.full, reached.not_minimal];
    assert!(are_above(PROGRAMS, &often), "{reached:?}");
    assert!(reached.held > 4 * PROGRAMS, "{reached:?}");
}

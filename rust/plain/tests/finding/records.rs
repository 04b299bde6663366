//! Continuing from random records with random lists, not reached from a fresh
//! search, with no fault held and with random masks, and test 14 on them.
//!
//! What the general rule adds is found here all at once: of the agreeing
//! explanations at or after the position that contain no listed entry's
//! assumptions, those that contain no other of them. The first of them that has
//! no room is the stopping point.

use plain::{
    contains_assumptions, minimal_of, scenario_count, ContinueRefusal, Continued, Held, Program,
    Record, Search, State,
};
use random::seed::seed;
use random::Random;

use crate::holding::{agrees, at_holding, masks, none, Choice};
use crate::programs::{are_above, program_to_search, query};

const PROGRAMS: usize = 2_000;
const RECORDS: usize = 30;
/// Records with masks: fewer entries are added to these.
const WITH_MASKS: usize = 60;

/// What the random records reached.
#[derive(Debug, Default)]
struct Reached {
    spoilt: usize,
    /// By their masks alone.
    spoilt_by_masks: usize,
    ended: usize,
    full: usize,
    going: usize,
    added: usize,
    /// Entries added to a search with held faults.
    added_holding: usize,
    /// Entries added that are not minimal by the definition.
    not_minimal: usize,
    /// Minimal explanations tried and not added.
    left_out: usize,
}

impl Reached {
    /// What is asked whatever is held.
    fn assert_above(&self, floor: usize, floor_of_left_out: usize) {
        let calls = [self.spoilt, self.ended, self.full, self.going];
        let entries = [self.added, self.not_minimal];
        assert!(are_above(floor, &calls), "{self:?}");
        assert!(are_above(floor, &entries), "{self:?}");
        assert!(self.left_out > floor_of_left_out, "{self:?}");
    }

    fn of_masks(&self) -> [usize; 2] {
        [self.spoilt_by_masks, self.added_holding]
    }
}

/// Test 14 in other words, without its masks.
fn is_spoilt(scenarios: u32, list: &[u32], record: Record) -> bool {
    let found = record.found as usize;
    if record.position > scenarios || found > list.len() {
        return true;
    }
    let mut sorted = list[..found].to_vec();
    sorted.sort_unstable();
    sorted.dedup();
    sorted != list[..found] || sorted.last().is_some_and(|&last| last >= record.position)
}

/// Whether 15 or 16 would refuse the masks, in other words.
fn has_spoilt_masks(program: &Program, held: Held) -> bool {
    let has_bit = |mask: u16, bit: usize| mask & (1 << bit) != 0;
    (0..16).any(|bit| {
        let is_assumed = has_bit(held.assumed, bit);
        let is_ruled_out = has_bit(held.ruled, bit);
        let is_listed = bit < program.abducibles.len();
        is_assumed && is_ruled_out || (is_assumed || is_ruled_out) && !is_listed
    })
}

/// What the general rule says, and the entries it adds.
fn expected(
    search: &mut Search,
    list: &[u32],
    record: Record,
    allowance: u32,
) -> (Continued, Vec<u32>) {
    let scenarios = scenario_count(search.program());
    let (listed, room) = list.split_at(record.found as usize);
    let is_agreeing = |&scenario: &u32| agrees(record.held(), scenario);
    let mut candidates = search.explanations(Held::NONE);
    candidates.retain(is_agreeing);
    candidates.retain(|&scenario| {
        let mut listed = listed.iter();
        scenario >= record.position && !listed.any(|&entry| contains_assumptions(scenario, entry))
    });
    let mut added = minimal_of(&candidates);
    let stop = added.get(room.len()).copied().unwrap_or(scenarios);
    let tried = allowance.min(stop - record.position);
    let position = record.position + tried;
    added.retain(|&scenario| scenario < position);
    let tried_scenarios = record.position..position;
    let continued = Continued {
        record: Record {
            position,
            found: record.found + added.len() as u32,
            ..record
        },
        tried,
        rounds: tried_scenarios
            .filter(is_agreeing)
            .map(|scenario| search.judgement(scenario).rounds)
            .sum(),
        state: match (position == scenarios, tried < allowance) {
            (true, _) => State::Ended,
            (false, true) => State::Full,
            (false, false) => State::Going,
        },
    };
    (continued, added)
}

fn count(search: &mut Search, continued: &Continued, added: &[u32], reached: &mut Reached) {
    match continued.state {
        State::Ended => reached.ended += 1,
        State::Full => reached.full += 1,
        State::Going => reached.going += 1,
    }
    let held = continued.record.held();
    let minimal = search.minimal_explanations(held);
    reached.added += added.len();
    if held != Held::NONE {
        reached.added_holding += added.len();
    }
    let is_minimal = |scenario: &&u32| minimal.contains(scenario);
    reached.not_minimal += added.len() - added.iter().filter(is_minimal).count();
    let end = continued.record.position;
    let tried = end - continued.tried..end;
    let is_left_out = |scenario: &&u32| tried.contains(scenario) && !added.contains(scenario);
    reached.left_out += minimal.iter().filter(is_left_out).count();
}

/// Masks that a fresh search accepts, or any without a bit above k.
fn any_masks(random: &mut Random, program: &Program) -> Held {
    if !random.one_in(6) {
        return masks(random, program);
    }
    let above = 1 << (program.abducibles.len() + 1);
    Held {
        assumed: random.below(above) as u16,
        ruled: random.below(above) as u16,
    }
}

fn compare(random: &mut Random, search: &mut Search, choice: Choice, reached: &mut Reached) {
    let scenarios = scenario_count(search.program());
    let number = |random: &mut Random| random.below(scenarios as usize + 2) as u32;
    let length = random.below(5);
    let mut list: Vec<u32> = (0..length).map(|_| number(random)).collect();
    let found = random.below(length + 2).min(random.below(length + 2));
    if !random.one_in(5) {
        list.sort_unstable();
        list.dedup();
    }
    let held = choice(random, search.program());
    let position = number(random).max(number(random));
    let record = at_holding(position, found as u32, held);
    let allowance = random.pick(&[0, 1, 2, 3, 5, 9, 20, u32::MAX]);

    let before = list.clone();
    let mut dual = vec![0; 60_000];
    let answer = search.continue_search(&mut dual, &mut list, record, allowance);
    let has_spoilt_masks = has_spoilt_masks(search.program(), held);
    let is_spoilt = is_spoilt(scenarios, &before, record);
    if is_spoilt || has_spoilt_masks {
        assert_eq!(answer, Err(ContinueRefusal::SpoiltSearch));
        assert_eq!(list, before);
        reached.spoilt += 1;
        reached.spoilt_by_masks += usize::from(!is_spoilt);
        return;
    }
    let (continued, added) = expected(search, &before, record, allowance);
    assert_eq!(answer, Ok(continued));
    let after = found + added.len();
    assert_eq!(list[..found], before[..found]);
    assert_eq!(list[found..after], added);
    assert_eq!(list[after..], before[after..]);
    count(search, &continued, &added, reached);
}

/// Goes on from so many records over each of the random programs, and tells what
/// was reached.
fn compare_all(mut random: Random, records: usize, choice: Choice) -> Reached {
    let mut reached = Reached::default();
    for _ in 0..PROGRAMS {
        let program = program_to_search(&mut random, 4, 4);
        let query = query(&mut random, &program);
        let mut search = Search::keeping(program, query);
        for _ in 0..records {
            compare(&mut random, &mut search, choice, &mut reached);
        }
    }
    reached
}

#[test]
fn any_record_goes_by_the_general_rule() {
    let reached = compare_all(Random::new(seed(19)), RECORDS, none);
    reached.assert_above(PROGRAMS, PROGRAMS / 10);
    assert_eq!(reached.of_masks(), [0; 2], "{reached:?}");
}

#[test]
fn any_record_with_held_faults_goes_by_the_general_rule() {
    let reached = compare_all(Random::new(seed(29)), WITH_MASKS, any_masks);
    reached.assert_above(PROGRAMS, PROGRAMS / 5);
    assert!(are_above(2 * PROGRAMS, &reached.of_masks()), "{reached:?}");
}

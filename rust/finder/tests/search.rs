//! Each slot of finder_continue, each byte and entry of the buffer and the list
//! that it is lent, and the answer made of them, on hand-made papers.

mod pairs;
mod papers;

use calls::continuing::{self, Continuing, DUAL_LENGTH, RESUMED};
use calls::holding::{self, A, B, HOLDINGS, REFUSED_MASKS};
use calls::lent::list_pattern;
use calls::searching::OF_NOT_P4;
use finder::{
    continue_search, continue_words, fresh, ContinueRefusal, Continued, Record, Refusal, State,
    SLOTS,
};
use pairs::{each_pair_with_refused_file, each_pair_with_refused_sheet, first_slots};
use papers::PATTERN;

/// What the dual buffer holds before a call.
const BYTE: u8 = 0xC3;

/// What is lent beside the list.
#[derive(Clone, Copy)]
struct Lent<'p> {
    file: &'p [u8],
    sheet: &'p [u8],
    dual_length: usize,
}

/// A record that holds no fault.
fn at(position: u32, found: u32) -> Record {
    at_holding(position, found, (0, 0))
}

fn at_holding(position: u32, found: u32, (assumed, ruled): (u16, u16)) -> Record {
    Record {
        position,
        found,
        assumed,
        ruled,
    }
}

/// Whether the scenario's digits at a and b are those that the record holds.
fn agrees(record: Record, scenario: u32) -> bool {
    let is_held = |mask: u16, fault: u32| mask & 1 << fault != 0;
    (0..2).all(|fault| {
        let digit = scenario / 3_u32.pow(fault) % 3;
        (!is_held(record.assumed, fault) || digit == 1)
            && (!is_held(record.ruled, fault) || digit == 2)
    })
}

/// Checks that continuing is refused, that the record comes back as given, and
/// that buffer and list stay.
fn refused(lent: Lent, list: &[u32], record: Record, refusal: ContinueRefusal) {
    let [number, paper, place] = match refusal {
        ContinueRefusal::Papers(refusal) => first_slots(refusal),
        ContinueRefusal::ShortDual => [11, 0, 0],
        ContinueRefusal::SpoiltSearch => [14, 0, 0],
    };
    let (position, found) = (record.position.into(), record.found.into());
    let words = [number, paper, place, position, found, 0, 0, 0];
    for allowance in [0, 1, u32::MAX] {
        let Lent { file, sheet, .. } = lent;
        let mut out = [PATTERN; SLOTS];
        let mut dual = vec![BYTE; lent.dual_length];
        let mut entries = list.to_vec();
        continue_words(
            file,
            sheet,
            &mut dual,
            &mut entries,
            record,
            allowance,
            &mut out,
        );
        assert_eq!(out, words);
        let answer = continue_search(file, sheet, &mut dual, &mut entries, record, allowance);
        assert_eq!(answer, Err(refusal));
        assert_eq!(dual, vec![BYTE; lent.dual_length]);
        assert_eq!(entries, list);
    }
}

fn paper_refused(file: &[u8], sheet: &[u8], refusal: Refusal) {
    for (dual_length, record) in [
        (100, at(0, 0)),
        (100, at(2, 1)),
        (100, at(u32::MAX, u32::MAX)),
        (0, at(1_000, 7)),
        (100, at_holding(0, 0, (A, B))),
        (0, at_holding(0, 0, (u16::MAX, u16::MAX))),
    ] {
        let lent = Lent {
            file,
            sheet,
            dual_length,
        };
        let list = list_pattern(3);
        refused(lent, &list, record, ContinueRefusal::Papers(refusal));
    }
}

/// Calls over the papers of not p4.
struct NotP4 {
    file: Vec<u8>,
    sheet: Vec<u8>,
}

impl NotP4 {
    fn new() -> Self {
        NotP4 {
            file: OF_NOT_P4.program.file(),
            sheet: OF_NOT_P4.program.sheet(OF_NOT_P4.query),
        }
    }

    fn lent(&self, dual_length: usize) -> Lent<'_> {
        Lent {
            file: &self.file,
            sheet: &self.sheet,
            dual_length,
        }
    }

    /// The rounds of the scenarios from the record's position to `end` that agree,
    /// each judged by a call of its own, added up.
    fn rounds(&self, record: Record, end: u32) -> u64 {
        let (mut dual, mut model) = (vec![0; DUAL_LENGTH], vec![0; 9]);
        let mut rounds = 0;
        let scenarios = record.position..end;
        for scenario in scenarios.filter(|&scenario| agrees(record, scenario)) {
            let judgement = finder::judge(&self.file, &self.sheet, scenario, &mut dual, &mut model);
            rounds += judgement.expect("an accepted call").rounds;
        }
        rounds
    }

    /// Continues, checks the words, the rounds and what must stay, and gives the
    /// answer.
    fn go_on(&self, list: &mut [u32], record: Record, allowance: u32) -> Continued {
        let NotP4 { file, sheet } = self;
        let before = list.to_vec();
        let mut written = vec![0; DUAL_LENGTH];
        assert_eq!(finder::write_dual(file, &mut written), Ok(DUAL_LENGTH));
        let mut expected = vec![BYTE; DUAL_LENGTH + 7];
        expected[..DUAL_LENGTH].copy_from_slice(&written);

        let mut out = [PATTERN; SLOTS];
        let mut dual = vec![BYTE; DUAL_LENGTH + 7];
        continue_words(file, sheet, &mut dual, list, record, allowance, &mut out);
        assert_eq!(dual, expected);
        let mut again = before.clone();
        let answer = continue_search(file, sheet, &mut dual, &mut again, record, allowance);
        let continued = answer.expect("an accepted call");
        assert_eq!(again, list);
        assert_eq!(dual, expected);

        let Continued {
            record: next,
            tried,
            rounds,
            state,
        } = continued;
        let state_word = match state {
            State::Going => 0,
            State::Full => 1,
            State::Ended => 2,
        };
        let record_words = [next.position.into(), next.found.into()];
        assert_eq!(out[..3], [0, 0, 0]);
        assert_eq!(out[3..5], record_words);
        assert_eq!(out[5..], [tried.into(), rounds, state_word]);
        assert_eq!(next.position, record.position + tried);
        assert_eq!(rounds, self.rounds(record, next.position));
        assert_eq!((next.assumed, next.ruled), (record.assumed, record.ruled));
        let (old, new) = (record.found as usize, next.found as usize);
        assert_eq!(list[..old], before[..old]);
        assert_eq!(list[new..], before[new..]);
        continued
    }

    /// Begins a search that holds faults and goes on with this allowance until it
    /// has stopped. Tells what all calls tried, their rounds, the last state and
    /// how many were found.
    fn whole(
        &self,
        (assumed, ruled): (u16, u16),
        list: &mut [u32],
        allowance: u32,
    ) -> (u32, u64, continuing::State, u32) {
        let mut record = fresh(&self.file, assumed, ruled).expect("masks that are accepted");
        let (mut tried, mut rounds) = (0, 0);
        loop {
            let continued = self.go_on(list, record, allowance);
            tried += continued.tried;
            rounds += continued.rounds;
            record = continued.record;
            if continued.state != State::Going {
                return (tried, rounds, told(continued.state), record.found);
            }
        }
    }
}

/// A state as the table has it.
fn told(state: State) -> continuing::State {
    match state {
        State::Going => continuing::State::Going,
        State::Full => continuing::State::Full,
        State::Ended => continuing::State::Ended,
    }
}

fn each(calls: &[Continuing]) {
    let not_p4 = NotP4::new();
    continuing::each(calls, |list, (position, found), allowance| {
        let continued = not_p4.go_on(list, at(position, found), allowance);
        let Record {
            position, found, ..
        } = continued.record;
        (continued.tried, told(continued.state), (position, found))
    });
}

#[test]
fn not_p4_with_a_list_of_one() {
    each(continuing::WITH_A_LIST_OF_ONE);
}

#[test]
fn the_entries_found_are_added_in_order() {
    each(continuing::TO_THE_END);
}

#[test]
fn the_states_about_the_stopping_point() {
    each(continuing::ABOUT_THE_STOPPING_POINT);
}

#[test]
fn a_list_of_length_0_stops_at_the_first_find() {
    each(continuing::WITH_A_LIST_OF_NONE);
}

#[test]
fn a_record_of_another_search_goes_by_its_list() {
    each(continuing::OF_ANOTHER_SEARCH);
}

#[test]
fn a_pause_forgets_no_entry() {
    let not_p4 = NotP4::new();
    let mut list = list_pattern(4);
    let mut record = at(0, 0);
    for position in 1..=9 {
        let found = match position {
            0..2 => 0,
            2..4 => 1,
            _ => 2,
        };
        let state = if position < 9 {
            State::Going
        } else {
            State::Ended
        };
        let next = at(position, found);
        let mut check = |record, allowance| {
            let continued = not_p4.go_on(&mut list, record, allowance);
            let given = (continued.tried, continued.state, continued.record);
            assert_eq!(given, (allowance, state, next));
        };
        check(record, 1);
        check(next, 0);
        record = next;
    }
    assert_eq!(list[..2], [1, 3]);
}

#[test]
fn each_refusal_of_the_file() {
    each_pair_with_refused_file(paper_refused);
}

#[test]
fn each_refusal_of_the_sheet() {
    each_pair_with_refused_sheet(paper_refused);
}

#[test]
fn a_short_dual_is_refused_11() {
    let not_p4 = NotP4::new();
    let list = list_pattern(2);
    for dual_length in 0..DUAL_LENGTH {
        let lent = not_p4.lent(dual_length);
        // It comes before 14.
        for record in [
            at(0, 0),
            at(10, 0),
            at(9, 3),
            at_holding(0, 0, (A, 0)),
            at_holding(0, 0, (A, A)),
            at_holding(0, 0, (0, 0b100)),
        ] {
            refused(lent, &list, record, ContinueRefusal::ShortDual);
        }
    }
}

#[test]
fn a_spoilt_search_is_refused_14() {
    let not_p4 = NotP4::new();
    for resumed in RESUMED {
        let record = at(resumed.record.0, resumed.record.1);
        if resumed.is_spoilt {
            let lent = not_p4.lent(DUAL_LENGTH);
            refused(lent, resumed.list, record, ContinueRefusal::SpoiltSearch);
        } else {
            let mut list = resumed.list.to_vec();
            not_p4.go_on(&mut list, record, 0);
            assert_eq!(list, resumed.list);
        }
    }
}

#[test]
fn searches_that_hold_faults_at_once_and_in_pieces() {
    let not_p4 = NotP4::new();
    for allowance in [u32::MAX, 10, 9, 5, 4, 3, 2, 1] {
        holding::each(HOLDINGS, |masks, list| not_p4.whole(masks, list, allowance));
    }
}

#[test]
fn a_record_whose_masks_are_refused_is_spoilt() {
    let not_p4 = NotP4::new();
    let lent = not_p4.lent(DUAL_LENGTH);
    for &(masks, _) in REFUSED_MASKS {
        for (position, found) in [(0, 0), (4, 1), (9, 2), (10, 0)] {
            let record = at_holding(position, found, masks);
            refused(lent, &[1, 7], record, ContinueRefusal::SpoiltSearch);
        }
    }
}

#[test]
fn listed_entries_that_do_not_agree_bar_what_contains_them() {
    let not_p4 = NotP4::new();
    let added = |entry, position, masks| {
        let mut list = [entry, u32::MAX];
        let continued = not_p4.go_on(&mut list, at_holding(position, 1, masks), 9);
        assert_eq!(continued.state, State::Ended);
        list[1..continued.record.found as usize].to_vec()
    };
    // 5 contains 3, and neither 1 nor 4.
    assert_eq!(added(3, 4, (0, A)), []);
    assert_eq!(added(1, 4, (0, A)), [5]);
    assert_eq!(added(4, 5, (0, A)), [5]);
    // All contain 0.
    assert_eq!(added(0, 1, (0, B)), []);
}

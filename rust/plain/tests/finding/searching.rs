//! Continuing, by hand.

use calls::continuing::{self, Continuing, DUAL_LENGTH, RESUMED};
use calls::lent::list_pattern;
use calls::searching::OF_NOT_P4;
use plain::{
    encode_file, encode_sheet, judge, ContinueRefusal, Continued, Held, Number, Paper, Program,
    Query, Record, Refusal, Search, State,
};

use crate::hand::bytes;
use crate::holding::{at, fresh};
use crate::lent::{continue_refused, continued};
use crate::text::{loaded, program, query};

fn not_p4() -> (Program, Query) {
    loaded(&OF_NOT_P4.program, OF_NOT_P4.query)
}

/// The rounds of the scenarios, each judged by a call of its own, added up.
fn rounds(program: &Program, query: &Query, scenarios: std::ops::Range<u32>) -> u64 {
    let (file, sheet) = (encode_file(program), encode_sheet(query));
    let (mut dual, mut model) = (vec![0; 60_000], vec![0; 513]);
    scenarios
        .map(|scenario| judge(&file, &sheet, scenario, &mut dual, &mut model).unwrap())
        .map(|judgement| judgement.rounds)
        .sum()
}

/// Continues over not p4 and checks what follows from tried.
fn go_on(list: &mut [u32], record: Record, allowance: u32) -> (u32, State, Record) {
    let (program, query) = not_p4();
    let continued = continued(&program, &query, list, record, allowance);
    let end = record.position + continued.tried;
    assert_eq!(continued.record.position, end);
    assert_eq!(
        continued.rounds,
        rounds(&program, &query, record.position..end)
    );
    (continued.tried, continued.state, continued.record)
}

/// A state as the table has it.
fn told(state: State) -> continuing::State {
    match state {
        State::Going => continuing::State::Going,
        State::Full => continuing::State::Full,
        State::Ended => continuing::State::Ended,
    }
}

fn each(calls: &[Continuing]) {
    continuing::each(calls, |list, (position, found), allowance| {
        let (tried, state, record) = go_on(list, at(position, found), allowance);
        (tried, told(state), (record.position, record.found))
    });
}

#[test]
fn not_p4_with_a_list_of_one() {
    each(continuing::WITH_A_LIST_OF_ONE);
}

#[test]
fn the_entries_found_are_added_in_order() {
    each(continuing::TO_THE_END);
}

#[test]
fn the_states_about_the_stopping_point() {
    each(continuing::ABOUT_THE_STOPPING_POINT);
}

#[test]
fn a_list_of_length_0_stops_at_the_first_find() {
    each(continuing::WITH_A_LIST_OF_NONE);
}

#[test]
fn a_record_of_another_search_goes_by_its_list() {
    each(continuing::OF_ANOTHER_SEARCH);
}

#[test]
fn a_pause_forgets_no_entry() {
    let mut list = list_pattern(4);
    let mut record = fresh(&not_p4().0);
    for position in 1..=9 {
        let found = if position < 2 {
            0
        } else if position < 4 {
            1
        } else {
            2
        };
        let state = if position < 9 {
            State::Going
        } else {
            State::Ended
        };
        let next = at(position, found);
        assert_eq!(go_on(&mut list, record, 1), (1, state, next));
        assert_eq!(go_on(&mut list, next, 0), (0, state, next));
        record = next;
    }
    assert_eq!(list[..2], [1, 3]);
}

#[test]
fn without_abducibles_there_is_one_scenario() {
    let program = program("p", "", "p");
    let fresh = fresh(&program);
    let go_on = |text, list: &mut [u32], record, allowance| {
        let query = query("p", text);
        let continued = continued(&program, &query, list, record, allowance);
        let Continued {
            record,
            tried,
            rounds,
            state,
        } = continued;
        assert_eq!(rounds, u64::from(tried));
        (tried, state, record)
    };
    let mut list = list_pattern(1);
    let found = (1, State::Ended, at(1, 1));
    assert_eq!(go_on("p", &mut list, fresh, 1), found);
    assert_eq!(list, [0]);
    let none = (1, State::Ended, at(1, 0));
    assert_eq!(go_on("not p", &mut list, fresh, 9), none);
    assert_eq!(go_on("not p", &mut [], fresh, 9), none);
    // With no room the only scenario is the stopping point.
    let full = (0, State::Full, at(0, 0));
    assert_eq!(go_on("p", &mut [], fresh, 1), full);
    let going = (0, State::Going, at(0, 0));
    assert_eq!(go_on("p", &mut [], fresh, 0), going);
    let ended = (0, State::Ended, at(1, 0));
    assert_eq!(go_on("p", &mut [], at(1, 0), 0), ended);
    assert_eq!(go_on("p", &mut [], at(1, 0), 1), ended);
}

#[test]
fn a_spoilt_search_is_refused_14() {
    let (spoilt, short) = (ContinueRefusal::SpoiltSearch, ContinueRefusal::ShortDual);
    assert_eq!((spoilt.number(), short.number()), (14, 11));
    let (program, query) = not_p4();
    let (file, sheet) = (encode_file(&program), encode_sheet(&query));
    let papers = (&file[..], &sheet[..]);
    for resumed in RESUMED {
        let list = resumed.list;
        let record = at(resumed.record.0, resumed.record.1);
        if resumed.is_spoilt {
            continue_refused(spoilt, papers, DUAL_LENGTH, list, record);
        } else {
            let mut lent = list.to_vec();
            continued(&program, &query, &mut lent, record, 0);
            assert_eq!(lent, list);
        }
        // 11 comes before it.
        continue_refused(short, papers, DUAL_LENGTH - 1, list, record);
        continue_refused(short, papers, 0, list, record);
    }
}

#[test]
fn the_papers_are_refused_first() {
    let (program, query) = not_p4();
    let (file, sheet) = (encode_file(&program), encode_sheet(&query));
    let refusal = |number, paper, place| {
        ContinueRefusal::Papers(Refusal {
            number,
            paper,
            place,
        })
    };
    let bad_sheet = bytes(&["06 0002 0010 7F 0000"]);
    let unlisted = refusal(Number::Unlisted, Paper::Sheet, 0);
    assert_eq!(unlisted.number(), 6);
    let cut = refusal(Number::Cut, Paper::File, 0);
    for (dual_length, record) in [(100, fresh(&program)), (100, at(10, 7)), (0, at(0, 0))] {
        let list = list_pattern(3);
        continue_refused(unlisted, (&file, &bad_sheet), dual_length, &list, record);
        continue_refused(cut, (&[], &bad_sheet), dual_length, &list, record);
        continue_refused(cut, (&[], &sheet), dual_length, &list, record);
    }
}

#[test]
fn a_search_that_keeps_its_judgements_answers_the_same() {
    let (program, query) = not_p4();
    let mut search = Search::keeping(program.clone(), query.clone());
    assert_eq!(search.explanations(Held::NONE), [1, 3, 4, 5, 7]);
    assert_eq!(search.minimal_explanations(Held::NONE), [1, 3]);
    let mut dual = vec![0; DUAL_LENGTH];
    for position in 0..=9 {
        for allowance in [0, 1, 2, 9] {
            let (mut list, mut other) = (list_pattern(2), list_pattern(2));
            let record = at(position, 0);
            let expected = continued(&program, &query, &mut list, record, allowance);
            let answer = search.continue_search(&mut dual, &mut other, record, allowance);
            assert_eq!((answer, other), (Ok(expected), list));
        }
    }
    let spoilt = search.continue_search(&mut dual, &mut [], at(10, 0), 1);
    assert_eq!(spoilt, Err(ContinueRefusal::SpoiltSearch));
    let short = search.continue_search(&mut dual[1..], &mut [], at(10, 0), 1);
    assert_eq!(short, Err(ContinueRefusal::ShortDual));
}

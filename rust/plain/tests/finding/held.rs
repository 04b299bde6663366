//! Held faults, by hand: Card 1 of document 02.
//!
//! Most is over not p4 of Figure 1, with abducibles a, b in that order. All its
//! explanations are 1, 3, 4, 5 and 7, of which 1 and 3 are minimal.

use calls::continuing::DUAL_LENGTH;
use calls::lent::list_pattern;
use calls::searching::OF_NOT_P4;
use plain::{
    encode_file, encode_sheet, explanations, fresh, fresh_over, minimal_explanations, model,
    stopping_point, Atom, ContinueRefusal, Continued, FreshRefusal, Held, Number, Paper, Program,
    Query, Record, Refusal, Search, State,
};

use crate::example::FILE;
use crate::hand::bytes;
use crate::holding::{at_holding, fresh_holding, held};
use crate::lent::{continue_refused, continued};
use crate::text::{loaded, program, query};

/// The bits of the first and the second abducible.
const A: u16 = 0b01;
const B: u16 = 0b10;

fn not_p4() -> (Program, Query) {
    loaded(&OF_NOT_P4.program, OF_NOT_P4.query)
}

/// A program whose atoms are all abducible.
fn all_abducible(count: u16) -> Program {
    Program {
        atoms: count.max(1),
        abducibles: (0..count).map(Atom).collect(),
        rules: vec![],
        integrity_bodies: vec![],
    }
}

/// The round counts of these scenarios added up.
fn rounds(program: &Program, scenarios: &[u32]) -> u64 {
    let rounds = scenarios
        .iter()
        .map(|&scenario| model(program, scenario).rounds);
    rounds.sum()
}

/// What a fresh search over the program's file answers, and over the program.
fn fresh_both(program: &Program, assumed: u16, ruled: u16) -> Result<Record, FreshRefusal> {
    let answer = fresh(&encode_file(program), assumed, ruled);
    assert_eq!(fresh_over(program, assumed, ruled), answer);
    answer
}

#[test]
fn a_fresh_record_carries_both_masks() {
    let (program, _) = not_p4();
    for (assumed, ruled) in [(0, 0), (A, 0), (0, A), (A, B), (B, A), (A | B, 0)] {
        let record = Record {
            position: 0,
            found: 0,
            assumed,
            ruled,
        };
        assert_eq!(fresh_both(&program, assumed, ruled), Ok(record));
        assert_eq!(record.held(), held(assumed, ruled));
    }
}

#[test]
fn masks_that_share_a_bit_are_refused_15() {
    assert_eq!(FreshRefusal::SharedBit.number(), 15);
    let shared = Err(FreshRefusal::SharedBit);
    let (program, _) = not_p4();
    for (assumed, ruled) in [(A, A), (B, B), (A | B, A), (B, A | B), (A | B, A | B)] {
        assert_eq!(fresh_both(&program, assumed, ruled), shared);
    }
    let most = all_abducible(16);
    assert_eq!(fresh_both(&most, 1 << 15, 1 << 15), shared);
    assert_eq!(fresh_both(&most, u16::MAX, u16::MAX), shared);
    assert!(fresh_both(&most, 0xFF00, 0x00FF).is_ok());
}

#[test]
fn a_bit_at_or_above_k_is_refused_16() {
    assert_eq!(FreshRefusal::UnlistedBit.number(), 16);
    for count in 0..=16 {
        let program = all_abducible(count);
        for bit in 0..16 {
            let mask = 1 << bit;
            for (assumed, ruled) in [(mask, 0), (0, mask)] {
                let answer = fresh_both(&program, assumed, ruled);
                let expected = if bit < count {
                    Ok(at_holding(0, 0, held(assumed, ruled)))
                } else {
                    Err(FreshRefusal::UnlistedBit)
                };
                assert_eq!(answer, expected, "{count} {bit}");
            }
        }
    }
    // One bit below k does not help one above.
    let (program, _) = not_p4();
    for (assumed, ruled) in [(0b101, 0), (A, 0b100), (0b100, A), (0, 0b110)] {
        let answer = fresh_both(&program, assumed, ruled);
        assert_eq!(answer, Err(FreshRefusal::UnlistedBit));
    }
}

#[test]
fn refusal_15_comes_before_16() {
    let (program, _) = not_p4();
    for (assumed, ruled) in [(0b101, 0b100), (0b100, 0b100), (0b101, 0b001)] {
        let answer = fresh_both(&program, assumed, ruled);
        assert_eq!(answer, Err(FreshRefusal::SharedBit));
    }
}

#[test]
fn the_file_is_refused_before_the_masks() {
    let refusal = |number, place| {
        FreshRefusal::File(Refusal {
            number,
            paper: Paper::File,
            place,
        })
    };
    let (cut, tail) = (refusal(Number::Cut, 0), refusal(Number::Tail, 24));
    assert_eq!((cut.number(), tail.number()), (1, 10));
    let with_tail = bytes(&[FILE, "00"]);
    for (assumed, ruled) in [(0, 0), (A, A), (1 << 15, 0), (0b101, 0b100)] {
        assert_eq!(fresh(&[], assumed, ruled), Err(cut));
        assert_eq!(fresh(&with_tail, assumed, ruled), Err(tail));
    }
}

#[test]
fn a_scenario_agrees_by_its_digit_at_each_held_fault() {
    let agreeing = |assumed, ruled| -> Vec<u32> {
        let held = held(assumed, ruled);
        (0..9).filter(|&scenario| held.agrees(scenario)).collect()
    };
    assert_eq!(agreeing(0, 0), [0, 1, 2, 3, 4, 5, 6, 7, 8]);
    assert_eq!(agreeing(A, 0), [1, 4, 7]);
    assert_eq!(agreeing(0, A), [2, 5, 8]);
    assert_eq!(agreeing(B, 0), [3, 4, 5]);
    assert_eq!(agreeing(0, B), [6, 7, 8]);
    assert_eq!(agreeing(A | B, 0), [4]);
    assert_eq!(agreeing(0, A | B), [8]);
    assert_eq!(agreeing(A, B), [7]);
    assert_eq!(agreeing(B, A), [5]);
    // The last of sixteen.
    let last = 3_u32.pow(15);
    for (digit, as_assumed, as_ruled_out) in [(0, false, false), (1, true, false), (2, false, true)]
    {
        let scenario = digit * last + 8;
        assert_eq!(held(1 << 15, 0).agrees(scenario), as_assumed);
        assert_eq!(held(0, 1 << 15).agrees(scenario), as_ruled_out);
    }
}

/// All explanations of not p4 with these masks, and the minimal ones among them.
const OF_NOT_P4_HOLDING: &[(u16, u16, &[u32], &[u32])] = &[
    (0, 0, &[1, 3, 4, 5, 7], &[1, 3]),
    (A, 0, &[1, 4, 7], &[1]),
    // 3 is part of 5 and does not agree.
    (0, A, &[5], &[5]),
    (B, 0, &[3, 4, 5], &[3]),
    // 1 is part of 7 and does not agree.
    (0, B, &[7], &[7]),
    (A | B, 0, &[4], &[4]),
    (0, A | B, &[], &[]),
    (A, B, &[7], &[7]),
    (B, A, &[5], &[5]),
];

#[test]
fn not_p4_with_held_faults() {
    let (program, query) = not_p4();
    let mut search = Search::new(program.clone(), query.clone());
    for &(assumed, ruled, all, minimal) in OF_NOT_P4_HOLDING {
        let held = held(assumed, ruled);
        assert_eq!(explanations(&program, &query, held), all);
        assert_eq!(minimal_explanations(&program, &query, held), minimal);
        assert_eq!(search.explanations(held), all);
        assert_eq!(search.minimal_explanations(held), minimal);

        let agreeing: Vec<u32> = (0..9).filter(|&scenario| held.agrees(scenario)).collect();
        let mut list = list_pattern(4);
        let record = fresh_holding(&program, held);
        let expected = Continued {
            record: at_holding(9, minimal.len() as u32, held),
            tried: 9,
            rounds: rounds(&program, &agreeing),
            state: State::Ended,
        };
        assert_eq!(continued(&program, &query, &mut list, record, 9), expected);
        assert_eq!(&list[..minimal.len()], minimal);
    }
}

#[test]
fn a_scenario_that_does_not_agree_is_tried_with_zero_rounds() {
    let (program, query) = not_p4();
    let b_assumed = held(B, 0);
    let mut list = list_pattern(1);
    let mut record = fresh_holding(&program, b_assumed);
    // Only 3, 4 and 5 have b assumed; each scenario costs one of the allowance.
    for scenario in 0..9 {
        let is_agreeing = (3..6).contains(&scenario);
        let found = u32::from(scenario >= 3);
        let expected = Continued {
            record: at_holding(scenario + 1, found, b_assumed),
            tried: 1,
            rounds: if is_agreeing {
                rounds(&program, &[scenario])
            } else {
                0
            },
            state: if scenario < 8 {
                State::Going
            } else {
                State::Ended
            },
        };
        assert!(model(&program, scenario).rounds > 0);
        let continued = continued(&program, &query, &mut list, record, 1);
        assert_eq!(continued, expected);
        record = continued.record;
    }
    assert_eq!(list, [3]);
    // An allowance that is spent before the first that agrees.
    let record = fresh_holding(&program, b_assumed);
    let expected = Continued {
        record: at_holding(3, 0, b_assumed),
        tried: 3,
        rounds: 0,
        state: State::Going,
    };
    assert_eq!(continued(&program, &query, &mut [], record, 3), expected);
}

/// Continues over not p4 with a held as ruled out, whose only explanation is 5.
fn go_on_without_a(list: &mut [u32], position: u32, allowance: u32) -> (u32, State, u32) {
    let (program, query) = not_p4();
    let record = at_holding(position, 0, held(0, A));
    let continued = continued(&program, &query, list, record, allowance);
    assert_eq!(continued.record.held(), record.held());
    assert_eq!(continued.record.position, position + continued.tried);
    (continued.tried, continued.state, continued.record.found)
}

#[test]
fn a_scenario_that_does_not_agree_is_no_stopping_point() {
    let (program, query) = not_p4();
    let minimal = minimal_explanations(&program, &query, held(0, A));
    assert_eq!(stopping_point(&program, &minimal, 0), 5);
    assert_eq!(stopping_point(&program, &minimal, 1), 9);
    // 1 and 3 find the list full, and do not agree.
    assert_eq!(go_on_without_a(&mut [], 0, 9), (5, State::Full, 0));
    assert_eq!(go_on_without_a(&mut [], 0, 5), (5, State::Going, 0));
    assert_eq!(go_on_without_a(&mut [], 1, 1), (1, State::Going, 0));
    assert_eq!(go_on_without_a(&mut [], 3, 1), (1, State::Going, 0));
    assert_eq!(go_on_without_a(&mut [], 5, 1), (0, State::Full, 0));
    assert_eq!(go_on_without_a(&mut [], 5, 0), (0, State::Going, 0));
    // 7 does not agree either.
    assert_eq!(go_on_without_a(&mut [], 6, 9), (3, State::Ended, 0));
    let mut list = list_pattern(1);
    assert_eq!(go_on_without_a(&mut list, 0, 9), (9, State::Ended, 1));
    assert_eq!(list, [5]);
}

#[test]
fn a_list_of_one_stops_at_the_second_minimal_explanation_of_the_search() {
    let atoms = "a b c d";
    let program = program(atoms, "a b c", "d :- a; d :- b");
    let query = query(atoms, "d");
    let none = minimal_explanations(&program, &query, Held::NONE);
    assert_eq!(none, [1, 3]);
    assert_eq!(stopping_point(&program, &none, 1), 3);
    // With c assumed a or b is due besides.
    let c_assumed = held(0b100, 0);
    let minimal = minimal_explanations(&program, &query, c_assumed);
    assert_eq!(minimal, [9 + 1, 9 + 3]);
    assert_eq!(stopping_point(&program, &minimal, 1), 12);
    let expected = |tried, rounds, state| Continued {
        record: at_holding(12, 1, c_assumed),
        tried,
        rounds,
        state,
    };
    let mut list = list_pattern(1);
    let record = fresh_holding(&program, c_assumed);
    let full = continued(&program, &query, &mut list, record, u32::MAX);
    let rounds_tried = rounds(&program, &[9, 10, 11]);
    assert_eq!(full, expected(12, rounds_tried, State::Full));
    assert_eq!(list, [10]);
    let again = continued(&program, &query, &mut list, full.record, 5);
    assert_eq!(again, expected(0, 0, State::Full));
    let nothing = continued(&program, &query, &mut list, full.record, 0);
    assert_eq!(nothing, expected(0, 0, State::Going));
}

#[test]
fn listed_entries_that_do_not_agree_bar_what_contains_them() {
    let (program, query) = not_p4();
    let go_on = |entry, position, held| {
        let mut list = [entry, 77];
        let record = at_holding(position, 1, held);
        let continued = continued(&program, &query, &mut list, record, 9);
        assert_eq!(continued.state, State::Ended);
        (continued.record.found, list)
    };
    // 5 contains 3, and neither 1 nor 4.
    assert_eq!(go_on(3, 4, held(0, A)), (1, [3, 77]));
    assert_eq!(go_on(1, 4, held(0, A)), (2, [1, 5]));
    assert_eq!(go_on(4, 5, held(0, A)), (2, [4, 5]));
    // 0 is part of all.
    assert_eq!(go_on(0, 1, held(0, B)), (1, [0, 77]));
    // A position after those that agree.
    assert_eq!(go_on(0, 8, held(A, 0)), (1, [0, 77]));
}

#[test]
fn a_record_whose_masks_would_be_refused_is_spoilt() {
    let (spoilt, short) = (ContinueRefusal::SpoiltSearch, ContinueRefusal::ShortDual);
    assert_eq!(spoilt.number(), 14);
    let cut = ContinueRefusal::Papers(Refusal {
        number: Number::Cut,
        paper: Paper::Sheet,
        place: 0,
    });
    let (program, query) = not_p4();
    let (file, sheet) = (encode_file(&program), encode_sheet(&query));
    let mut search = Search::keeping(program, query);
    let shared = [(A, A), (B, A | B), (u16::MAX, u16::MAX)];
    let unlisted = [(0b100, 0), (0, 0b100), (1 << 15, A), (B, 1 << 15)];
    let both = [(0b101, 0b100), (0b101, A)];
    for (assumed, ruled) in [&shared[..], &unlisted, &both].concat() {
        for (position, found) in [(0, 0), (4, 1), (8, 2), (9, 0)] {
            let record = at_holding(position, found, held(assumed, ruled));
            let mut list = [1, 7];
            continue_refused(spoilt, (&file, &sheet), DUAL_LENGTH, &list, record);
            // It stands where 14 stands.
            continue_refused(short, (&file, &sheet), DUAL_LENGTH - 1, &list, record);
            continue_refused(cut, (&file, &[]), DUAL_LENGTH, &list, record);

            let mut dual = vec![0; DUAL_LENGTH];
            let answer = search.continue_search(&mut dual, &mut list, record, 9);
            assert_eq!(answer, Err(spoilt));
            assert_eq!((dual, list), (vec![0; DUAL_LENGTH], [1, 7]));
        }
    }
}

#[test]
fn masks_that_pass_do_not_save_a_spoilt_record() {
    let (program, query) = not_p4();
    let (file, sheet) = (encode_file(&program), encode_sheet(&query));
    let spoilt = ContinueRefusal::SpoiltSearch;
    for (position, found) in [(10, 0), (9, 3), (9, 2), (4, 1)] {
        let record = at_holding(position, found, held(A, B));
        continue_refused(spoilt, (&file, &sheet), DUAL_LENGTH, &[7, 4], record);
    }
}

#[test]
fn one_search_continues_records_of_any_masks() {
    let (program, query) = not_p4();
    let mut keeping = Search::keeping(program.clone(), query.clone());
    let mut dual = vec![0; DUAL_LENGTH];
    for allowance in [9, 4, 1, 0] {
        for position in 0..=9 {
            for &(assumed, ruled, _, minimal) in OF_NOT_P4_HOLDING {
                let held = held(assumed, ruled);
                let record = at_holding(position, 0, held);
                let (mut list, mut other) = (list_pattern(2), list_pattern(2));
                let expected = continued(&program, &query, &mut list, record, allowance);
                let answer = keeping.continue_search(&mut dual, &mut other, record, allowance);
                assert_eq!((answer, other), (Ok(expected), list));
                assert_eq!(keeping.minimal_explanations(held), minimal);
            }
        }
    }
}

/// Where all faults are held, the scenario of the held digits is the only one that
/// agrees. The search begins a little before it.
#[test]
fn all_of_sixteen_faults_held() {
    let program = all_abducible(16);
    let no_query = Query { literals: vec![] };
    let scenarios = 3_u32.pow(16);
    let all_assumed = (scenarios - 1) / 2;
    let all_ruled_out = scenarios - 1;
    let all_but_last_ruled_out = all_ruled_out - 3_u32.pow(15);
    for (assumed, ruled, only) in [
        (u16::MAX, 0, all_assumed),
        (0, u16::MAX, all_ruled_out),
        (1 << 15, !(1 << 15), all_but_last_ruled_out),
    ] {
        let held = held(assumed, ruled);
        assert_eq!(
            fresh_over(&program, assumed, ruled),
            Ok(at_holding(0, 0, held))
        );
        let record = at_holding(only - 5, 0, held);
        let mut list = list_pattern(2);
        let before = continued(&program, &no_query, &mut list, record, 5);
        let expected = Continued {
            record: at_holding(only, 0, held),
            tried: 5,
            rounds: 0,
            state: State::Going,
        };
        assert_eq!(before, expected);
        let tries = 5.min(scenarios - only);
        let after = continued(&program, &no_query, &mut list, before.record, tries);
        assert_eq!(after.record, at_holding(only + tries, 1, held));
        assert_eq!(after.rounds, rounds(&program, &[only]));
        assert_eq!(list[0], only);
    }
}

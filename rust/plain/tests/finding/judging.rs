//! Judging, by hand.

use calls::lent::pattern;
use plain::{
    contains_assumptions, digits, judge, model, Digit, JudgeRefusal, Number, Paper, Query, Refusal,
};

use crate::example::{FILE, SHEET};
use crate::hand::bytes;
use crate::lent::{judge_refused, judged};
use crate::text::{program, query};

/// The model's bytes of the program in the scenario.
fn model_of(atoms: &str, abducibles: &str, rules: &str, scenario: u32) -> Vec<u8> {
    let program = program(atoms, abducibles, rules);
    judged(&program, &query(atoms, ""), scenario).1
}

fn rounds_of(atoms: &str, abducibles: &str, rules: &str) -> u64 {
    let program = program(atoms, abducibles, rules);
    judged(&program, &query(atoms, ""), 0).0.rounds
}

#[test]
fn digits_are_lowest_first() {
    use Digit::{Assumed, Open, RuledOut};
    assert_eq!(digits(0, 0), []);
    assert_eq!(digits(0, 2), [Open, Open]);
    assert_eq!(digits(1, 2), [Assumed, Open]);
    assert_eq!(digits(5, 2), [RuledOut, Assumed]);
    assert_eq!(digits(8, 2), [RuledOut, RuledOut]);
    assert_eq!(digits(9 + 6, 3), [Open, RuledOut, Assumed]);
}

#[test]
fn assumptions_are_the_nonzero_digits() {
    // In base 3, lowest digit last: 012, 010 and so on.
    for (scenario, part) in [(5, 0), (5, 2), (5, 3), (5, 5), (0, 0), (26, 18), (26, 8)] {
        assert!(contains_assumptions(scenario, part), "{scenario} {part}");
    }
    for (scenario, part) in [(5, 1), (5, 4), (5, 6), (5, 9), (0, 1), (26, 1), (26, 9)] {
        assert!(!contains_assumptions(scenario, part), "{scenario} {part}");
    }
}

#[test]
fn a_scenario_values_the_abducible_literals() {
    // Atom 1, b, is abducible; a and c have no rules.
    let with_b = |digit| model_of("a b c", "b", "", digit);
    assert_eq!(with_b(0), [2, 2, 0, 0, 2, 2, 2]);
    assert_eq!(with_b(1), [2, 2, 1, 2, 2, 2, 2]);
    assert_eq!(with_b(2), [2, 2, 2, 1, 2, 2, 2]);
    // The first abducible has the lowest digit.
    assert_eq!(model_of("a b", "a b", "", 1), [1, 2, 0, 0, 2]);
    assert_eq!(model_of("a b", "a b", "", 3), [0, 0, 1, 2, 2]);
    assert_eq!(model_of("a b", "a b", "", 7), [1, 2, 2, 1, 2]);
}

#[test]
fn a_ring_of_rules_fails() {
    assert_eq!(model_of("p", "", "p :- p", 0), [2, 2, 2]);
    assert_eq!(model_of("p q", "", "p :- q; q :- p", 0), [2, 2, 2, 2, 2]);
    let with_way_in = "p :- q; q :- p; q :- a";
    assert_eq!(model_of("p q a", "a", with_way_in, 0)[..4], [0, 2, 0, 2]);
    assert_eq!(model_of("p q a", "a", with_way_in, 1)[..4], [1, 2, 1, 2]);
    assert_eq!(model_of("p q a", "a", with_way_in, 2)[..4], [2, 2, 2, 2]);
}

#[test]
fn a_ring_through_not_is_undefined() {
    assert_eq!(model_of("p", "", "p :- not p", 0), [0, 2, 2]);
    let pair = "p :- not q; q :- not p";
    assert_eq!(model_of("p q", "", pair, 0), [0, 2, 0, 2, 2]);
}

#[test]
fn an_explicit_negation_makes_its_conjugate_false() {
    // Even a fact, then both.
    assert_eq!(model_of("p", "", "p; -p", 0), [3, 3, 2]);
    assert_eq!(model_of("p", "", "p :- not p; -p", 0), [3, 3, 2]);
    // What is only undefined makes nothing false.
    assert_eq!(model_of("p", "", "-p :- not -p; p :- not p", 0), [0, 0, 2]);
    // p makes -p false in round 2, which makes -p true in 3, and p false in 4.
    let turned = "p; -p :- not -p";
    assert_eq!(model_of("p", "", turned, 0), [3, 3, 2]);
    assert_eq!(rounds_of("p", "", turned), 4);
}

#[test]
fn falsum_is_judged_as_the_others() {
    let falsum = |rules, scenario| model_of("p a", "a", rules, scenario)[4];
    assert_eq!(falsum("", 0), 2);
    assert_eq!(falsum("falsum", 0), 1);
    assert_eq!(falsum("falsum :- a", 0), 0);
    assert_eq!(falsum("falsum :- a", 1), 1);
    assert_eq!(falsum("falsum :- a", 2), 2);
    assert_eq!(falsum("falsum :- not a", 2), 1);
    assert_eq!(falsum("p :- a; -p :- a; falsum :- p", 1), 3);
    // One rule of several is enough.
    assert_eq!(falsum("falsum :- p; falsum :- a; falsum :- not a", 1), 1);
}

#[test]
fn rounds_are_counted_to_the_first_that_repeats() {
    // Nothing is true and nothing false from the start.
    assert_eq!(rounds_of("a", "a", "falsum :- a"), 0);
    assert_eq!(rounds_of("a", "a", ""), 1);
    assert_eq!(rounds_of("p", "", "p"), 1);
    // p false in round 1, q true in 2.
    assert_eq!(rounds_of("p q", "", "q :- not p"), 2);
    // p true in 1, q false in 2, r true in 3.
    assert_eq!(rounds_of("p q r", "", "p; q :- not p; r :- not q"), 3);
    // Both true in 1 and both false in 2.
    assert_eq!(rounds_of("p", "", "p; -p"), 2);
}

/// Falsum is undefined, false, true in the scenarios, and of the atoms u is
/// undefined.
const WITHOUT_CONTRADICTION: &str = "p :- a; u :- not u; b; falsum :- not a, -a";

#[test]
fn an_explanation_needs_falsum_false_and_each_query_literal() {
    let atoms = "a p u b";
    let program = program(atoms, "a", WITHOUT_CONTRADICTION);
    let explains = |text, scenario| judged(&program, &query(atoms, text), scenario).0.explains;
    for (scenario, verdict) in [(0, false), (1, true), (2, false)] {
        assert_eq!(explains("", scenario), verdict);
    }
    for holds in ["p", "not -p", "a, p, not -u", "b", "not -b", "b, not -b, p"] {
        assert!(explains(holds, 1), "{holds}");
    }
    for fails in [
        "u", "not u", "-p", "not p", "p, u", "u, p", "not a", "b, -u", "-b", "not b",
    ] {
        assert!(!explains(fails, 1), "{fails}");
    }
}

#[test]
fn a_literal_holds_by_byte_3_too_and_only_the_verdict_bars_it() {
    let atoms = "a p u b";
    let rules = ["-b", WITHOUT_CONTRADICTION].join("; ");
    let program = program(atoms, "a", &rules);
    let model = model(&program, 1);
    assert_eq!(model.bytes(), [1, 2, 1, 2, 0, 2, 3, 3, 2]);
    let hold = |query: &Query| query.literals.iter().all(|&literal| model.holds(literal));
    for holds in [
        "",
        "p",
        "not -p",
        "a, p, not -u",
        "b",
        "not b",
        "-b",
        "not -b",
        "b, not b, -b",
    ] {
        let query = query(atoms, holds);
        assert!(hold(&query), "{holds}");
        assert!(!judged(&program, &query, 1).0.explains, "{holds}");
    }
    for fails in [
        "u", "not u", "-p", "not p", "p, u", "u, p", "not a", "b, -u",
    ] {
        let query = query(atoms, fails);
        assert!(!hold(&query), "{fails}");
        assert!(!judged(&program, &query, 1).0.explains, "{fails}");
    }
}

/// The bytes of the dual of the file: 08 and 09 with two numbers each, 08 for
/// 1, 08 for falsum, the end.
const DUAL_LENGTH: usize = 7 + 7 + 5 + 5 + 3;
const JUDGED: usize = 5;

#[test]
fn buffers_of_just_the_lengths_are_enough() {
    let (file, sheet) = (bytes(&[FILE]), bytes(&[SHEET]));
    let mut dual = pattern(DUAL_LENGTH);
    let mut model = pattern(JUDGED);
    let judgement = judge(&file, &sheet, 1, &mut dual, &mut model).unwrap();
    assert!(judgement.explains);
    assert_eq!(judgement.rounds, 1);
    assert_eq!(model, [1, 2, 1, 2, 2]);
    let entries = "08 0004 0000 0000 09 0004 0000 0005 08 0002 0001 08 0002 0004";
    assert_eq!(dual, bytes(&[entries, "7F 0000"]));
}

#[test]
fn judging_is_refused_in_order() {
    let (file, sheet) = (bytes(&[FILE]), bytes(&[SHEET]));
    let papers = (&file[..], &sheet[..]);
    let enough = (DUAL_LENGTH, JUDGED);
    assert_eq!(JudgeRefusal::ShortDual.number(), 11);
    assert_eq!(JudgeRefusal::ShortModel.number(), 12);
    judge_refused(JudgeRefusal::NoScenario, papers, 3, enough);
    for length in 0..JUDGED {
        let short = (DUAL_LENGTH, length);
        judge_refused(JudgeRefusal::ShortModel, papers, 0, short);
        judge_refused(JudgeRefusal::ShortModel, papers, 3, short);
    }
    for length in 0..DUAL_LENGTH {
        judge_refused(JudgeRefusal::ShortDual, papers, 0, (length, JUDGED));
        judge_refused(JudgeRefusal::ShortDual, papers, 3, (length, JUDGED - 1));
    }
    let unlisted = JudgeRefusal::Papers(Refusal {
        number: Number::Unlisted,
        paper: Paper::Sheet,
        place: 0,
    });
    assert_eq!(unlisted.number(), 6);
    let bad_sheet = bytes(&["06 0002 0008 7F 0000"]);
    judge_refused(unlisted, (&file, &bad_sheet), 0, (100, 100));
    judge_refused(unlisted, (&file, &bad_sheet), 3, (0, 0));
    let tail = JudgeRefusal::Papers(Refusal {
        number: Number::Tail,
        paper: Paper::File,
        place: 24,
    });
    let bad_file = bytes(&[FILE, "00"]);
    judge_refused(tail, (&bad_file, &sheet), 0, (100, 100));
    judge_refused(tail, (&bad_file, &bad_sheet), 3, (0, 0));
}

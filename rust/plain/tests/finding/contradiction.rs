//! Explanations that rest on a contradiction: Card 3 of document 02.

use calls::holding::{A, B};
use calls::lent::list_pattern;
use calls::programs::CONTRADICTION_ALONE;
use plain::{
    explanations, minimal_explanations, minimal_of, model, scenario_count, stopping_point,
    Continued, Held, Interpretation, Judgement, Model, ObjectiveLiteral, Program, Query, State,
};
use random::seed::seed;
use random::Random;

use crate::holding::{at, at_holding, fresh, fresh_holding, held};
use crate::lent::{continued, judged};
use crate::programs;
use crate::text::{loaded, program, query};
use crate::verdict::{explains_but_for_3, is_barred_by_3};

const NO_QUERY: Query = Query { literals: vec![] };

#[test]
fn the_reference_call_without_its_integrity_rule_finds_nothing() {
    let (program, query) = loaded(&CONTRADICTION_ALONE, "d");
    let models: [(&[u8], u64); 3] = [
        (&[0, 0, 2, 1, 2], 2),
        (&[1, 2, 3, 3, 2], 2),
        (&[2, 1, 2, 1, 2], 1),
    ];
    for (scenario, (bytes, rounds)) in (0..).zip(models) {
        let judgement = Judgement {
            explains: false,
            rounds,
        };
        let expected = (judgement, bytes.to_vec());
        assert_eq!(judged(&program, &query, scenario), expected);
    }
    assert_eq!(minimal_explanations(&program, &query, Held::NONE), []);
    let expected = Continued {
        record: at(3, 0),
        tried: 3,
        rounds: 2 + 2 + 1,
        state: State::Ended,
    };
    for length in 0..3 {
        let mut list = list_pattern(length);
        let continued = continued(&program, &query, &mut list, fresh(&program), 4);
        assert_eq!(continued, expected);
    }
}

/// A model of two atoms in which all is false.
fn all_false() -> Model {
    let start = Interpretation::start(2);
    Model {
        atoms: 2,
        interpretation: Interpretation {
            false_set: start.false_set.complement(),
            ..start
        },
        rounds: 1,
    }
}

#[test]
fn a_byte_3_of_any_judged_literal_is_a_contradiction_and_no_other_byte_is() {
    assert!(!all_false().is_contradictory());
    assert!(all_false().explains(&NO_QUERY));
    for literal in ObjectiveLiteral::judged(2) {
        let is_falsum = literal == ObjectiveLiteral::falsum(2);
        let mut model = all_false();
        model.interpretation.true_set.insert(literal);
        assert_eq!(model.byte(literal), 3);
        assert!(model.is_contradictory(), "{literal:?}");
        assert!(!model.explains(&NO_QUERY), "{literal:?}");

        model.interpretation.false_set.remove(literal);
        assert_eq!(model.byte(literal), 1);
        assert!(!model.is_contradictory(), "{literal:?}");
        assert_eq!(model.explains(&NO_QUERY), !is_falsum, "{literal:?}");

        model.interpretation.true_set.remove(literal);
        assert_eq!(model.byte(literal), 0);
        assert!(!model.is_contradictory(), "{literal:?}");
        assert_eq!(model.explains(&NO_QUERY), !is_falsum, "{literal:?}");
    }
}

#[test]
fn a_byte_3_of_an_atom_that_the_query_does_not_touch_bars() {
    let atoms = "b a p c";
    let explains = |text, rules: &[&str]| {
        let program = program(atoms, "a", &rules.join("; "));
        let (judgement, model) = judged(&program, &query(atoms, text), 1);
        assert_eq!((model[4], model[8]), (1, 2), "p and falsum");
        judgement.explains
    };
    for (one, other) in [
        ("b", "-b"),
        ("c", "-c"),
        ("c :- a", "-c :- not -a"),
        ("c :- p", "-c :- not b"),
        ("-c", "c :- not -p"),
    ] {
        for text in ["p", "not -p", "p, a", ""] {
            assert!(explains(text, &["p :- a", one]), "{text}: {one}");
            assert!(explains(text, &["p :- a", other]), "{text}: {other}");
            let both = explains(text, &["p :- a", one, other]);
            assert!(!both, "{text}: {one}; {other}");
        }
    }
}

#[test]
fn the_empty_query_is_not_explained_by_a_contradiction() {
    let go_on = |rules, length| {
        let program = program("b", "", rules);
        let mut list = list_pattern(length);
        let Continued {
            record,
            tried,
            rounds,
            state,
        } = continued(&program, &NO_QUERY, &mut list, fresh(&program), 2);
        (record.found, tried, rounds, state)
    };
    for half in ["b", "-b"] {
        assert_eq!(go_on(half, 1), (1, 1, 1, State::Ended));
        assert_eq!(go_on(half, 0), (0, 0, 0, State::Full));
    }
    for length in [0, 1] {
        assert_eq!(go_on("b; -b", length), (0, 1, 2, State::Ended));
    }
}

#[test]
fn a_byte_3_goes_on_through_not_without_an_explicit_negation() {
    let atoms = "x o r";
    let judged = |rules, text| judged(&program(atoms, "", rules), &query(atoms, text), 0);
    // x is true in round 1 and false in 2; o false in 2 and true in 3; r true in 3
    // and false in 4.
    let both = "x; -x; o :- not x; r :- not o";
    for text in ["", "o", "not o", "r", "not r", "not -o, not -r", "o, r"] {
        let (judgement, model) = judged(both, text);
        assert_eq!(model, [3, 3, 3, 2, 3, 2, 2]);
        assert_eq!(judgement.rounds, 4);
        assert!(!judgement.explains, "{text}");
    }
    for text in ["", "not o", "r"] {
        assert!(judged("x; o :- not x; r :- not o", text).0.explains);
    }
    for text in ["", "o", "not r"] {
        assert!(judged("-x; o :- not x; r :- not o", text).0.explains);
    }
}

/// Abducibles a, b in that order: d holds where a is assumed or b is decided, so in
/// 1 and 3 to 8 of 9 scenarios. Where the one abducible is assumed, e is both.
fn both_by(abducible: &str) -> (Program, Query) {
    let atoms = "a b d e";
    let rules = format!("d :- a; d :- b; d :- -b; -e; e :- {abducible}");
    (program(atoms, "a b", &rules), query(atoms, "d"))
}

/// Checks the scenarios that hold d, those in which e is both, and the rounds.
fn check_scenarios((program, query): &(Program, Query), both: [u32; 3], rounds: [u64; 9]) {
    for (scenario, rounds) in (0..).zip(rounds) {
        let (judgement, model) = judged(program, query, scenario);
        let holds = scenario == 1 || scenario >= 3;
        assert_eq!(model[4] == 1, holds, "{scenario}");
        assert_eq!(model[8], 2, "{scenario}");
        let is_both = both.contains(&scenario);
        assert_eq!(model[6..8] == [3, 3], is_both, "{scenario}");
        assert_eq!(judgement.explains, holds && !is_both, "{scenario}");
        assert_eq!(judgement.rounds, rounds, "{scenario}");
    }
}

/// The length of the list and the allowance; tried, rounds and state; what is found.
type FreshCall = (usize, u32, (u32, u64, State), &'static [u32]);

/// Makes each of these calls from a fresh search, and checks what comes of it.
fn each_fresh((program, query): &(Program, Query), held: Held, calls: &[FreshCall]) {
    for call in calls {
        let &(length, allowance, (tried, rounds, state), found) = call;
        let mut list = list_pattern(length);
        let record = fresh_holding(program, held);
        let expected = Continued {
            record: at_holding(tried, found.len() as u32, held),
            tried,
            rounds,
            state,
        };
        let given = continued(program, query, &mut list, record, allowance);
        assert_eq!(given, expected, "{call:?}");
        assert_eq!(list[..found.len()], *found, "{call:?}");
    }
}

#[test]
fn a_contradictory_scenario_is_passed_over_where_it_would_be_the_first_found() {
    let papers = both_by("a");
    check_scenarios(&papers, [1, 4, 7], [2, 2, 1, 2, 2, 1, 2, 2, 1]);
    let (program, query) = &papers;
    assert_eq!(explanations(program, query, Held::NONE), [3, 5, 6, 8]);
    let minimal = minimal_explanations(program, query, Held::NONE);
    assert_eq!(minimal, [3, 6]);
    let stops = [0, 1, 2].map(|length| stopping_point(program, &minimal, length));
    assert_eq!(stops, [3, 6, 9]);
    each_fresh(
        &papers,
        Held::NONE,
        &[
            // 1 is tried, and its rounds count.
            (2, 1, (1, 2, State::Going), &[]),
            (2, 2, (2, 4, State::Going), &[]),
            (2, 3, (3, 5, State::Going), &[]),
            (2, 4, (4, 7, State::Going), &[3]),
            (2, u32::MAX, (9, 15, State::Ended), &[3, 6]),
            // It is no stopping point.
            (0, 2, (2, 4, State::Going), &[]),
            (0, u32::MAX, (3, 5, State::Full), &[]),
            (1, u32::MAX, (6, 10, State::Full), &[3]),
        ],
    );
}

#[test]
fn a_full_list_passes_over_contradictory_scenarios() {
    let papers = both_by("b");
    check_scenarios(&papers, [3, 4, 5], [2, 2, 2, 2, 2, 2, 1, 1, 1]);
    each_fresh(
        &papers,
        Held::NONE,
        &[
            (0, u32::MAX, (1, 2, State::Full), &[]),
            (1, 3, (3, 6, State::Going), &[1]),
            (1, 4, (4, 8, State::Going), &[1]),
            (1, 6, (6, 12, State::Going), &[1]),
            (1, 7, (6, 12, State::Full), &[1]),
            (2, u32::MAX, (9, 15, State::Ended), &[1, 6]),
        ],
    );
    // After a pause before 3, which would find the list full, and at 6, which does.
    let (program, query) = &papers;
    let go_on = |position, allowance| {
        let continued = continued(program, query, &mut [1], at(position, 1), allowance);
        assert_eq!(continued.record, at(position + continued.tried, 1));
        (continued.tried, continued.rounds, continued.state)
    };
    assert_eq!(go_on(3, 1), (1, 2, State::Going));
    assert_eq!(go_on(3, 9), (3, 6, State::Full));
    assert_eq!(go_on(5, 9), (1, 2, State::Full));
    assert_eq!(go_on(6, 9), (0, 0, State::Full));
    assert_eq!(go_on(6, 0), (0, 0, State::Going));
}

#[test]
fn contradictory_scenarios_that_agree_with_the_held_faults() {
    let papers = both_by("b");
    // 2, 5 and 8 agree, and 5 would be the first found.
    each_fresh(
        &papers,
        held(0, A),
        &[
            (1, 6, (6, 4, State::Going), &[]),
            (1, u32::MAX, (9, 5, State::Ended), &[8]),
            (0, u32::MAX, (8, 4, State::Full), &[]),
        ],
    );
    // 3, 4 and 5 agree and are contradictory.
    each_fresh(
        &papers,
        held(B, 0),
        &[
            (1, u32::MAX, (9, 6, State::Ended), &[]),
            (0, u32::MAX, (9, 6, State::Ended), &[]),
        ],
    );
    // 1, 4 and 7 agree; then 7 alone; then 4 alone.
    let in_one =
        |rounds, found| -> [FreshCall; 1] { [(2, u32::MAX, (9, rounds, State::Ended), found)] };
    each_fresh(&papers, held(A, 0), &in_one(5, &[1]));
    each_fresh(&papers, held(A, B), &in_one(1, &[7]));
    each_fresh(&papers, held(A | B, 0), &in_one(2, &[]));
}

#[test]
fn a_listed_contradictory_scenario_stays_listed() {
    let (program, query) = both_by("b");
    let mut list = [3, 77];
    let expected = Continued {
        record: at(9, 2),
        tried: 5,
        rounds: 2 + 2 + 1 + 1 + 1,
        state: State::Ended,
    };
    let given = continued(&program, &query, &mut list, at(4, 1), 9);
    assert_eq!(given, expected);
    assert_eq!(list, [3, 6]);
}

const PROGRAMS: usize = 4_000;

/// What the random programs reached.
#[derive(Debug, Default)]
struct Reached {
    explanations: usize,
    /// Scenarios that a byte 3 alone bars.
    barred: usize,
    /// Of these, the ones in which nothing that the query touches is both.
    untouched: usize,
    /// Searches that find something, though not what they would find first.
    passed_over: usize,
}

/// Whether an atom of the query or its explicit negation is both.
fn touches_3(bytes: &[u8], query: &Query) -> bool {
    let atoms = query
        .literals
        .iter()
        .map(|literal| usize::from(literal.0 / 4));
    let mut pairs = atoms.map(|atom| &bytes[2 * atom..2 * atom + 2]);
    pairs.any(|pair| pair.contains(&3))
}

/// Compares the verdicts with the bytes, and a whole search with the verdicts.
fn compare(program: &Program, query: &Query, reached: &mut Reached) {
    let (mut all, mut but_for_3, mut rounds) = (vec![], vec![], 0);
    for scenario in 0..scenario_count(program) {
        let (judgement, bytes) = judged(program, query, scenario);
        let is_both = bytes.contains(&3);
        assert_eq!(model(program, scenario).is_contradictory(), is_both);
        let explains = explains_but_for_3(&bytes, query) && !is_both;
        assert_eq!(judgement.explains, explains, "{program:?} {query:?}");
        rounds += judgement.rounds;
        if explains {
            all.push(scenario);
        }
        if explains_but_for_3(&bytes, query) {
            but_for_3.push(scenario);
        }
        let is_untouched = is_barred_by_3(&bytes, query) && !touches_3(&bytes, query);
        reached.untouched += usize::from(is_untouched);
    }
    compare_search(program, query, &all, rounds);
    reached.explanations += all.len();
    reached.barred += but_for_3.len() - all.len();
    reached.passed_over += usize::from(!all.is_empty() && all[0] != but_for_3[0]);
}

/// A whole search lists the minimal ones of these explanations, and adds up all
/// rounds.
fn compare_search(program: &Program, query: &Query, all: &[u32], rounds: u64) {
    assert_eq!(explanations(program, query, Held::NONE), all);
    let minimal = minimal_of(all);
    let scenarios = scenario_count(program);
    let expected = Continued {
        record: at(scenarios, minimal.len() as u32),
        tried: scenarios,
        rounds,
        state: State::Ended,
    };
    let mut list = list_pattern(minimal.len());
    let given = continued(program, query, &mut list, fresh(program), u32::MAX);
    assert_eq!(given, expected, "{program:?} {query:?}");
    assert_eq!(list, minimal, "{program:?} {query:?}");
}

#[test]
fn the_verdict_is_that_of_the_bytes_on_random_programs() {
    let mut random = Random::new(seed(31));
    let (mut of_queries, mut of_no_query) = (Reached::default(), Reached::default());
    for _ in 0..PROGRAMS {
        let program = programs::program(&mut random, 3, 4);
        let query = programs::query(&mut random, &program);
        compare(&program, &query, &mut of_queries);
        compare(&program, &NO_QUERY, &mut of_no_query);
    }
    for reached in [&of_queries, &of_no_query] {
        assert!(reached.explanations > PROGRAMS, "{reached:?}");
        assert!(reached.barred > PROGRAMS / 2, "{reached:?}");
        assert!(reached.untouched > PROGRAMS / 10, "{reached:?}");
    }
    assert!(of_queries.passed_over > PROGRAMS / 200, "{of_queries:?}");
}

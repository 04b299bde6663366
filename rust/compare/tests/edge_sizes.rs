//! Compares the two finders on programs as large as a file can hold, in the
//! worst orders for passes over their rules, and prints how long they take.

mod crossing;

use std::time::{Duration, Instant};

use compare::comparison::Comparison;
use compare::edges::{
    alternating, chain, chain_and_rounds, guarded, ring, undefined, undefined_chain, Order,
};
use compare::programs::{add_facts, program, query, Size};
use compare::words;
use plain::dual::LONGEST_DUAL;
use plain::model::LONGEST_MODEL;
use plain::{
    continue_search, dual, encode_dual, encode_file, encode_sheet, judge, scenario_count, Held,
    Program, Query, Record,
};
use random::Random;

use crossing::crossing;

const LIST_LENGTH: usize = 3;

fn main() {
    let mut comparison =
        Comparison::start("plain_and_finder_agree_at_the_edge", "the largest programs");
    let mut random = Random::new(comparison.seed());
    let mut cases = by_hand();
    cases.extend(at_random(&mut random));
    println!(
        "{:52}{:>8}{:>10}{:>12}{:>12}",
        "", "tried", "rounds", "finder", "plain"
    );
    for case in &cases {
        judge_case(&mut comparison, case);
        search_case(&mut comparison, case);
    }
    let compared = format!("{} calls compared", comparison.calls);
    comparison.end(&compared, &[]);
}

/// A program, and what is to be judged and searched of it.
struct Case {
    name: &'static str,
    program: Program,
    query: Query,
    /// The scenario that is judged, and its rounds where they are known.
    scenario: u32,
    rounds: Option<u64>,
    /// What the search holds, where it goes on from and what it may try.
    held: Held,
    position: u32,
    allowance: u32,
}

const NO_QUERY: Query = Query { literals: vec![] };

/// A case without abducibles.
fn one_scenario(name: &'static str, rounds: u64, program: Program) -> Case {
    Case {
        name,
        program,
        query: NO_QUERY,
        scenario: 0,
        rounds: Some(rounds),
        held: Held::NONE,
        position: 0,
        allowance: 1,
    }
}

fn by_hand() -> Vec<Case> {
    vec![
        one_scenario("as many rounds as judged literals", 513, alternating()),
        one_scenario(
            "a chain against the file and the numbers",
            2,
            chain(Order::Rising),
        ),
        one_scenario("a chain against the file alone", 2, chain(Order::Falling)),
        one_scenario("a ring of all literals", 1, ring()),
        one_scenario(
            "a chain against the file in each of many rounds",
            256,
            chain_and_rounds(),
        ),
        Case {
            name: "lanes that need from few rounds to many",
            program: guarded(),
            query: NO_QUERY,
            scenario: 43_046_720,
            rounds: None,
            held: Held::NONE,
            position: 0,
            allowance: 70,
        },
        Case {
            name: "the same with a fault of each half held",
            program: guarded(),
            query: NO_QUERY,
            scenario: 1,
            rounds: None,
            held: Held {
                assumed: 0b10,
                ruled: 1 << 15,
            },
            // A batch and more before the first with the last fault ruled out.
            position: 2 * 3_u32.pow(15) - 100,
            allowance: 300,
        },
        one_scenario("FFFF alone in every body", 0, undefined()),
        Case {
            name: "a chain from FFFF, ruled out in its middle",
            program: undefined_chain(),
            query: NO_QUERY,
            scenario: 2 * 3_u32.pow(7),
            rounds: Some(1),
            held: Held::NONE,
            position: 0,
            allowance: 70,
        },
    ]
}

fn at_random(random: &mut Random) -> Vec<Case> {
    let largest = program(random, &Size::LARGEST);
    let scenarios = scenario_count(&largest);
    let query = query(random, &Size::LARGEST);
    let short_bodies = Size {
        least_literals: 1,
        most_literals: 2,
        ..Size::LARGEST
    };
    let mut lively = program(random, &short_bodies);
    add_facts(random, &mut lively);
    vec![
        Case {
            name: "a random program of the largest size",
            program: largest.clone(),
            query: NO_QUERY,
            scenario: scenarios - 1,
            rounds: None,
            held: Held::NONE,
            position: 0,
            allowance: 130,
        },
        Case {
            name: "the same with all faults held",
            program: largest.clone(),
            query: NO_QUERY,
            scenario: scenarios / 3,
            rounds: None,
            held: Held {
                assumed: 0,
                ruled: u16::MAX,
            },
            position: scenarios - 20_000,
            allowance: u32::MAX,
        },
        Case {
            name: "the same up to its last scenario",
            program: largest,
            query,
            scenario: scenarios / 2,
            rounds: None,
            held: Held::NONE,
            position: scenarios - 100,
            allowance: u32::MAX,
        },
        Case {
            name: "a random program with short bodies and facts",
            program: lively,
            query: NO_QUERY,
            scenario: scenarios - 1,
            rounds: None,
            held: Held::NONE,
            position: scenarios / 3,
            allowance: 130,
        },
        Case {
            name: "a random program with the longest dual",
            program: program(random, &Size::LONGEST_DUAL),
            query: NO_QUERY,
            scenario: 0,
            rounds: None,
            held: Held::NONE,
            position: 0,
            allowance: u32::MAX,
        },
    ]
}

fn judge_case(comparison: &mut Comparison, case: &Case) {
    let (file, sheet) = (encode_file(&case.program), encode_sheet(&case.query));
    let dual_length = encode_dual(&dual(&case.program)).len();
    let mut expected_dual = comparison.patterns.buffer(dual_length);
    let mut expected_model = comparison.patterns.buffer(LONGEST_MODEL);
    let mut found_dual = expected_dual.clone();
    let mut found_model = expected_model.clone();
    let mut found = comparison.patterns.words();

    let Case { name, scenario, .. } = *case;
    let (dual, model) = (expected_dual.part(), expected_model.part());
    let (answer, plain_time) = timed(|| judge(&file, &sheet, scenario, dual, model));
    let (dual, model) = (found_dual.part(), found_model.part());
    let ((), finder_time) =
        timed(|| finder::judge_words(&file, &sheet, scenario, dual, model, &mut found));
    comparison.expect_words(&found, &words::of_judging(&answer), &name);
    comparison.expect_items("dual buffer", &found_dual, &expected_dual, &name);
    comparison.expect_items("model buffer", &found_model, &expected_model, &name);

    let rounds = answer.expect("an accepted call").rounds;
    if case.rounds.is_some_and(|expected| expected != rounds) {
        let what = format!("{rounds} rounds, not {:?}", case.rounds);
        comparison.fail(&what, &name);
    }
    print_line(name, 1, rounds, finder_time, plain_time);
}

fn search_case(comparison: &mut Comparison, case: &Case) {
    let (file, sheet) = (encode_file(&case.program), encode_sheet(&case.query));
    let patterns = &mut comparison.patterns;
    let mut expected_dual = patterns.buffer(LONGEST_DUAL);
    let mut expected_list = patterns.list(LIST_LENGTH, scenario_count(&case.program));
    let mut found_dual = expected_dual.clone();
    let mut found_list = expected_list.clone();
    let mut found = patterns.words();

    let Case {
        name,
        held,
        position,
        allowance,
        ..
    } = *case;
    let record = Record {
        position,
        found: 0,
        assumed: held.assumed,
        ruled: held.ruled,
    };
    let (dual, list) = (expected_dual.part(), expected_list.part());
    let (answer, plain_time) =
        timed(|| continue_search(&file, &sheet, dual, list, record, allowance));
    let (dual, list) = (found_dual.part(), found_list.part());
    let given = crossing(record);
    let ((), finder_time) =
        timed(|| finder::continue_words(&file, &sheet, dual, list, given, allowance, &mut found));
    comparison.expect_words(&found, &words::of_continuing(&answer, record), &name);
    comparison.expect_items("dual buffer", &found_dual, &expected_dual, &name);
    comparison.expect_items("list", &found_list, &expected_list, &name);

    let continued = answer.expect("an accepted call");
    let what = format!("    a search of it, {}", continued.state);
    let (tried, rounds) = (continued.tried, continued.rounds);
    print_line(&what, tried, rounds, finder_time, plain_time);
}

fn timed<A>(call: impl FnOnce() -> A) -> (A, Duration) {
    let started = Instant::now();
    let answer = call();
    (answer, started.elapsed())
}

fn print_line(name: &str, tried: u32, rounds: u64, finder: Duration, plain: Duration) {
    let milliseconds = |time: Duration| format!("{:.2} ms", 1_000.0 * time.as_secs_f64());
    println!(
        "{name:52}{tried:>8}{rounds:>10}{:>12}{:>12}",
        milliseconds(finder),
        milliseconds(plain)
    );
}

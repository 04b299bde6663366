//! It finds what the separate finder finds, in the same rounds.

use compare::causes::{causes, consistent_causes, query_of_heads, Causes};
use compare::programs::mentions_undefined;
use compare::tally::LEAST;
use native::{search, Found};
use plain::{Held, Search};
use random::seed::{seeds, VARIABLE};
use random::Random;

/// How many files are searched, each made from a seed; about every other one can
/// not contradict itself.
const FILES: u64 = 4_000;

#[test]
fn it_finds_what_the_separate_finder_finds() {
    // With FFFF: those in which nothing is found, and the others.
    let mut with_undefined = [0; 2];
    for seed in seeds(0, FILES) {
        let mut random = Random::new(seed);
        let abducibles = random.below(6);
        let others = random.between(1, 5);
        let make = random.pick::<Causes>(&[causes, consistent_causes]);
        let program = make(&mut random, abducibles, others);
        let query = query_of_heads(&mut random, &program);
        let found = search(&program, &query);
        let is_found = !found.scenarios.is_empty();
        with_undefined[usize::from(is_found)] += u64::from(mentions_undefined(&program));
        let expected = by_plain(Search::keeping(program, query));
        assert_eq!(found, expected, "{VARIABLE}={seed}");
    }
    println!("{with_undefined:?} with FFFF, with nothing found and with something");
    let are_enough = with_undefined.iter().all(|&files| files >= LEAST);
    assert!(are_enough, "{with_undefined:?} with FFFF");
}

fn by_plain(mut search: Search) -> Found {
    let count = plain::scenario_count(search.program());
    Found {
        scenarios: search.minimal_explanations(Held::NONE),
        tried: count.into(),
        rounds: (0..count)
            .map(|scenario| search.judgement(scenario).rounds)
            .sum(),
    }
}

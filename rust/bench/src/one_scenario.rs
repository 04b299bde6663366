//! One scenario judged, where that takes long: many rounds, long chains against
//! the order of the rules, or both.

use compare::edges::{alternating, chain, chain_and_rounds, Order};
use compare::words::Words;

use crate::columns::{cells, heads};
use crate::files::{layered, there_and_back, Papers};
use crate::finders::{Buffers, Finder, Finders};
use crate::measuring::{is_judged_alike, times, work, Agreed};
use crate::timing::{grouped, microseconds, Times};

/// From those that are soon settled to the one that takes the longest.
fn files() -> Vec<Papers> {
    let of_program = Papers::without_query;
    vec![
        layered::papers(),
        of_program("a chain against file and numbers", chain(Order::Rising)),
        of_program("a chain against the file alone", chain(Order::Falling)),
        of_program("rounds alone", alternating()),
        of_program("a chain in each round", chain_and_rounds()),
        there_and_back::in_rings(),
        there_and_back::full(),
    ]
}

pub fn print(finders: &Finders) {
    let all = finders.all();
    println!("\nOne scenario judged");
    println!(
        "    {:34}{:>7}{:>11}{:>8}{}",
        "",
        "rules",
        "integrity",
        "rounds",
        heads(&all)
    );
    for papers in files() {
        let (rounds, times) = judging(&all, &papers);
        println!(
            "    {:34}{:>7}{:>11}{:>8}{}",
            papers.name,
            grouped(papers.program.rules.len() as u64),
            papers.program.integrity_bodies.len(),
            grouped(rounds),
            cells(&times, microseconds)
        );
    }
}

/// The rounds of the first scenario, and the seconds for judging it. Whatever
/// is left in the buffers must be the same, too.
fn judging(finders: &[&dyn Finder], papers: &Papers) -> (u64, Times) {
    let agreed = Agreed::new();
    let times = times(finders, |finder| {
        let agreed = &agreed;
        let mut given = (Words::default(), Buffers::new());
        Some(work(finder, move || {
            given.0 = finder.judge(papers, 0, &mut given.1);
            agreed.expect_told(&given, finder, is_judged_alike);
            1
        }))
    });
    let ([number, _, _, _, rounds, ..], _) = *agreed.answer();
    assert_eq!(number, 0, "the papers are accepted");
    (rounds, times)
}

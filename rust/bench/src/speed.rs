//! Scenarios settled a second.

use crate::columns::{cells, heads, named_heads};
use crate::files::Papers;
use crate::finders::{Buffers, Finder, Finders, Linked};
use crate::measuring::{is_judged_alike, times, work, Agreed};
use crate::searching::{whole, whole_by_native, Outcome};
use crate::timing::{a_second, grouped, in_turn, Care, Times, Work};

/// How many scenarios are judged between two looks at the clock.
const JUDGED_AT_ONCE: u32 = 64;

/// From one scenario that is judged to the next; no power of 3 divides it.
const STRIDE: u32 = 7_919;

/// The most rules times scenarios that a slow finder goes through in some
/// seconds.
const MOST_IF_SLOW: u64 = 50_000_000;

/// What heads the column of the finder that only goes through whole searches.
const NATIVE: &str = "native";

/// The files of `judged` have a line for scenarios that are judged each by a
/// call of its own, then all have one for whole searches.
pub fn print(finders: &Finders, files: &[&Papers], judged: &[&Papers]) {
    let outcomes: Vec<Outcome> = files.iter().map(|papers| whole(&Linked, papers)).collect();
    print_files(files, &outcomes);
    let all = finders.all();
    println!("\nScenarios judged a second of one core, each by a call of its own");
    println!("    {:12}{}", "", heads(&all));
    for papers in judged {
        print_line(papers.name, &judging(&all, papers));
    }
    println!("\nScenarios settled a second of one core in whole searches");
    let names = all.iter().map(|finder| finder.name());
    println!("    {:12}{}", "", named_heads(names.chain([NATIVE])));
    for (papers, outcome) in files.iter().zip(&outcomes) {
        print_line(papers.name, &searching(&all, papers, outcome));
    }
    println!("    -: left out, as it would take long");
    println!("    {NATIVE}: without proofs, its papers read before, no dual written");
}

fn print_files(files: &[&Papers], outcomes: &[Outcome]) {
    println!("The files");
    println!(
        "    {:12}{:>7}{:>11}{:>12}{:>11}{:>8}{:>19}",
        "", "rules", "integrity", "abducibles", "scenarios", "found", "rounds a scenario"
    );
    for (papers, outcome) in files.iter().zip(outcomes) {
        assert!(outcome.has_ended, "a whole search has room");
        println!(
            "    {:12}{:>7}{:>11}{:>12}{:>11}{:>8}{:>19.2}",
            papers.name,
            grouped(papers.program.rules.len() as u64),
            papers.program.integrity_bodies.len(),
            papers.program.abducibles.len(),
            grouped(papers.scenarios.into()),
            outcome.found.len(),
            outcome.rounds as f64 / outcome.tried as f64,
        );
    }
}

fn print_line(name: &str, times: &[Option<f64>]) {
    println!("    {name:12}{}", cells(times, a_second));
}

/// The seconds for a scenario that is judged by a call of its own.
fn judging(finders: &[&dyn Finder], papers: &Papers) -> Times {
    check_judging(finders, papers);
    times(finders, |finder| {
        let mut buffers = Buffers::new();
        let mut last = 0;
        Some(work(finder, move || {
            for scenario in some_scenarios(papers, last) {
                finder.judge(papers, scenario, &mut buffers);
                last = scenario;
            }
            JUDGED_AT_ONCE.into()
        }))
    })
}

/// All must give the same, and leave the same in the buffers.
fn check_judging(finders: &[&dyn Finder], papers: &Papers) {
    for scenario in some_scenarios(papers, 0) {
        let agreed = Agreed::new();
        for &finder in finders {
            let mut buffers = Buffers::new();
            let words = finder.judge(papers, scenario, &mut buffers);
            agreed.expect_told(&(words, buffers), finder, is_judged_alike);
        }
    }
}

/// Scenarios all over the file, behind this one.
fn some_scenarios(papers: &Papers, last: u32) -> impl Iterator<Item = u32> {
    let scenarios = papers.scenarios;
    (1..=JUDGED_AT_ONCE).map(move |step| (last + step * STRIDE) % scenarios)
}

/// The seconds for a scenario in whole searches, of which this comes, by each
/// finder and by the native one.
fn searching(finders: &[&dyn Finder], papers: &Papers, outcome: &Outcome) -> Times {
    let agreed = &Agreed::new();
    agreed.expect(outcome, &Linked);
    let works = finders.iter().map(|&finder| {
        let takes_too_long = finder.is_slow() && is_long(papers);
        let run = move || {
            let given = whole(finder, papers);
            agreed.expect_told(&given, finder, Outcome::is_like);
            given.tried
        };
        (!takes_too_long).then_some(work(finder, run))
    });
    let by_native = Work::new(Care::Much, || {
        let given = whole_by_native(papers);
        assert_eq!(given, *outcome, "{NATIVE} differs");
        given.tried
    });
    in_turn(works.chain([Some(by_native)]).collect())
}

/// Whether a slow finder would take long for a whole search.
fn is_long(papers: &Papers) -> bool {
    let folds = papers.program.folds().count() as u64;
    folds * u64::from(papers.scenarios) > MOST_IF_SLOW
}

#[cfg(test)]
mod tests {
    use super::*;
    use crate::files::many_finds;
    use crate::files::seeded::{LARGE, MIDDLE_12, SMALL_12};

    #[test]
    fn only_the_longest_search_is_too_long_for_a_slow_finder() {
        assert!(is_long(&MIDDLE_12.papers()));
        let others = [LARGE.papers(), SMALL_12.papers(), many_finds::papers()];
        assert!(!others.iter().any(is_long));
    }

    #[test]
    fn the_scenarios_judged_differ() {
        let papers = LARGE.papers();
        let mut some: Vec<u32> = some_scenarios(&papers, 5).collect();
        some.sort_unstable();
        some.dedup();
        assert_eq!(some.len() as u32, JUDGED_AT_ONCE);
        assert!(some.iter().all(|&scenario| scenario < papers.scenarios));
    }
}

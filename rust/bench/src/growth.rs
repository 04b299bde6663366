//! How the time of a whole search grows with the abducibles, the rules being
//! the same.

use std::ops::RangeInclusive;

use plain::Held;

use crate::columns::{cells, heads};
use crate::files::seeded::Shape;
use crate::finders::Finders;
use crate::searching::whole_times;
use crate::timing::{grouped, microseconds, milliseconds};

/// The seconds that no search is expected to take, else it is left out.
const MOST: f64 = 60.0;

pub fn print(finders: &Finders, shape: &Shape, abducibles: RangeInclusive<u16>) {
    let libraries = finders.libraries();
    println!("\nA whole search over the rules of the {} file", shape.name);
    println!(
        "    {:>10}{:>12}{:>8}{:>14}{:>18}{}",
        "abducibles",
        "scenarios",
        "found",
        "a scenario",
        "times the before",
        heads(&libraries)
    );
    let mut before: Option<f64> = None;
    for count in abducibles {
        if before.is_some_and(|before| 3.0 * before > MOST) {
            println!("    {count:>10}    left out: it would take longer than {MOST} s");
            return;
        }
        let papers = Shape {
            abducibles: count,
            ..*shape
        }
        .papers();
        let (outcome, times) = whole_times(&libraries, &papers, Held::NONE);
        let found = outcome.found.len();
        let seconds = times[0].expect("the time of the library");
        let grown = before.map_or(String::new(), |before| format!("{:.2}", seconds / before));
        println!(
            "    {count:>10}{:>12}{found:>8}{:>14}{grown:>18}{}",
            grouped(papers.scenarios.into()),
            microseconds(seconds / f64::from(papers.scenarios)),
            cells(&times, milliseconds)
        );
        before = Some(seconds);
    }
}

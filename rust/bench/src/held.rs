//! What a whole search takes that holds faults: scenarios that do not agree are
//! tried, but need not be settled.

use plain::Held;

use crate::columns::{cells, heads};
use crate::files::Papers;
use crate::finders::{Finder, Finders};
use crate::searching::whole_times;
use crate::timing::{grouped, microseconds, milliseconds};

/// How many faults are held where any are.
const COUNTS: [usize; 3] = [1, 3, 6];

pub fn print(finders: &Finders, papers: &Papers) {
    let all = finders.all();
    println!(
        "\nA whole search over the {} file that holds faults as ruled out",
        papers.name
    );
    println!(
        "    {:12}{:>10}{:>8}{:>18}{:>14}{}",
        "",
        "agreeing",
        "found",
        "one that agrees",
        "of none held",
        heads(&all)
    );
    let abducibles = papers.program.abducibles.len();
    let none = print_line(&all, papers, "none", 0, None);
    for count in COUNTS {
        let name = format!("lowest {count}");
        print_line(&all, papers, &name, lowest(count), Some(none));
    }
    for count in COUNTS {
        let name = format!("highest {count}");
        let ruled = lowest(count) << (abducibles - count);
        print_line(&all, papers, &name, ruled, Some(none));
    }
    println!("    -: left out, as it holds no faults");
}

/// The mask of so many of the lowest faults.
fn lowest(count: usize) -> u16 {
    (1 << count) - 1
}

/// The line of a search, and the seconds that the library takes for it. `none`
/// are those where no fault is held.
fn print_line(
    finders: &[&dyn Finder],
    papers: &Papers,
    name: &str,
    ruled: u16,
    none: Option<f64>,
) -> f64 {
    let held = Held { assumed: 0, ruled };
    let scenarios = 0..papers.scenarios;
    let agreeing = scenarios.filter(|&scenario| held.agrees(scenario)).count();
    let (outcome, times) = whole_times(finders, papers, held);
    let seconds = times[0].expect("the time of the library");
    println!(
        "    {name:12}{:>10}{:>8}{:>18}{:>14.4}{}",
        grouped(agreeing as u64),
        outcome.found.len(),
        microseconds(seconds / agreeing as f64),
        seconds / none.unwrap_or(seconds),
        cells(&times, milliseconds)
    );
    seconds
}

#[cfg(test)]
mod tests {
    use super::lowest;

    #[test]
    fn the_lowest_faults_have_the_lowest_bits() {
        assert_eq!([0, 1, 3].map(lowest), [0, 0b1, 0b111]);
    }
}

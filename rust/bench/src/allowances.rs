//! What a call costs beside what it tries.

use plain::desk::ALLOWANCE;
use plain::Held;

use crate::columns::{cells, heads};
use crate::files::Papers;
use crate::finders::{Buffers, Finder, Finders};
use crate::measuring::{times, work};
use crate::searching::{fresh, record_after};
use crate::timing::{microseconds, Work};
use crate::writing::writing;

const ALLOWANCES: [u32; 4] = [0, 1, 64, ALLOWANCE];

pub fn print(finders: &Finders, papers: &Papers) {
    let all = finders.all();
    println!("\nA call on the {} file", papers.name);
    println!("    {:36}{:>14}{}", "", "a scenario", heads(&all));
    let reading = times(&all, |finder| Some(reading(finder, papers)));
    print_line("reading both papers", 0, &reading);
    let (_, writing) = writing(&all, papers);
    print_line("reading the file, writing its dual", 0, &writing);
    for allowance in ALLOWANCES {
        let what = format!("continuing with allowance {allowance}");
        let continuing = times(&all, |finder| Some(continuing(finder, papers, allowance)));
        print_line(&what, allowance, &continuing);
    }
}

/// The times of a call that tries so many scenarios.
fn print_line(what: &str, tried: u32, times: &[Option<f64>]) {
    let library = times[0].expect("the time of the library");
    let scenario = match tried {
        0 => String::new(),
        _ => microseconds(library / f64::from(tried)),
    };
    println!("    {what:36}{scenario:>14}{}", cells(times, microseconds));
}

fn reading<'p>(finder: &'p dyn Finder, papers: &'p Papers) -> Work<'p> {
    work(finder, || {
        let words = finder.rest(papers);
        assert_eq!(words[0], 0, "the papers are accepted");
        1
    })
}

/// Calls of searches that go on with this allowance, each from the start where
/// the one before has not so many scenarios left.
fn continuing<'p>(finder: &'p dyn Finder, papers: &'p Papers, allowance: u32) -> Work<'p> {
    let mut buffers = Buffers::new();
    let start = fresh(finder, papers, Held::NONE);
    let mut record = start;
    work(finder, move || {
        let words = finder.continue_search(papers, record, allowance, &mut buffers);
        let next = record_after(record, &words);
        let tried = next.position - record.position;
        assert_eq!(tried, allowance, "all that is allowed is tried");
        record = if papers.scenarios - next.position < allowance {
            start
        } else {
            next
        };
        1
    })
}

//! How long a caller of the desk program's allowance waits for one call, at the
//! longest and in the mean, over a whole search.

use plain::Held;

use crate::columns::{cells, heads};
use crate::files::Papers;
use crate::finders::{Finder, Finders};
use crate::searching::Search;
use crate::timing::{microseconds, processor_seconds};

/// How often a search is gone through. Of the times of a call the least is its
/// own: what else the machine does can only slow it.
const TURNS: usize = 5;

pub fn print(finders: &Finders, files: &[&Papers]) {
    let libraries = finders.libraries();
    println!("\nOne of the calls with the desk program's allowance in a whole search");
    println!("    {:12}{:>7}{:10}{}", "", "calls", "", heads(&libraries));
    for papers in files {
        let calls = calls_in_turn(&libraries, papers);
        let line = |what: &str, of: fn(&[f64]) -> f64| {
            let times: Vec<Option<f64>> = calls.iter().map(|calls| Some(of(calls))).collect();
            let count = calls[0].len();
            let cells = cells(&times, microseconds);
            println!("    {:12}{count:>7}   {what:7}{cells}", papers.name);
        };
        line("longest", longest);
        line("mean", mean);
    }
}

/// The least seconds of each call, by each finder in turn.
fn calls_in_turn(finders: &[&dyn Finder], papers: &Papers) -> Vec<Vec<f64>> {
    let mut least: Vec<Vec<f64>> = vec![vec![]; finders.len()];
    for _ in 0..TURNS {
        for (least, &finder) in least.iter_mut().zip(finders) {
            let calls = calls(finder, papers);
            least.resize(calls.len(), f64::INFINITY);
            for (least, call) in least.iter_mut().zip(calls) {
                *least = least.min(call);
            }
        }
    }
    least
}

/// The seconds of each call of a whole search.
fn calls(finder: &dyn Finder, papers: &Papers) -> Vec<f64> {
    let mut search = Search::fresh(finder, papers, Held::NONE);
    let mut calls = Vec::new();
    while search.is_going() {
        let started = processor_seconds();
        search.call();
        calls.push(processor_seconds() - started);
    }
    calls
}

fn longest(calls: &[f64]) -> f64 {
    calls.iter().copied().fold(0.0, f64::max)
}

fn mean(calls: &[f64]) -> f64 {
    calls.iter().sum::<f64>() / calls.len() as f64
}

#[cfg(test)]
mod tests {
    use super::*;

    #[test]
    fn the_longest_and_the_mean_of_some_calls() {
        let calls = [1.0, 4.0, 1.0];
        assert_eq!((longest(&calls), mean(&calls)), (4.0, 2.0));
    }
}

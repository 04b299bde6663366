//! Beginning a search by both finders.

use compare::comparison::{Comparison, Told};
use compare::words;
use plain::{fresh, FreshRefusal, Held, Record};

/// Begins a search that is to hold these faults, and compares what comes.
pub fn begin(comparison: &mut Comparison, file: &[u8], held: Held) -> Result<Record, FreshRefusal> {
    let Held { assumed, ruled } = held;
    let mut found = comparison.patterns.words();
    let answer = fresh(file, assumed, ruled);
    finder::fresh_words(file, assumed, ruled, &mut found);
    comparison.expect_words(&found, &words::of_fresh(&answer), &told(file, held));
    answer
}

/// Such a call as a failure tells it.
pub fn told(file: &[u8], held: Held) -> Told<'_> {
    Told {
        file,
        sheet: &[],
        with: format!("{held:?}"),
    }
}

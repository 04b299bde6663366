//! Finders at the same work: what each takes for it, and that all give the same.

use std::cell::OnceCell;
use std::fmt::Debug;

use compare::words::Words;

use crate::finders::{Buffers, Finder};
use crate::timing::{in_turn, Care, Times, Work};

/// The times of the finders at the work that each is given, in turn.
pub fn times<'w>(
    finders: &[&'w dyn Finder],
    given: impl Fn(&'w dyn Finder) -> Option<Work<'w>>,
) -> Times {
    in_turn(finders.iter().map(|&finder| given(finder)).collect())
}

/// Work of a finder that is to be timed. The libraries may be nearly as fast as
/// each other, but no slow finder is.
pub fn work<'w>(finder: &dyn Finder, run: impl FnMut() -> u64 + 'w) -> Work<'w> {
    let care = if finder.is_slow() {
        Care::Little
    } else {
        Care::Much
    };
    Work::new(care, run)
}

/// What all finders must give to the same question: whatever came first.
pub struct Agreed<T>(OnceCell<T>);

impl<T: Clone + Debug + PartialEq> Agreed<T> {
    pub fn new() -> Self {
        Agreed(OnceCell::new())
    }

    /// Takes what a finder gives, which must be what came first.
    pub fn expect(&self, given: &T, by: &dyn Finder) {
        self.expect_same(given, by, T::eq);
    }

    /// The same of what depends on what an explanation is: a finder that tells
    /// contradictions must give the same beside it.
    pub fn expect_told(&self, given: &T, by: &dyn Finder, beside: impl Fn(&T, &T) -> bool) {
        if by.tells_contradictions() {
            self.expect_same(given, by, beside);
        } else {
            self.expect(given, by);
        }
    }

    fn expect_same(&self, given: &T, by: &dyn Finder, is_same: impl Fn(&T, &T) -> bool) {
        let agreed = self.0.get_or_init(|| given.clone());
        assert!(is_same(agreed, given), "{} differs: {given:?}", by.name());
    }

    pub fn answer(&self) -> &T {
        self.0.get().expect("something came")
    }
}

/// Whether judging gave the same beside the verdict.
pub fn is_judged_alike(one: &(Words, Buffers), other: &(Words, Buffers)) -> bool {
    const VERDICT: usize = 3;
    let is_alike = |slot| slot == VERDICT || one.0[slot] == other.0[slot];
    (0..one.0.len()).all(is_alike) && one.1 == other.1
}

#[cfg(test)]
mod tests {
    use super::*;
    use crate::finders::{Linked, Plain};

    #[test]
    #[should_panic(expected = "plain differs: 2")]
    fn what_differs_shows() {
        let agreed = Agreed::new();
        agreed.expect(&1, &Linked);
        agreed.expect(&1, &Plain);
        agreed.expect(&2, &Plain);
    }
}

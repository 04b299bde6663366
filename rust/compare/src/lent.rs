//! Buffers and lists to lend, filled with a pattern and with a margin on both
//! sides, so that an item left unwritten, or written though it must stay, shows.

use std::fmt::Debug;

use plain::dual::LONGEST_DUAL;
use random::Random;

use crate::words::Words;

/// The items before a lent part, and after it, that must stay.
const MARGIN: usize = 16;

/// More than the bytes of the longest buffer with its margins.
const PATTERN: usize = 2 * LONGEST_DUAL;

/// Where what is lent gets what it holds before a call.
pub struct Patterns {
    pub random: Random,
    /// Some part of this is what a buffer holds.
    bytes: Vec<u8>,
}

impl Patterns {
    pub fn new(seed: u64) -> Self {
        let mut random = Random::new(seed);
        Patterns {
            bytes: (0..PATTERN).map(|_| random.byte()).collect(),
            random,
        }
    }

    /// A buffer of so many bytes.
    pub fn buffer(&mut self, length: usize) -> Lent<u8> {
        let size = MARGIN + length + MARGIN;
        let start = self.random.below(PATTERN - size);
        Lent {
            items: self.bytes[start..start + size].to_vec(),
        }
    }

    /// A list of so many entries, some of them below `scenarios`.
    pub fn list(&mut self, length: usize, scenarios: u32) -> Lent<u32> {
        let size = MARGIN + length + MARGIN;
        let items = (0..size).map(|_| {
            let word = self.random.word() as u32;
            if self.random.one_in(2) {
                word % scenarios
            } else {
                word
            }
        });
        Lent {
            items: items.collect(),
        }
    }

    /// What the words hold.
    pub fn words(&mut self) -> Words {
        std::array::from_fn(|_| self.random.word())
    }
}

/// A lent part between its margins.
#[derive(Clone)]
pub struct Lent<T> {
    items: Vec<T>,
}

impl<T: Copy + Debug + PartialEq> Lent<T> {
    /// The part that is lent.
    pub fn part(&mut self) -> &mut [T] {
        let end = self.items.len() - MARGIN;
        &mut self.items[MARGIN..end]
    }

    /// Where this first differs from what it should be, counted from the start
    /// of the part, and some of what is there.
    pub fn difference(&self, expected: &Self) -> Option<String> {
        let mut pairs = self.items.iter().zip(&expected.items);
        let at = pairs.position(|(found, expected)| found != expected)?;
        let some = at..self.items.len().min(at + 20);
        Some(format!(
            "from item {} of {}\nplain  {:?}\nfinder {:?}",
            at as i64 - MARGIN as i64,
            self.items.len() - 2 * MARGIN,
            &expected.items[some.clone()],
            &self.items[some]
        ))
    }
}

#[cfg(test)]
mod tests {
    use super::*;
    use random::seed::seed;

    #[test]
    fn what_is_lent_is_as_long_as_asked_for() {
        let mut patterns = Patterns::new(seed(7));
        for length in [0, 1, 100, LONGEST_DUAL, LONGEST_DUAL + 100] {
            assert_eq!(patterns.buffer(length).part().len(), length);
        }
        assert_eq!(patterns.list(5, 3).part().len(), 5);
    }

    #[test]
    fn every_item_that_differs_shows() {
        let mut patterns = Patterns::new(seed(8));
        let mut lent = patterns.buffer(3);
        assert_eq!(lent.difference(&lent.clone()), None);
        for place in 0..MARGIN + 3 + MARGIN {
            let expected = lent.clone();
            lent.items[place] ^= 1;
            let difference = lent.difference(&expected).expect("a difference");
            let at = format!("from item {} of 3\n", place as i64 - MARGIN as i64);
            assert!(difference.starts_with(&at), "{difference}");
        }
    }
}

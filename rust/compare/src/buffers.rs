//! Which buffers were lent for what a call writes, and which must be for a
//! comparison to be worth something.

use crate::tally::{Counted, Feature, Tally};

/// A buffer lent for what would be written to it.
pub struct Buffer {
    pub length: usize,
    /// The bytes of what is written.
    pub needed: usize,
}

const SHORT: &[Feature<Buffer>] = &[
    ("an empty buffer", |it| it.length == 0),
    ("one byte too few", |it| it.length + 1 == it.needed),
    ("any other", |it| 0 < it.length && it.length + 1 < it.needed),
];

const LONG_ENOUGH: &[Feature<Buffer>] = &[
    ("no byte to spare", |it| it.length == it.needed),
    ("bytes to spare", |it| it.length > it.needed),
];

/// How often each came.
pub struct Buffers {
    short: Tally<Buffer>,
    long_enough: Tally<Buffer>,
}

impl Default for Buffers {
    fn default() -> Self {
        Buffers {
            short: Tally::new("refused 11", SHORT),
            long_enough: Tally::new("written", LONG_ENOUGH),
        }
    }
}

impl Buffers {
    pub fn count(&mut self, buffer: &Buffer) {
        if buffer.length < buffer.needed {
            self.short.count(buffer);
        } else {
            self.long_enough.count(buffer);
        }
    }

    pub fn parts(&self) -> [&dyn Counted; 2] {
        [&self.short, &self.long_enough]
    }
}

#[cfg(test)]
mod tests {
    use super::*;

    #[test]
    fn every_buffer_is_counted_once() {
        for length in 0..8 {
            let buffer = Buffer { length, needed: 5 };
            let count = |features: &[Feature<Buffer>]| {
                let had = features.iter().filter(|(_, has)| has(&buffer));
                had.count()
            };
            let is_short = length < 5;
            let expected = if is_short { (1, 0) } else { (0, 1) };
            assert_eq!((count(SHORT), count(LONG_ENOUGH)), expected);

            let mut buffers = Buffers::default();
            buffers.count(&buffer);
            assert_eq!(buffers.short.subjects(), u64::from(is_short));
            assert_eq!(buffers.long_enough.subjects(), u64::from(!is_short));
        }
    }
}

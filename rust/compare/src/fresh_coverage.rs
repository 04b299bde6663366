//! Which masks fresh searches were asked to hold and what came of it, and which
//! of these must come for a comparison to be worth something.

use plain::field::MOST_ABDUCIBLES;
use plain::{FreshRefusal, Held, Program, Record};

use crate::masks::Asked;
use crate::tally::{Counted, Feature, Numbers, Tally, OF_FILE};
use crate::undefined_coverage::{count_file, files};

/// Masks that the refusal of a paper hides.
pub const HIDDEN: &[Feature<Held>] = &[
    ("masks without a bit", |held| *held == Held::NONE),
    ("masks that 15 refuses", |held| {
        held.assumed & held.ruled != 0
    }),
    (
        "the last bit, which 16 refuses but of 16 abducibles",
        |held| held.assumed & held.ruled == 0 && (held.assumed | held.ruled) >> 15 == 1,
    ),
];

const SHARED: &[Feature<Asked>] = &[
    ("15 alone to refuse it", |it| !it.has_unlisted()),
    ("16 to refuse it too", |it| it.has_unlisted()),
    ("a shared bit at or above k alone", |it| {
        it.held.assumed & it.held.ruled == it.either() && it.unlisted_by() == [true; 2]
    }),
    ("the same masks", |it| it.held.assumed == it.held.ruled),
    ("no abducible", |it| it.abducibles == 0),
    ("16 abducibles", |it| it.abducibles == MOST_ABDUCIBLES),
];

const UNLISTED: &[Feature<Asked>] = &[
    ("the assumed mask to blame", |it| {
        it.unlisted_by() == [true, false]
    }),
    ("the ruled mask to blame", |it| {
        it.unlisted_by() == [false, true]
    }),
    ("both masks to blame", |it| it.unlisted_by() == [true; 2]),
    ("bit k alone", |it| {
        u32::from(it.either()) == 1 << it.abducibles
    }),
    ("bit 15 alone", |it| it.either() == 1 << 15),
    ("bits below k as well", |it| {
        it.either().trailing_zeros() < it.abducibles as u32
    }),
    ("no abducible", |it| it.abducibles == 0),
    ("15 abducibles", |it| it.abducibles == MOST_ABDUCIBLES - 1),
];

const BEGUN: &[Feature<Asked>] = &[
    ("none held", |it| it.count() == 0 && it.abducibles > 0),
    ("some held", |it| (1..it.abducibles).contains(&it.count())),
    ("all held", |it| {
        it.count() == it.abducibles && it.abducibles > 0
    }),
    ("some held as assumed, none as ruled out", |it| {
        it.held.assumed != 0 && it.held.ruled == 0
    }),
    ("some held as ruled out, none as assumed", |it| {
        it.held.assumed == 0 && it.held.ruled != 0
    }),
    ("some held either way", |it| {
        it.held.assumed != 0 && it.held.ruled != 0
    }),
    ("the first fault held", |it| it.has_bit(0)),
    ("the last fault held", |it| {
        it.abducibles > 0 && it.has_bit(it.abducibles - 1)
    }),
    ("no abducible", |it| it.abducibles == 0),
    ("all of 16 held", |it| it.count() == MOST_ABDUCIBLES),
];

/// How often each answer came.
pub struct FreshCoverage {
    file: Numbers,
    hidden: Tally<Held>,
    shared: Tally<Asked>,
    unlisted: Tally<Asked>,
    begun: Tally<Asked>,
    with_undefined: Tally<Program>,
}

impl Default for FreshCoverage {
    fn default() -> Self {
        FreshCoverage {
            file: Numbers::new("file refused", OF_FILE),
            hidden: Tally::new("file refused", HIDDEN),
            shared: Tally::new("refused 15", SHARED),
            unlisted: Tally::new("refused 16", UNLISTED),
            begun: Tally::new("searches begun", BEGUN),
            with_undefined: files(),
        }
    }
}

impl FreshCoverage {
    /// Counts the refusal of a file, whatever was to be held.
    pub fn count_refused(&mut self, refusal: &FreshRefusal, held: &Held) {
        self.file.count(refusal.number());
        self.hidden.count(held);
    }

    pub fn count_accepted(&mut self, program: &Program) {
        count_file(&mut self.with_undefined, program);
    }

    /// Counts what came of an accepted file.
    pub fn count_asked(&mut self, asked: &Asked, answer: &Result<Record, FreshRefusal>) {
        match answer {
            Ok(_) => &mut self.begun,
            Err(FreshRefusal::SharedBit) => &mut self.shared,
            Err(FreshRefusal::UnlistedBit) => &mut self.unlisted,
            Err(FreshRefusal::File(_)) => panic!("the file is accepted"),
        }
        .count(asked);
    }

    pub fn parts(&self) -> [&dyn Counted; 6] {
        [
            &self.file,
            &self.hidden,
            &self.shared,
            &self.unlisted,
            &self.begun,
            &self.with_undefined,
        ]
    }
}

#[cfg(test)]
mod tests {
    use super::*;
    use crate::undefined_coverage::FILES;

    #[test]
    fn what_never_came_is_complained_of() {
        let numbers = 10;
        let of_masks = HIDDEN.len() + SHARED.len() + UNLISTED.len() + BEGUN.len();
        let features = of_masks + FILES.len();
        let coverage = FreshCoverage::default();
        let complaints = coverage.parts().map(|part| part.complaints().len());
        assert_eq!(complaints.iter().sum::<usize>(), numbers + features);
    }

    fn features(of: &[Feature<Asked>], assumed: u16, ruled: u16) -> Vec<&'static str> {
        let asked = Asked {
            held: Held { assumed, ruled },
            abducibles: 2,
        };
        let had = of.iter().filter(|(_, has)| has(&asked));
        had.map(|&(name, _)| name).collect()
    }

    #[test]
    fn the_features_of_some_masks() {
        assert_eq!(features(SHARED, 0b101, 0b100), ["16 to refuse it too"]);
        let expected = [
            "16 to refuse it too",
            "a shared bit at or above k alone",
            "the same masks",
        ];
        assert_eq!(features(SHARED, 0b100, 0b100), expected);
        let expected = ["the assumed mask to blame", "bits below k as well"];
        assert_eq!(features(UNLISTED, 0b101, 0b010), expected);
        let expected = ["the ruled mask to blame", "bit k alone"];
        assert_eq!(features(UNLISTED, 0, 0b100), expected);
        let expected = [
            "all held",
            "some held either way",
            "the first fault held",
            "the last fault held",
        ];
        assert_eq!(features(BEGUN, 0b01, 0b10), expected);
        assert_eq!(features(BEGUN, 0, 0), ["none held"]);
    }
}

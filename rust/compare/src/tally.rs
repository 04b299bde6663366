//! How often named things came, each of which must come for a comparison to be
//! worth something.

use std::fmt;

/// What must occur, must occur so often.
pub const LEAST: u64 = 100;

/// Counts that a comparison prints at its end.
pub trait Counted: fmt::Display {
    /// What came too rarely, or though it can't.
    fn complaints(&self) -> Vec<String>;
}

/// A name for what a subject can have, and whether it has it.
pub type Feature<S> = (&'static str, fn(&S) -> bool);

/// The names of those features that the subject has.
#[cfg(test)]
pub fn names<S>(features: &[Feature<S>], subject: &S) -> Vec<&'static str> {
    let had = features.iter().filter(|(_, has)| has(subject));
    had.map(|&(name, _)| name).collect()
}

/// How many subjects had each feature.
pub struct Tally<S: 'static> {
    heading: &'static str,
    features: &'static [Feature<S>],
    /// How many subjects there must be.
    least: u64,
    subjects: u64,
    counts: Vec<u64>,
}

impl<S> Tally<S> {
    pub fn new(heading: &'static str, features: &'static [Feature<S>]) -> Self {
        Tally {
            heading,
            features,
            least: 0,
            subjects: 0,
            counts: vec![0; features.len()],
        }
    }

    /// One that must have so many subjects.
    pub fn of_at_least(least: u64, heading: &'static str, features: &'static [Feature<S>]) -> Self {
        Tally {
            least,
            ..Tally::new(heading, features)
        }
    }

    pub fn count(&mut self, subject: &S) {
        self.subjects += 1;
        for (count, (_, has)) in self.counts.iter_mut().zip(self.features) {
            *count += u64::from(has(subject));
        }
    }

    /// How many subjects there were.
    pub fn subjects(&self) -> u64 {
        self.subjects
    }
}

impl<S> Counted for Tally<S> {
    fn complaints(&self) -> Vec<String> {
        let counts = self.counts.iter().zip(self.features);
        let rare = counts.filter(|(&count, _)| count < LEAST);
        let heading = self.heading;
        let few = (self.subjects < self.least).then(|| format!("only {} {heading}", self.subjects));
        few.into_iter()
            .chain(
                rare.map(|(count, (name, _))| format!("only {count} times: {heading} with {name}")),
            )
            .collect()
    }
}

impl<S> fmt::Display for Tally<S> {
    fn fmt(&self, f: &mut fmt::Formatter) -> fmt::Result {
        writeln!(f, "{} {}", self.heading, self.subjects)?;
        for (count, (name, _)) in self.counts.iter().zip(self.features) {
            writeln!(f, "    with {name}: {count}")?;
        }
        Ok(())
    }
}

/// The numbers with which a file can be refused, and a sheet.
pub const OF_FILE: [u8; 10] = [1, 2, 3, 4, 5, 6, 7, 8, 9, 10];
pub const OF_SHEET: [u8; 5] = [1, 2, 3, 6, 10];

/// How often each of some refusal numbers came.
pub struct Numbers {
    heading: &'static str,
    /// Each with its count, rising.
    counts: Vec<(u8, u64)>,
}

impl Numbers {
    pub fn new(heading: &'static str, numbers: impl IntoIterator<Item = u8>) -> Self {
        Numbers {
            heading,
            counts: numbers.into_iter().map(|number| (number, 0)).collect(),
        }
    }

    /// Counts one of the numbers.
    pub fn count(&mut self, number: u8) {
        let mut counts = self.counts.iter_mut();
        let entry = counts.find(|(other, _)| *other == number);
        entry.expect("one of the numbers").1 += 1;
    }
}

impl Counted for Numbers {
    fn complaints(&self) -> Vec<String> {
        let rare = self.counts.iter().filter(|(_, count)| *count < LEAST);
        rare.map(|(number, count)| format!("only {count} times: {} {number}", self.heading))
            .collect()
    }
}

impl fmt::Display for Numbers {
    fn fmt(&self, f: &mut fmt::Formatter) -> fmt::Result {
        writeln!(f, "{}, by number", self.heading)?;
        for (number, count) in &self.counts {
            writeln!(f, "    {number:2}: {count}")?;
        }
        Ok(())
    }
}

#[cfg(test)]
mod tests {
    use super::*;

    const FEATURES: &[Feature<u32>] = &[
        ("an even number", |number| number % 2 == 0),
        ("seven", |&number| number == 7),
    ];

    #[test]
    fn a_subject_counts_for_each_of_its_features() {
        let mut tally = Tally::new("numbers", FEATURES);
        for number in 0..1_000 {
            tally.count(&number);
        }
        assert_eq!(tally.subjects(), 1_000);
        assert_eq!(
            tally.to_string(),
            "numbers 1000\n    with an even number: 500\n    with seven: 1\n"
        );
        assert_eq!(tally.complaints(), ["only 1 times: numbers with seven"]);
    }

    #[test]
    fn too_few_subjects_are_complained_of() {
        let mut tally = Tally::of_at_least(1_000, "numbers", &FEATURES[..1]);
        for number in 0..999 {
            tally.count(&number);
        }
        assert_eq!(tally.complaints(), ["only 999 numbers"]);
        tally.count(&0);
        assert_eq!(tally.complaints(), [""; 0]);
    }

    #[test]
    fn numbers_that_came_too_rarely_are_complained_of() {
        let mut numbers = Numbers::new("refused", [3, 14]);
        for _ in 0..LEAST {
            numbers.count(14);
        }
        assert_eq!(numbers.complaints(), ["only 0 times: refused 3"]);
        assert_eq!(
            numbers.to_string(),
            "refused, by number\n     3: 0\n    14: 100\n"
        );
    }
}

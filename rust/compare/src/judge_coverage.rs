//! Which scenarios were judged and what came of it, which buffers were lent for
//! them, and which of these must come for a comparison to be worth something.

use plain::{JudgeRefusal, Paper};

use crate::judged::{Judged, CONTRADICTED, JUDGED, WITH_UNDEFINED};
use crate::tally::{Counted, Feature, Numbers, Tally, OF_FILE, OF_SHEET};

/// What is lent with accepted papers, beside what must be.
pub struct Lending {
    pub dual: usize,
    pub dual_length: usize,
    pub model: usize,
    pub model_length: usize,
    pub scenario: u32,
    pub scenarios: u32,
}

impl Lending {
    fn has_room(&self) -> bool {
        self.dual >= self.dual_length && self.model >= self.model_length
    }

    fn is_short_dual(&self) -> bool {
        self.dual < self.dual_length
    }

    fn is_short_model(&self) -> bool {
        !self.is_short_dual() && self.model < self.model_length
    }

    fn is_scenario(&self) -> bool {
        self.scenario < self.scenarios
    }
}

const LENT: &[Feature<Lending>] = &[
    ("no byte to spare in both buffers", |lent| {
        lent.dual == lent.dual_length && lent.model == lent.model_length
    }),
    ("bytes to spare for the dual", |lent| {
        lent.has_room() && lent.dual > lent.dual_length
    }),
    ("bytes to spare for the model", |lent| {
        lent.has_room() && lent.model > lent.model_length
    }),
    ("an empty dual buffer", |lent| lent.dual == 0),
    ("one byte too few for the dual", |lent| {
        lent.dual + 1 == lent.dual_length
    }),
    ("both buffers short", |lent| {
        lent.is_short_dual() && lent.model < lent.model_length
    }),
    ("a short dual buffer and no scenario", |lent| {
        lent.is_short_dual() && !lent.is_scenario()
    }),
    ("an empty model buffer after the dual's", |lent| {
        lent.is_short_model() && lent.model == 0
    }),
    ("one byte too few for the model", |lent| {
        lent.is_short_model() && lent.model + 1 == lent.model_length
    }),
    ("a short model buffer and no scenario", |lent| {
        lent.is_short_model() && !lent.is_scenario()
    }),
    ("room for both and scenario 3^k", |lent| {
        lent.has_room() && lent.scenario == lent.scenarios
    }),
    ("room for both and a scenario past 3^k", |lent| {
        lent.has_room() && lent.scenario > lent.scenarios
    }),
];

/// So many scenarios that a byte 3 alone bars must be judged.
const LEAST_CONTRADICTED: u64 = 1_000;

/// How often each answer came.
pub struct JudgeCoverage {
    file: Numbers,
    sheet: Numbers,
    call: Numbers,
    lent: Tally<Lending>,
    judged: Tally<Judged>,
    contradicted: Tally<Judged>,
    with_undefined: Tally<Judged>,
}

impl Default for JudgeCoverage {
    fn default() -> Self {
        JudgeCoverage {
            file: Numbers::new("file refused", OF_FILE),
            sheet: Numbers::new("sheet refused", OF_SHEET),
            call: Numbers::new("judging refused", [11, 12, 13]),
            lent: Tally::new("calls with accepted papers", LENT),
            judged: Tally::new("scenarios judged", JUDGED),
            contradicted: Tally::of_at_least(
                LEAST_CONTRADICTED,
                "scenarios that a byte 3 alone bars",
                CONTRADICTED,
            ),
            with_undefined: Tally::new("scenarios judged of files with FFFF", WITH_UNDEFINED),
        }
    }
}

impl JudgeCoverage {
    pub fn count_refused(&mut self, refusal: &JudgeRefusal) {
        let number = refusal.number();
        match refusal {
            JudgeRefusal::Papers(refusal) if refusal.paper == Paper::File => &mut self.file,
            JudgeRefusal::Papers(_) => &mut self.sheet,
            _ => &mut self.call,
        }
        .count(number);
    }

    pub fn count_lent(&mut self, lent: &Lending) {
        self.lent.count(lent);
    }

    pub fn count_judged(&mut self, judged: &Judged) {
        self.judged.count(judged);
        if judged.is_contradicted() {
            self.contradicted.count(judged);
        }
        if judged.mentions_undefined() {
            self.with_undefined.count(judged);
        }
    }

    /// How many scenarios were judged.
    pub fn judged(&self) -> u64 {
        self.judged.subjects()
    }

    pub fn parts(&self) -> [&dyn Counted; 7] {
        [
            &self.file,
            &self.sheet,
            &self.call,
            &self.lent,
            &self.judged,
            &self.contradicted,
            &self.with_undefined,
        ]
    }
}

#[cfg(test)]
mod tests {
    use super::*;

    #[test]
    fn what_never_came_is_complained_of() {
        let numbers = 10 + 5 + 3;
        let of_judged = JUDGED.len() + CONTRADICTED.len() + WITH_UNDEFINED.len();
        let features = LENT.len() + of_judged;
        let too_few = 1;
        let coverage = JudgeCoverage::default();
        let complaints = coverage.parts().map(|part| part.complaints().len());
        assert_eq!(
            complaints.iter().sum::<usize>(),
            numbers + features + too_few
        );
    }
}

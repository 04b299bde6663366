//! Which texts were imported and which were refused, by which way to each number,
//! which buffers were lent for their files, and which of these must come for a
//! comparison to be worth something.

use plain::{Number, TextRefusal};

use crate::broken_texts::{Broken, Stray, BROKEN, STRAY};
use crate::buffers::{Buffer, Buffers};
use crate::imported_texts::{Imported, IMPORTED};
use crate::tally::{Counted, Numbers, Tally};
use crate::unfit_texts::{Unfit, FIXED_FAULT, MISFIT, OVERFULL};

/// The numbers with which a text can be refused.
const OF_TEXT: [u8; 5] = [3, 8, 9, 17, 18];

/// How often each answer came.
pub struct TextCoverage {
    refused: Numbers,
    stray: Tally<Stray>,
    broken: Tally<Broken>,
    misfit: Tally<Unfit>,
    fixed_fault: Tally<Unfit>,
    overfull: Tally<Unfit>,
    imported: Tally<Imported>,
    lent: Buffers,
}

impl Default for TextCoverage {
    fn default() -> Self {
        TextCoverage {
            refused: Numbers::new("text refused", OF_TEXT),
            stray: Tally::new("refused 17", STRAY),
            broken: Tally::new("refused 18", BROKEN),
            misfit: Tally::new("refused 3", MISFIT),
            fixed_fault: Tally::new("refused 8", FIXED_FAULT),
            overfull: Tally::new("refused 9", OVERFULL),
            imported: Tally::new("texts accepted", IMPORTED),
            lent: Buffers::default(),
        }
    }
}

impl TextCoverage {
    /// Counts a text that is refused, whatever is lent.
    pub fn count_refused(&mut self, text: &[u8], refusal: &TextRefusal) {
        let TextRefusal { number, place } = *refusal;
        self.refused.count(number as u8);
        match number {
            Number::StrayCharacter => self.stray.count(&Stray::new(text, place)),
            Number::BrokenLine => self.broken.count(&Broken::new(text, place)),
            Number::Misfit => self.misfit.count(&Unfit::new(text, place)),
            Number::FixedFault => self.fixed_fault.count(&Unfit::new(text, place)),
            Number::Overfull => self.overfull.count(&Unfit::new(text, place)),
            _ => panic!("no text is refused with {number:?}"),
        }
    }

    pub fn count_imported(&mut self, imported: &Imported) {
        self.imported.count(imported);
    }

    pub fn count_lent(&mut self, buffer: &Buffer) {
        self.lent.count(buffer);
    }

    pub fn parts(&self) -> [&dyn Counted; 9] {
        let [short, long_enough] = self.lent.parts();
        [
            &self.refused,
            &self.stray,
            &self.broken,
            &self.misfit,
            &self.fixed_fault,
            &self.overfull,
            &self.imported,
            short,
            long_enough,
        ]
    }
}

#[cfg(test)]
mod tests {
    use super::*;
    use plain::import;

    #[test]
    fn what_never_came_is_complained_of() {
        let numbers = OF_TEXT.len();
        let unfit = MISFIT.len() + FIXED_FAULT.len() + OVERFULL.len();
        let buffers = 3 + 2;
        let features = STRAY.len() + BROKEN.len() + unfit + IMPORTED.len() + buffers;
        let coverage = TextCoverage::default();
        let complaints = coverage.parts().map(|part| part.complaints().len());
        assert_eq!(complaints.iter().sum::<usize>(), numbers + features);
    }

    #[test]
    fn every_refusal_is_counted_under_its_number() {
        let mut coverage = TextCoverage::default();
        let body = vec!["p0"; 17].join(",");
        for text in [
            "p256".to_string(),
            "p1 p0.".to_string(),
            format!("p1:-{body}."),
            "abducible p1. p1.".to_string(),
            "false.".repeat(257),
        ] {
            let refusal = import(text.as_bytes()).expect_err("a refused text");
            coverage.count_refused(text.as_bytes(), &refusal);
        }
        assert_eq!(coverage.stray.subjects(), 1);
        assert_eq!(coverage.broken.subjects(), 1);
        assert_eq!(coverage.misfit.subjects(), 1);
        assert_eq!(coverage.fixed_fault.subjects(), 1);
        assert_eq!(coverage.overfull.subjects(), 1);
    }
}

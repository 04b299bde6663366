//! Compares the two finders on random papers.

use compare::comparison::{Comparison, Told};
use compare::coverage::Coverage;
use compare::rounds::{mixed_rounds, Examiner};
use compare::undefined_coverage::UndefinedCoverage;
use compare::words;
use plain::{encode_file, encode_sheet, read_file, read_papers, rest_of_paper};
use plain::{Paper, Program, Query, Refusal};
use random::Random;

const LEAST_PAIRS: u64 = 1_000_000;

fn main() {
    let comparison = Comparison::start("plain_and_finder_agree", "on random papers");
    let mut random = Random::new(comparison.seed());
    let mut readings = Readings {
        comparison,
        coverage: Coverage::default(),
        undefined: UndefinedCoverage::default(),
    };
    while readings.comparison.calls < LEAST_PAIRS {
        mixed_rounds(&mut random, &mut readings);
    }

    let Readings {
        comparison,
        coverage,
        undefined,
    } = readings;
    let compared = format!("{} pairs compared", comparison.calls);
    let [with_undefined, refused] = undefined.parts();
    comparison.end(&compared, &[&coverage, with_undefined, refused]);
}

struct Readings {
    comparison: Comparison,
    coverage: Coverage,
    undefined: UndefinedCoverage,
}

impl Examiner for Readings {
    fn valid(&mut self, program: &Program, query: &Query) {
        let file = encode_file(program);
        let sheet = encode_sheet(query);
        let expected = Ok((program.clone(), query.clone()));
        if read_papers(&file, &sheet) != expected {
            self.fail("written papers don't read back", &file, &sheet);
        }
    }

    fn pair(&mut self, file: &[u8], sheet: &[u8]) {
        let reading = read_papers(file, sheet);
        let rest = rest_of_paper(file, sheet);
        let mut found = self.comparison.patterns.words();
        finder::rest_words(file, sheet, &mut found);
        let expected = words::of_reading(&reading, rest);
        let call = Told {
            file,
            sheet,
            with: String::new(),
        };
        self.comparison.expect_words(&found, &expected, &call);
        self.check_rewriting(&reading, file, sheet);
        match &reading {
            Ok((program, query)) => {
                self.coverage.count_accepted(program, query);
                self.undefined.count_accepted(program);
            }
            Err(refusal) => {
                self.coverage.count_refused(refusal, rest);
                self.undefined.count_refused(file, refusal, rest);
            }
        }
    }
}

impl Readings {
    /// Every accepted paper is the only one that says what it says.
    fn check_rewriting(
        &self,
        reading: &Result<(Program, Query), Refusal>,
        file: &[u8],
        sheet: &[u8],
    ) {
        let same = match reading {
            Ok((program, query)) => encode_file(program) == file && encode_sheet(query) == sheet,
            Err(refusal) if refusal.paper == Paper::Sheet => {
                read_file(file).is_ok_and(|program| encode_file(&program) == file)
            }
            Err(_) => true,
        };
        if !same {
            self.fail("an accepted paper is written otherwise", file, sheet);
        }
    }

    fn fail(&self, what: &str, file: &[u8], sheet: &[u8]) -> ! {
        let call = Told {
            file,
            sheet,
            with: String::new(),
        };
        self.comparison.fail(what, &call);
    }
}

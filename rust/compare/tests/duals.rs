//! Compares the two finders in writing the duals of random files.

use compare::buffers::Buffer;
use compare::comparison::{Comparison, Told};
use compare::dual_coverage::{Accepted, DualCoverage};
use compare::files::{mixed_files, FileExaminer};
use compare::words;
use plain::dual::LONGEST_DUAL;
use plain::{encode_file, read_file, write_dual, Program};
use random::Random;

const LEAST_FILES: u64 = 200_000;

fn main() {
    let comparison = Comparison::start(
        "plain_and_finder_write_the_same_duals",
        "the duals of random files",
    );
    let mut random = Random::new(comparison.seed());
    let mut duals = Duals {
        comparison,
        files: 0,
        coverage: DualCoverage::default(),
    };
    while duals.files < LEAST_FILES {
        mixed_files(&mut random, &mut duals);
    }

    let Duals {
        comparison,
        files,
        coverage,
    } = duals;
    let compared = format!("{files} files compared with {} buffers", comparison.calls);
    comparison.end(&compared, &coverage.parts());
}

struct Duals {
    comparison: Comparison,
    files: u64,
    coverage: DualCoverage,
}

impl FileExaminer for Duals {
    fn valid(&mut self, program: &Program) {
        let file = encode_file(program);
        if read_file(&file).as_ref() != Ok(program) {
            let call = told(&file, String::new());
            self.comparison
                .fail("a written file doesn't read back", &call);
        }
    }

    fn file(&mut self, file: &[u8]) {
        self.files += 1;
        match read_file(file) {
            Ok(program) => self.accepted(file, program),
            Err(refusal) => {
                self.coverage.count_refused(&refusal);
                let any = self.comparison.patterns.random.below(100);
                for length in [0, any, LONGEST_DUAL] {
                    self.compare(file, length);
                }
            }
        }
    }
}

impl Duals {
    fn accepted(&mut self, file: &[u8], program: Program) {
        let accepted = Accepted::new(program);
        self.coverage.count_accepted(&accepted);
        let dual_length = accepted.dual_length;
        let random = &mut self.comparison.patterns.random;
        let shorter = random.below(dual_length);
        let longer = dual_length + random.between(1, 100);
        for length in [0, shorter, dual_length - 1, dual_length, longer] {
            self.coverage.count_lent(&Buffer {
                length,
                needed: dual_length,
            });
            self.compare(file, length);
        }
    }

    /// Lends both finders a buffer of so many bytes.
    fn compare(&mut self, file: &[u8], length: usize) {
        let patterns = &mut self.comparison.patterns;
        let mut expected_dual = patterns.buffer(length);
        let mut found_dual = expected_dual.clone();
        let mut found = patterns.words();

        let answer = write_dual(file, expected_dual.part());
        finder::write_dual_words(file, found_dual.part(), &mut found);
        let call = told(file, format!("a buffer of {length} bytes"));
        let Duals { comparison, .. } = self;
        comparison.expect_words(&found, &words::of_writing(&answer), &call);
        comparison.expect_items("dual buffer", &found_dual, &expected_dual, &call);
    }
}

fn told(file: &[u8], with: String) -> Told<'_> {
    Told {
        file,
        sheet: &[],
        with,
    }
}

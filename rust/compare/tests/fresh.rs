//! Compares the two finders in beginning searches over random files, with masks
//! of held faults that are accepted and with masks that are not.

mod beginning;

use compare::comparison::Comparison;
use compare::files::{mixed_files, FileExaminer};
use compare::fresh_coverage::FreshCoverage;
use compare::masks::{any, holding, sound, spoil, Asked};
use plain::{encode_file, fresh, read_file, Held, Program};
use random::Random;

use beginning::{begin, told};

const LEAST_FILES: u64 = 100_000;

fn main() {
    let comparison = Comparison::start(
        "plain_and_finder_begin_the_same_searches",
        "fresh searches over random files",
    );
    let mut random = Random::new(comparison.seed());
    let mut begun = Begun {
        comparison,
        files: 0,
        coverage: FreshCoverage::default(),
    };
    while begun.files < LEAST_FILES {
        mixed_files(&mut random, &mut begun);
    }

    let Begun {
        comparison,
        files,
        coverage,
    } = begun;
    let compared = format!("{files} files compared with {} masks", comparison.calls);
    comparison.end(&compared, &coverage.parts());
}

struct Begun {
    comparison: Comparison,
    files: u64,
    coverage: FreshCoverage,
}

impl FileExaminer for Begun {
    fn valid(&mut self, program: &Program) {
        let file = encode_file(program);
        if fresh(&file, 0, 0).is_err() {
            let call = told(&file, Held::NONE);
            self.comparison
                .fail("no search is begun over a written file", &call);
        }
    }

    fn file(&mut self, file: &[u8]) {
        self.files += 1;
        match read_file(file) {
            Ok(program) => {
                self.coverage.count_accepted(&program);
                self.accepted(file, program.abducibles.len());
            }
            Err(_) => self.refused(file),
        }
    }
}

impl Begun {
    /// Begins with none held, with all, as it comes, and with masks that are
    /// refused.
    fn accepted(&mut self, file: &[u8], abducibles: usize) {
        let random = &mut self.comparison.patterns.random;
        let all = holding(random, abducibles, abducibles);
        let [mut spoilt, mut spoilt_alone] = [sound(random, abducibles), Held::NONE];
        spoil(random, &mut spoilt, abducibles);
        spoil(random, &mut spoilt_alone, abducibles);
        let some = sound(random, abducibles);
        for held in [Held::NONE, all, some, spoilt, spoilt_alone, any(random)] {
            let answer = begin(&mut self.comparison, file, held);
            let asked = Asked { held, abducibles };
            self.coverage.count_asked(&asked, &answer);
        }
    }

    fn refused(&mut self, file: &[u8]) {
        let random = &mut self.comparison.patterns.random;
        for held in [any(random), any(random)] {
            let answer = begin(&mut self.comparison, file, held);
            let refusal = answer.expect_err("a refused file");
            self.coverage.count_refused(&refusal, &held);
        }
    }
}

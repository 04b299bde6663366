//! Compares the two finders in importing random texts.

use compare::buffers::Buffer;
use compare::comparison::{Comparison, ToldText};
use compare::imported_texts::Imported;
use compare::text_coverage::TextCoverage;
use compare::texts::{long_texts, mixed_texts, TextExaminer};
use compare::words;
use finder::LONGEST_FILE;
use plain::{import, import_text, read_file, Program, TextRefusal};
use random::Random;

const LEAST_TEXTS: u64 = 300_000;

fn main() {
    let comparison = Comparison::start(
        "plain_and_finder_import_the_same_files",
        "the files of random texts",
    );
    let mut random = Random::new(comparison.seed());
    let mut importing = Importing {
        comparison,
        texts: 0,
        coverage: TextCoverage::default(),
    };
    long_texts(&mut random, &mut importing);
    while importing.texts < LEAST_TEXTS {
        mixed_texts(&mut random, &mut importing);
    }

    let Importing {
        comparison,
        texts,
        coverage,
    } = importing;
    let compared = format!("{texts} texts compared with {} buffers", comparison.calls);
    comparison.end(&compared, &coverage.parts());
}

struct Importing {
    comparison: Comparison,
    texts: u64,
    coverage: TextCoverage,
}

impl TextExaminer for Importing {
    fn valid(&mut self, program: &Program, text: &[u8]) {
        if import(text).as_ref() != Ok(program) {
            let call = told(text, String::new());
            self.comparison
                .fail("what is imported is not what was typed", &call);
        }
    }

    fn text(&mut self, text: &[u8]) {
        self.texts += 1;
        match import(text) {
            Ok(program) => self.accepted(text, program),
            Err(refusal) => self.refused(text, &refusal),
        }
    }
}

impl Importing {
    fn accepted(&mut self, text: &[u8], program: Program) {
        self.check_reading(text, &program);
        let imported = Imported::new(text, program);
        self.coverage.count_imported(&imported);
        let needed = imported.file_length;
        let random = &mut self.comparison.patterns.random;
        let shorter = random.below(needed);
        let longer = needed + random.between(1, 100);
        for length in [0, shorter, needed - 1, needed, longer] {
            self.coverage.count_lent(&Buffer { length, needed });
            self.compare(text, length);
        }
    }

    /// The file is read back as exactly what was typed.
    fn check_reading(&mut self, text: &[u8], program: &Program) {
        let mut file = vec![0; LONGEST_FILE];
        let answer = finder::import_text(text, &mut file);
        let read = answer.map(|length| read_file(&file[..length]));
        if read != Ok(Ok(program.clone())) {
            let call = told(text, format!("{read:?}"));
            self.comparison
                .fail("what is read back is not what was typed", &call);
        }
    }

    fn refused(&mut self, text: &[u8], refusal: &TextRefusal) {
        self.coverage.count_refused(text, refusal);
        let random = &mut self.comparison.patterns.random;
        let any = random.below(100);
        let most = if random.one_in(20) { LONGEST_FILE } else { 15 };
        for length in [0, any, most] {
            self.compare(text, length);
        }
    }

    /// Lends both finders a buffer of so many bytes.
    fn compare(&mut self, text: &[u8], length: usize) {
        let patterns = &mut self.comparison.patterns;
        let mut expected_file = patterns.buffer(length);
        let mut found_file = expected_file.clone();
        let mut found = patterns.words();

        let answer = import_text(text, expected_file.part());
        finder::import_words(text, found_file.part(), &mut found);
        let call = told(text, format!("a buffer of {length} bytes"));
        let Importing { comparison, .. } = self;
        comparison.expect_words(&found, &words::of_importing(&answer), &call);
        comparison.expect_items("file buffer", &found_file, &expected_file, &call);
    }
}

fn told(text: &[u8], with: String) -> ToldText<'_> {
    ToldText { text, with }
}

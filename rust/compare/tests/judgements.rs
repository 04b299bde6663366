//! Compares the two finders in judging scenarios of random files.

use compare::causes::{causes, consistent_causes, query_of_heads, Causes};
use compare::comparison::{Comparison, Told};
use compare::judge_coverage::{JudgeCoverage, Lending};
use compare::judged::Judged;
use compare::rounds::{causes_round, limit_round, mixed_rounds, Examiner};
use compare::words;
use plain::{
    dual, encode_dual, encode_file, encode_sheet, judge, read_papers, scenario_count, Program,
    Query,
};
use random::Random;

/// Scenarios of random files, one of each or a few.
const LEAST_JUDGED: u64 = 100_000;

/// Small files, each with all its scenarios, and as many that do not contradict
/// themselves.
const WHOLE_FILES: u64 = 2_500;

fn main() {
    let comparison = Comparison::start(
        "plain_and_finder_judge_the_same",
        "judgements of random scenarios",
    );
    let mut random = Random::new(comparison.seed());
    let mut judgements = Judgements {
        comparison,
        coverage: JudgeCoverage::default(),
    };
    while judgements.coverage.judged() < LEAST_JUDGED {
        mixed_rounds(&mut random, &mut judgements);
        for _ in 0..5 {
            limit_round(&mut random, &mut judgements);
        }
        for _ in 0..500 {
            causes_round(&mut random, &mut judgements);
        }
    }
    let of_random_files = judgements.coverage.judged();
    for file in 0..2 * WHOLE_FILES {
        let make = if file < WHOLE_FILES {
            causes
        } else {
            consistent_causes
        };
        whole_file(&mut random, &mut judgements, make);
    }

    let Judgements {
        comparison,
        coverage,
    } = judgements;
    let compared = format!(
        "{} calls compared, {of_random_files} judgements of random files and \
         {} of 2 x {WHOLE_FILES} whole files",
        comparison.calls,
        coverage.judged() - of_random_files
    );
    comparison.end(&compared, &coverage.parts());
}

/// Judges every scenario of a small file, and the first that is none.
fn whole_file(random: &mut Random, judgements: &mut Judgements, make: Causes) {
    let (abducibles, others) = (random.below(5), random.between(1, 4));
    let program = make(random, abducibles, others);
    let query = query_of_heads(random, &program);
    let papers = Papers::new(&encode_file(&program), &encode_sheet(&query));
    let Accepted {
        dual_length,
        model_length,
        scenarios,
        ..
    } = *papers.accepted();
    for scenario in 0..=scenarios {
        let dual_lent = dual_length + random.below(2);
        let model_lent = model_length + random.below(2);
        judgements.compare(&papers, scenario, dual_lent, model_lent);
    }
}

/// Two papers, and what they say where they are accepted.
struct Papers {
    file: Vec<u8>,
    sheet: Vec<u8>,
    accepted: Option<Accepted>,
}

struct Accepted {
    program: Program,
    query: Query,
    dual_length: usize,
    model_length: usize,
    scenarios: u32,
}

impl Papers {
    fn new(file: &[u8], sheet: &[u8]) -> Self {
        let reading = read_papers(file, sheet).ok();
        Papers {
            file: file.to_vec(),
            sheet: sheet.to_vec(),
            accepted: reading.map(|(program, query)| Accepted {
                dual_length: encode_dual(&dual(&program)).len(),
                model_length: 2 * usize::from(program.atoms) + 1,
                scenarios: scenario_count(&program),
                program,
                query,
            }),
        }
    }

    fn accepted(&self) -> &Accepted {
        self.accepted.as_ref().expect("accepted papers")
    }

    fn told(&self, with: String) -> Told<'_> {
        Told {
            file: &self.file,
            sheet: &self.sheet,
            with,
        }
    }
}

struct Judgements {
    comparison: Comparison,
    coverage: JudgeCoverage,
}

impl Examiner for Judgements {
    fn valid(&mut self, program: &Program, query: &Query) {
        let papers = Papers::new(&encode_file(program), &encode_sheet(query));
        if papers.accepted.is_none() {
            let call = papers.told(String::new());
            self.comparison
                .fail("written papers are not accepted", &call);
        }
    }

    fn pair(&mut self, file: &[u8], sheet: &[u8]) {
        let papers = Papers::new(file, sheet);
        let random = &mut self.comparison.patterns.random;
        let Some(accepted) = &papers.accepted else {
            let scenario = random.pick(&[0, 1, u32::MAX]);
            let (dual, model) = (random.below(200), random.below(100));
            self.compare(&papers, scenario, dual, model);
            return;
        };
        // Once with room for both, once as it comes.
        let scenario = random.word() as u32 % accepted.scenarios;
        let dual = accepted.dual_length + random.below(2);
        let model = accepted.model_length + random.below(2);
        let any_scenario = a_scenario(random, accepted.scenarios);
        let any_dual = a_length(random, accepted.dual_length);
        let any_model = a_length(random, accepted.model_length);
        self.compare(&papers, scenario, dual, model);
        self.compare(&papers, any_scenario, any_dual, any_model);
    }
}

/// Any scenario, or one about the first that is none.
fn a_scenario(random: &mut Random, scenarios: u32) -> u32 {
    match random.below(8) {
        0 => 0,
        1 => scenarios - 1,
        2 => scenarios,
        3 => scenarios + 1 + random.below(5) as u32,
        4 => u32::MAX - random.below(2) as u32,
        _ => random.word() as u32 % scenarios,
    }
}

/// The length of a buffer where so much must be.
fn a_length(random: &mut Random, due: usize) -> usize {
    match random.below(8) {
        0 => 0,
        1 => random.below(due),
        2 => due - 1,
        3 | 4 => due,
        _ => due + random.between(1, 100),
    }
}

impl Judgements {
    /// Lends both finders buffers of so many bytes.
    fn compare(&mut self, papers: &Papers, scenario: u32, dual_lent: usize, model_lent: usize) {
        let Papers { file, sheet, .. } = papers;
        let patterns = &mut self.comparison.patterns;
        let mut expected_dual = patterns.buffer(dual_lent);
        let mut expected_model = patterns.buffer(model_lent);
        let mut found_dual = expected_dual.clone();
        let mut found_model = expected_model.clone();
        let mut found = patterns.words();

        let (dual, model) = (expected_dual.part(), expected_model.part());
        let answer = judge(file, sheet, scenario, dual, model);
        let (dual, model) = (found_dual.part(), found_model.part());
        finder::judge_words(file, sheet, scenario, dual, model, &mut found);

        let call = papers.told(format!(
            "scenario {scenario}, dual buffer of {dual_lent}, model buffer of {model_lent}"
        ));
        let Judgements {
            comparison,
            coverage,
        } = self;
        comparison.expect_words(&found, &words::of_judging(&answer), &call);
        comparison.expect_items("dual buffer", &found_dual, &expected_dual, &call);
        comparison.expect_items("model buffer", &found_model, &expected_model, &call);
        if let Some(accepted) = &papers.accepted {
            coverage.count_lent(&Lending {
                dual: dual_lent,
                dual_length: accepted.dual_length,
                model: model_lent,
                model_length: accepted.model_length,
                scenario,
                scenarios: accepted.scenarios,
            });
        }
        match answer {
            Ok(judgement) => {
                let accepted = papers.accepted();
                coverage.count_judged(&Judged {
                    program: accepted.program.clone(),
                    query: accepted.query.clone(),
                    scenario,
                    judgement,
                    model: expected_model.part()[..accepted.model_length].to_vec(),
                });
            }
            Err(refusal) => coverage.count_refused(&refusal),
        }
    }
}

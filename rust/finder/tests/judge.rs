//! Each slot of finder_judge, each byte of the buffers that it is lent, and the
//! answer made of them, on hand-made papers.

mod pairs;
mod papers;

use finder::{judge, judge_words, JudgeRefusal, Judgement, Refusal, SLOTS};
use pairs::{each_pair_with_refused_file, each_pair_with_refused_sheet, first_slots, SHEET};
use papers::{FILE, FRONT, PATTERN};

/// What the buffers hold before a call.
const DUAL_BYTE: u8 = 0xC3;
const MODEL_BYTE: u8 = 0x5A;

/// The bytes of the dual of `FILE`: 08 and 09 with two numbers each, 08 for 1,
/// 08 for falsum, the end.
const DUAL_LENGTH: usize = 7 + 7 + 5 + 5 + 3;
/// N for its two atoms.
const JUDGED: usize = 5;
const SCENARIOS: u32 = 3;

/// What is lent: both papers, and how long the two buffers are.
#[derive(Clone, Copy)]
struct Lent<'p> {
    file: &'p [u8],
    sheet: &'p [u8],
    dual_length: usize,
    model_length: usize,
}

const ENOUGH: Lent = Lent {
    file: FILE,
    sheet: SHEET,
    dual_length: DUAL_LENGTH,
    model_length: JUDGED,
};

/// Checks the eight words, the bytes of both buffers and the answer.
fn check(
    lent: Lent,
    scenario: u32,
    words: [u64; SLOTS],
    (dual_start, model_start): (&[u8], &[u8]),
    answer: Result<Judgement, JudgeRefusal>,
) {
    let (file, sheet) = (lent.file, lent.sheet);
    let buffers = || {
        (
            vec![DUAL_BYTE; lent.dual_length],
            vec![MODEL_BYTE; lent.model_length],
        )
    };
    let mut expected = buffers();
    expected.0[..dual_start.len()].copy_from_slice(dual_start);
    expected.1[..model_start.len()].copy_from_slice(model_start);

    let mut out = [PATTERN; SLOTS];
    let (mut dual, mut model) = buffers();
    judge_words(file, sheet, scenario, &mut dual, &mut model, &mut out);
    assert_eq!(out, words);
    assert_eq!((&dual, &model), (&expected.0, &expected.1));

    let (mut dual, mut model) = buffers();
    let found = judge(file, sheet, scenario, &mut dual, &mut model);
    assert_eq!(found, answer);
    assert_eq!((dual, model), expected);
}

fn refused(lent: Lent, scenario: u32, refusal: JudgeRefusal) {
    let [number, paper, place] = match refusal {
        JudgeRefusal::Papers(refusal) => first_slots(refusal),
        JudgeRefusal::ShortDual => [11, 0, 0],
        JudgeRefusal::ShortModel => [12, 0, 0],
        JudgeRefusal::NoScenario => [13, 0, 0],
    };
    let words = [number, paper, place, 0, 0, 0, 0, 0];
    check(lent, scenario, words, (&[], &[]), Err(refusal));
}

/// Checks that a paper is refused whatever the scenario and the buffers are.
fn paper_refused(file: &[u8], sheet: &[u8], refusal: Refusal) {
    for (dual_length, model_length) in [(100, 100), (0, 0), (DUAL_LENGTH, 0), (0, JUDGED)] {
        let lent = Lent {
            file,
            sheet,
            dual_length,
            model_length,
        };
        for scenario in [0, SCENARIOS, u32::MAX] {
            refused(lent, scenario, JudgeRefusal::Papers(refusal));
        }
    }
}

#[test]
fn each_scenario_of_a_file() {
    // p where a is assumed; a is undefined, true, false.
    let dual: &[u8] = &[
        0x08, 0, 4, 0, 0, 0, 0, 0x09, 0, 4, 0, 0, 0, 5, // 0 and the only rule
        0x08, 0, 2, 0, 1, 0x08, 0, 2, 0, 4, 0x7F, 0, 0,
    ];
    for (scenario, explains, model) in [
        (0, false, [0, 2, 0, 0, 2]),
        (1, true, [1, 2, 1, 2, 2]),
        (2, false, [2, 2, 2, 1, 2]),
    ] {
        for (beyond_dual, beyond_model) in [(0, 0), (1, 0), (0, 1), (100, 513)] {
            let lent = Lent {
                dual_length: DUAL_LENGTH + beyond_dual,
                model_length: JUDGED + beyond_model,
                ..ENOUGH
            };
            let words = [0, 0, 0, explains.into(), 1, 0, 0, 0];
            let judgement = Judgement {
                explains,
                rounds: 1,
            };
            check(lent, scenario, words, (dual, &model), Ok(judgement));
        }
    }
}

#[test]
fn a_scenario_without_rounds() {
    // p :- not p; -p :- not -p; falsum :- a. All is undefined from the start.
    let rules: &[u8] = &[
        0x04, 0, 4, 0, 0, 0, 1, 0x04, 0, 4, 0, 1, 0, 3, // p and -p
        0x05, 0, 2, 0, 4, 0x7F, 0, 0,
    ];
    let file = [FRONT, rules].concat();
    let dual = [
        &[0x08, 0, 4, 0, 0, 0, 0, 0x09, 0, 4, 0, 0, 0, 0][..],
        &[0x08, 0, 4, 0, 1, 0, 1, 0x09, 0, 4, 0, 1, 0, 2],
        &[0x08, 0, 4, 0, 4, 0, 2, 0x09, 0, 4, 0, 2, 0, 5],
        &[0x7F, 0, 0],
    ]
    .concat();
    let lent = Lent {
        file: &file,
        dual_length: dual.len(),
        ..ENOUGH
    };
    let judgement = Judgement {
        explains: false,
        rounds: 0,
    };
    check(lent, 0, [0; SLOTS], (&dual, &[0; 5]), Ok(judgement));
}

#[test]
fn each_refusal_of_the_file() {
    each_pair_with_refused_file(paper_refused);
}

#[test]
fn each_refusal_of_the_sheet() {
    each_pair_with_refused_sheet(paper_refused);
}

#[test]
fn the_dual_comes_before_the_model_and_the_model_before_the_scenario() {
    let scenarios = [0, SCENARIOS - 1, SCENARIOS, u32::MAX];
    for dual_length in 0..DUAL_LENGTH {
        for model_length in [0, JUDGED - 1, JUDGED, JUDGED + 1] {
            let lent = Lent {
                dual_length,
                model_length,
                ..ENOUGH
            };
            for scenario in scenarios {
                refused(lent, scenario, JudgeRefusal::ShortDual);
            }
        }
    }
    for model_length in 0..JUDGED {
        let lent = Lent {
            model_length,
            ..ENOUGH
        };
        for scenario in scenarios {
            refused(lent, scenario, JudgeRefusal::ShortModel);
        }
    }
    for scenario in [SCENARIOS, SCENARIOS + 1, u32::MAX] {
        refused(ENOUGH, scenario, JudgeRefusal::NoScenario);
    }
}

//! Judging a scenario.

use crate::boundary::{self, SLOTS};
use crate::refusal::Refusal;

/// The answer of judging.
#[derive(Clone, Copy, Debug, PartialEq, Eq)]
pub struct Judgement {
    /// Whether the scenario is an explanation: falsum's byte is 2, each query
    /// literal holds, and no byte of the model is 3.
    pub explains: bool,
    pub rounds: u64,
}

#[derive(Clone, Copy, Debug, PartialEq, Eq)]
pub enum JudgeRefusal {
    /// 1 to 10: one of the papers is not accepted.
    Papers(Refusal),
    /// 11: the lent dual buffer is shorter than the dual.
    ShortDual,
    /// 12: the lent model buffer is shorter than N.
    ShortModel,
    /// 13: the scenario's number is not below 3^k.
    NoScenario,
}

/// Judges the scenario. Leaves the dual at the start of the dual buffer and the
/// model in the first N bytes of the model buffer. The bytes beyond stay; where
/// judging is refused all bytes stay.
///
/// # Panics
///
/// Where the words that come back are not as include/finder.h documents them.
pub fn judge(
    file: &[u8],
    sheet: &[u8],
    scenario: u32,
    dual: &mut [u8],
    model: &mut [u8],
) -> Result<Judgement, JudgeRefusal> {
    let mut words = [0; SLOTS];
    judge_words(file, sheet, scenario, dual, model, &mut words);
    answer(file, sheet, &words)
}

/// The same call with its words as they cross the boundary.
pub fn judge_words(
    file: &[u8],
    sheet: &[u8],
    scenario: u32,
    dual: &mut [u8],
    model: &mut [u8],
    out: &mut [u64; SLOTS],
) {
    // SAFETY: the slices are readable, and `dual` and `model` writable, for
    // their lengths and, being slices, not null and not longer than
    // PTRDIFF_MAX; `out` is writable for eight words; `dual`, `model` and
    // `out`, each being lent alone, overlap neither each other nor a paper.
    unsafe {
        boundary::finder_judge(
            file.as_ptr(),
            file.len(),
            sheet.as_ptr(),
            sheet.len(),
            scenario,
            dual.as_mut_ptr(),
            dual.len(),
            model.as_mut_ptr(),
            model.len(),
            out.as_mut_ptr(),
        );
    }
}

fn answer(file: &[u8], sheet: &[u8], words: &[u64; SLOTS]) -> Result<Judgement, JudgeRefusal> {
    let [number, paper, place, verdict, rounds, unused @ ..] = *words;
    assert_eq!(unused, [0; 3], "slots 5 to 7 have no meaning");
    if number == 0 {
        assert_eq!((paper, place), (0, 0), "both papers are accepted");
        assert!(verdict <= 1, "the verdict is 0 or 1");
        return Ok(Judgement {
            explains: verdict == 1,
            rounds,
        });
    }

    assert_eq!((verdict, rounds), (0, 0), "nothing is judged");
    if number <= 10 {
        let refusal = Refusal::of_slots([number, paper, place], file, sheet);
        return Err(JudgeRefusal::Papers(refusal));
    }
    assert_eq!((paper, place), (0, 0), "{number} has no place");
    Err(match number {
        11 => JudgeRefusal::ShortDual,
        12 => JudgeRefusal::ShortModel,
        13 => JudgeRefusal::NoScenario,
        _ => panic!("no judging is refused with number {number}"),
    })
}

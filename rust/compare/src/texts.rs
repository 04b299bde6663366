//! Programs typed, damage and excess put together into texts.

use plain::{Literal, ObjectiveLiteral, Program};
use random::Random;

use crate::damage::a_few;
use crate::noise::noise;
use crate::programs::Size;
use crate::text_damage::{damaged, soup};
use crate::text_limits::{crowded, exceed, with_literals, LONG_BODIES};
use crate::typing::{integrity_rule, lines, rule, text, typable, Line};

/// What the texts are made for.
pub trait TextExaminer {
    /// Takes a program and a text that types it.
    fn valid(&mut self, program: &Program, text: &[u8]);
    /// Takes any text.
    fn text(&mut self, text: &[u8]);
}

/// Some thousands of texts, most of them small.
pub fn mixed_texts(random: &mut Random, examiner: &mut impl TextExaminer) {
    for _ in 0..20 {
        small_texts(random, examiner);
    }
    for _ in 0..3 {
        limit_texts(random, examiner);
    }
    for _ in 0..40 {
        let lines = crowded(random);
        examiner.text(&text(random, &lines.concat()));
    }
}

/// The texts of a small program, the same cut everywhere, damaged and with too
/// much in it, and noise.
fn small_texts(random: &mut Random, examiner: &mut impl TextExaminer) {
    let size = Size::small(random);
    let program = typable(random, &size);
    let lines = lines(random, &program);
    let typed = text(random, &lines.concat());
    valid_text(&program, &typed, examiner);
    valid_text(&program, &text(random, &lines.concat()), examiner);
    for length in 0..typed.len() {
        examiner.text(&typed[..length]);
    }
    for _ in 0..60 {
        let times = a_few(random);
        examiner.text(&damaged(random, &lines, times));
    }
    for _ in 0..40 {
        excessive_text(random, &lines, examiner);
    }
    for _ in 0..10 {
        examiner.text(&soup(random));
    }
    examiner.text(&noise(random));
}

/// A text with too much in it, now and then damaged: 17 and 18 come first.
fn excessive_text(random: &mut Random, lines: &[Line], examiner: &mut impl TextExaminer) {
    let mut lines = lines.to_vec();
    let times = a_few(random);
    exceed(random, &mut lines, times);
    let damages = usize::from(random.one_in(4));
    examiner.text(&damaged(random, &lines, damages));
}

/// The texts of a program at or past a limit, the same damaged.
fn limit_texts(random: &mut Random, examiner: &mut impl TextExaminer) {
    let size = Size::around_limits(random);
    let program = typable(random, &size);
    let lines = lines(random, &program);
    let typed = text(random, &lines.concat());
    if size.is_within_limits() {
        valid_text(&program, &typed, examiner);
    } else {
        examiner.text(&typed);
    }
    examiner.text(&damaged(random, &lines, 1));
}

fn valid_text(program: &Program, text: &[u8], examiner: &mut impl TextExaminer) {
    examiner.valid(program, text);
    examiner.text(text);
}

/// The longest file typed; and a rule and an integrity rule with each of the
/// longest bodies, each before another line.
pub fn long_texts(random: &mut Random, examiner: &mut impl TextExaminer) {
    let program = typable(random, &Size::LARGEST);
    let lines = lines(random, &program);
    valid_text(&program, &text(random, &lines.concat()), examiner);
    for count in LONG_BODIES {
        let head = ObjectiveLiteral(random.below(6) as u16);
        for mut line in [rule(head, &[]), integrity_rule(&[Literal(0)])] {
            with_literals(random, &mut line, count);
            line.extend(rule(head, &[]));
            examiner.text(&text(random, &line));
        }
    }
}

//! Where a paper is damaged: more often where the kinds of its fields change or
//! their counts reach a limit.

use plain::field::{MOST_INTEGRITY_RULES, MOST_RULES};
use random::Random;

use crate::fields::Fields;

/// Edition, atom count and abducibles.
const BEFORE_RULES: usize = 3;

/// The fields of a file that are the first past a limit, if it has the most
/// rules or integrity rules or both.
pub const FIRST_PAST_LIMIT: [usize; 3] = [
    BEFORE_RULES + MOST_RULES,
    BEFORE_RULES + MOST_INTEGRITY_RULES,
    BEFORE_RULES + MOST_RULES + MOST_INTEGRITY_RULES,
];

/// A field of the paper: any, or one where the kinds of fields change or
/// their counts reach a limit.
pub fn a_field(random: &mut Random, fields: &Fields) -> usize {
    let last = fields.count() - 1;
    let field = match random.below(8) {
        0 => random.below(BEFORE_RULES + 1),
        1 => last.saturating_sub(random.below(3)),
        2 | 3 => random.pick(&FIRST_PAST_LIMIT) - 2 + random.below(5),
        _ => random.between(0, last),
    };
    field.min(last)
}

/// A byte of the paper, in large papers more often near such a field.
pub fn a_place(random: &mut Random, fields: &Fields) -> usize {
    if random.one_in(2) {
        random.below(fields.bytes.len())
    } else {
        let range = fields.range(a_field(random, fields));
        random.between(range.start, range.end - 1)
    }
}

/// Where a number in the content of a field is, the first more often.
pub fn a_number_place(random: &mut Random, fields: &Fields) -> Option<usize> {
    let content = fields.content_range(a_field(random, fields));
    let count = content.len() / 2;
    if count == 0 {
        None
    } else if random.one_in(3) {
        Some(content.start)
    } else {
        Some(content.start + 2 * random.below(count))
    }
}

/// Where two different numbers in the content of a field are.
pub fn two_number_places(random: &mut Random, fields: &Fields) -> Option<(usize, usize)> {
    let content = fields.content_range(a_field(random, fields));
    let count = content.len() / 2;
    if count < 2 {
        return None;
    }
    let one = random.below(count);
    let other = (one + random.between(1, count - 1)) % count;
    Some((content.start + 2 * one, content.start + 2 * other))
}

//! Bytes that were never a paper, or only at their beginning.

use random::Random;

use crate::damage::a_tag;
use crate::fields::Fields;

/// Any bytes.
pub fn noise(random: &mut Random) -> Vec<u8> {
    (0..random.below(40)).map(|_| random.byte()).collect()
}

/// Bytes that often are tags and small numbers.
pub fn tag_noise(random: &mut Random) -> Vec<u8> {
    (0..random.below(40))
        .map(|_| random.pick(&[0, 0, 0, 0, 1, 1, 2, 2, 3, 4, 5, 6, 0x7F, 0x20, 0x22, 0xFF]))
        .collect()
}

/// Some fields of a paper, then noise.
pub fn noise_after(random: &mut Random, paper: &[u8]) -> Vec<u8> {
    let mut parts = Fields::of(paper).parts();
    parts.truncate(random.below(parts.len() + 1));
    let noise = match random.below(4) {
        0 => noise(random),
        1 => tag_noise(random),
        2 => soup(random),
        _ => cut_heading(random),
    };
    parts.push(&noise);
    parts.concat()
}

/// A tag alone or with the first byte of a length.
fn cut_heading(random: &mut Random) -> Vec<u8> {
    let mut bytes = vec![a_tag(random)];
    if random.one_in(2) {
        bytes.push(0);
    }
    bytes
}

/// Fields with tags in any order, often with a fitting content of small
/// numbers.
pub fn soup(random: &mut Random) -> Vec<u8> {
    let mut soup = Vec::new();
    for _ in 0..random.below(8) {
        let tag = a_tag(random);
        let length = if random.one_in(8) {
            random.below(7)
        } else {
            match tag {
                0x01 => 1,
                0x02 => 2,
                0x7F => 0,
                _ => 2 * random.below(4),
            }
        };
        soup.push(tag);
        soup.extend((length as u16).to_be_bytes());
        for at in 0..length {
            let is_high = at % 2 == 0 && length > 1;
            soup.push(if is_high { 0 } else { random.below(6) as u8 });
        }
    }
    soup
}

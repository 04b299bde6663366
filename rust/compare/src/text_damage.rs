//! Texts damaged in one way at a time: in their lines, their tokens or their
//! bytes.

use random::Random;

use crate::typing::{text, Line, Typed, ABDUCIBLE, COMMA, FALSE, IF, MINUS, NOT, STOP};

/// One way to damage what is not empty.
type Damage<T> = fn(&mut Random, Vec<T>) -> Vec<T>;

const OF_LINES: [Damage<Line>; 4] = [swap, shift, repeat, remove];

const OF_TOKENS: [Damage<Typed>; 6] = [
    swap,
    swap_neighbours,
    repeat,
    remove,
    change_token,
    add_token,
];

const OF_BYTES: [Damage<u8>; 5] = [cut, swap_neighbours, remove, change_byte, add_byte];

/// The text of the lines with so many damages, one after the other.
pub fn damaged(random: &mut Random, lines: &[Line], times: usize) -> Vec<u8> {
    let [mut of_lines, mut of_tokens, mut of_bytes] = [0; 3];
    for _ in 0..times {
        match random.below(5) {
            0 => of_lines += 1,
            1 | 2 => of_tokens += 1,
            _ => of_bytes += 1,
        }
    }
    let lines = damaged_by(random, &OF_LINES, lines.to_vec(), of_lines);
    let tokens = damaged_by(random, &OF_TOKENS, lines.concat(), of_tokens);
    let text = text(random, &tokens);
    damaged_by(random, &OF_BYTES, text, of_bytes)
}

/// The items with so many damages, as long as there are any.
fn damaged_by<T>(
    random: &mut Random,
    damages: &[Damage<T>],
    mut items: Vec<T>,
    times: usize,
) -> Vec<T> {
    for _ in 0..times {
        if !items.is_empty() {
            items = random.pick(damages)(random, items);
        }
    }
    items
}

/// A few tokens in any order.
pub fn soup(random: &mut Random) -> Vec<u8> {
    let count = random.below(12);
    let tokens: Vec<Typed> = (0..count).map(|_| a_token(random)).collect();
    text(random, &tokens)
}

/// Any token, or what looks like one.
fn a_token(random: &mut Random) -> Typed {
    const WORDS: [Typed; 7] = [ABDUCIBLE, FALSE, IF, NOT, MINUS, COMMA, STOP];
    match random.below(12) {
        0..3 => Typed::P(random.below(4) as u16),
        3 => Typed::P(random.pick(&[254, 255, 255, 256, 257])),
        4 | 5 => {
            let strays = random.pick(&STRAYS);
            Typed::Word(random.pick(strays))
        }
        _ => random.pick(&WORDS),
    }
}

/// What starts no token, or does so only with its first characters.
const STRAYS: [&[&str]; 4] = [NO_ATOMS, WRAPPING, CUT, NEVER_TYPED];

/// A p without a number, with one above 255 and with a leading zero.
const NO_ATOMS: &[&str] = &[
    "p", "p", "p-1", "px", "p256", "p999", "p2550", "p65537", "p00", "p01", "p0255",
];

/// A p whose number would be 1 in so many bits.
const WRAPPING: &[&str] = &["p257", "p65537", "p4294967297", "p18446744073709551617"];

/// Words that are cut, or that go on.
const CUT: &[&str] = &[
    "n",
    "no",
    "not1",
    ":",
    ": -",
    "a",
    "abducibl",
    "abducibles",
    "f",
    "fals",
    "falsehood",
];

const NEVER_TYPED: &[&str] = &["\t", "\0", "\u{FEFF}", "P1", "7", "x"];

fn swap<T>(random: &mut Random, mut items: Vec<T>) -> Vec<T> {
    let (one, other) = (random.below(items.len()), random.below(items.len()));
    items.swap(one, other);
    items
}

fn swap_neighbours<T>(random: &mut Random, mut items: Vec<T>) -> Vec<T> {
    let at = random.below(items.len());
    items.swap(at, at.saturating_sub(1));
    items
}

fn shift<T>(random: &mut Random, mut items: Vec<T>) -> Vec<T> {
    let item = items.remove(random.below(items.len()));
    items.insert(random.between(0, items.len()), item);
    items
}

/// Puts an item before itself, or anywhere else, a second time.
fn repeat<T: Clone>(random: &mut Random, mut items: Vec<T>) -> Vec<T> {
    let at = random.below(items.len());
    let any = random.between(0, items.len());
    let to = random.pick(&[at, any]);
    items.insert(to, items[at].clone());
    items
}

fn remove<T>(random: &mut Random, mut items: Vec<T>) -> Vec<T> {
    items.remove(random.below(items.len()));
    items
}

fn cut<T>(random: &mut Random, mut items: Vec<T>) -> Vec<T> {
    items.truncate(random.below(items.len()));
    items
}

fn change_token(random: &mut Random, mut tokens: Vec<Typed>) -> Vec<Typed> {
    let at = random.below(tokens.len());
    tokens[at] = a_token(random);
    tokens
}

fn add_token(random: &mut Random, mut tokens: Vec<Typed>) -> Vec<Typed> {
    let at = random.between(0, tokens.len());
    tokens.insert(at, a_token(random));
    tokens
}

fn change_byte(random: &mut Random, mut text: Vec<u8>) -> Vec<u8> {
    let at = random.below(text.len());
    text[at] = match random.below(5) {
        0 => text[at].wrapping_add(1),
        1 => text[at].wrapping_sub(1),
        2 => text[at] ^ (1 << random.below(8)),
        _ => a_byte(random),
    };
    text
}

fn add_byte(random: &mut Random, mut text: Vec<u8>) -> Vec<u8> {
    let at = random.between(0, text.len());
    text.insert(at, a_byte(random));
    text
}

/// Any byte, more often one that is typed.
fn a_byte(random: &mut Random) -> u8 {
    const TYPED: &[u8] = b"p0123456789-not:,.abduciblefalse \r\n";
    const NOT_TYPED: &[u8] = &[
        0, 0x09, 0x0B, 0x0C, 0x7F, 0x80, 0xA0, 0xFF, b'P', b'x', b'+',
    ];
    match random.below(8) {
        0 => random.byte(),
        1 => random.pick(NOT_TYPED),
        _ => random.pick(TYPED),
    }
}

#[cfg(test)]
mod tests {
    use super::*;
    use random::seed::seed;

    #[test]
    fn any_lines_can_be_damaged() {
        let mut random = Random::new(seed(27));
        let line = vec![FALSE, IF, Typed::P(1), STOP];
        for count in 0..5 {
            let lines = vec![line.clone(); count];
            for _ in 0..500 {
                damaged(&mut random, &lines, 6);
            }
        }
    }
}

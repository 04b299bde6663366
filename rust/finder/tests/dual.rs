//! Each slot of finder_write_dual, each byte of the buffer that it is lent,
//! and the answer made of them, on hand-made files.

mod papers;

use finder::{write_dual, write_dual_words, Paper, Refusal, WriteRefusal, SLOTS};
use papers::{each_refused_file, FILE, FRONT, PATTERN};

/// What the buffer holds before a call.
const BYTE: u8 = 0xC3;

/// The dual of `FILE`: objective literals 0 and 1, then falsum, which is 4.
const DUAL: &[u8] = &[
    0x08, 0, 4, 0, 0, 0, 0, 0x09, 0, 4, 0, 0, 0, 5, // 0 and the only rule
    0x08, 0, 2, 0, 1, 0x08, 0, 2, 0, 4, 0x7F, 0, 0,
];

/// Checks the eight words, the bytes of a buffer of so many bytes and the
/// answer.
fn check(
    file: &[u8],
    buffer_length: usize,
    words: [u64; SLOTS],
    start: &[u8],
    answer: Result<usize, WriteRefusal>,
) {
    let mut expected = vec![BYTE; buffer_length];
    expected[..start.len()].copy_from_slice(start);

    let mut out = [PATTERN; SLOTS];
    let mut buffer = vec![BYTE; buffer_length];
    write_dual_words(file, &mut buffer, &mut out);
    assert_eq!(out, words);
    assert_eq!(buffer, expected);

    let mut buffer = vec![BYTE; buffer_length];
    assert_eq!(write_dual(file, &mut buffer), answer);
    assert_eq!(buffer, expected);
}

fn written(file: &[u8], dual: &[u8]) {
    let length = dual.len();
    let words = [0, 0, 0, length as u64, 0, 0, 0, 0];
    for beyond in [0, 1, 100] {
        check(file, length + beyond, words, dual, Ok(length));
    }
    for buffer_length in 0..length {
        let short = Err(WriteRefusal::ShortDual);
        check(file, buffer_length, [11, 0, 0, 0, 0, 0, 0, 0], &[], short);
    }
}

fn refused(number: u8, place: usize, file: &[u8]) {
    let words = [number.into(), 0, place as u64, 0, 0, 0, 0, 0];
    let refusal = Refusal {
        number,
        paper: Paper::File,
        place,
    };
    for buffer_length in [0, 3, 100] {
        let answer = Err(WriteRefusal::File(refusal));
        check(file, buffer_length, words, &[], answer);
    }
}

#[test]
fn the_dual_is_written_where_the_buffer_has_room() {
    written(FILE, DUAL);
    // A fact, an abducible atom and an empty integrity rule leave one entry.
    let rules: &[u8] = &[0x04, 0, 2, 0, 0, 0x05, 0, 0, 0x7F, 0, 0];
    let entry: &[u8] = &[0x08, 0, 2, 0, 1, 0x7F, 0, 0];
    written(&[FRONT, rules].concat(), entry);
}

#[test]
fn each_refusal_of_the_file() {
    each_refused_file(refused);
}

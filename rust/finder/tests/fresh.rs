//! Each slot of finder_fresh, and the answer made of them, on hand-made files.

mod papers;

use calls::holding::{A, B, REFUSED_MASKS};
use calls::searching::OF_NOT_P4;
use finder::{fresh, fresh_words, FreshRefusal, Paper, Record, Refusal, SLOTS};
use papers::{each_refused_file, PATTERN};

const SIXTEEN: &str = "a b c d e f g h i j k l m n o p";

/// A file of so many abducibles, the first of sixteen atoms.
fn with_abducibles(count: usize) -> Vec<u8> {
    let names: Vec<&str> = SIXTEEN.split(' ').take(count).collect();
    calls::file(SIXTEEN, &names.join(" "), "")
}

/// Checks the eight words, whatever they held before, and the answer.
fn check(
    file: &[u8],
    (assumed, ruled): (u16, u16),
    words: [u64; SLOTS],
    answer: Result<Record, FreshRefusal>,
) {
    for before in [PATTERN, !PATTERN, 0] {
        let mut out = [before; SLOTS];
        fresh_words(file, assumed, ruled, &mut out);
        assert_eq!(out, words, "{assumed:#b} {ruled:#b}");
    }
    assert_eq!(fresh(file, assumed, ruled), answer);
}

fn begun(file: &[u8], (assumed, ruled): (u16, u16)) {
    let record = Record {
        position: 0,
        found: 0,
        assumed,
        ruled,
    };
    let words = [0, 0, 0, 0, 0, assumed.into(), ruled.into(), 0];
    check(file, (assumed, ruled), words, Ok(record));
}

fn masks_refused(file: &[u8], masks: (u16, u16), number: u8) {
    let refusal = match number {
        15 => FreshRefusal::SharedBit,
        16 => FreshRefusal::UnlistedBit,
        _ => panic!("no masks are refused with number {number}"),
    };
    let words = [number.into(), 0, 0, 0, 0, 0, 0, 0];
    check(file, masks, words, Err(refusal));
}

#[test]
fn a_fresh_record_has_both_masks() {
    let file = OF_NOT_P4.program.file();
    for masks in [
        (0, 0),
        (A, 0),
        (B, 0),
        (A | B, 0),
        (0, A),
        (0, B),
        (0, A | B),
        (A, B),
        (B, A),
    ] {
        begun(&file, masks);
    }
}

#[test]
fn all_of_sixteen_faults_may_be_held() {
    let file = with_abducibles(16);
    for assumed in [0, 1, 0x5555, 0x8000, 0xFFFE, u16::MAX] {
        begun(&file, (assumed, !assumed));
        begun(&file, (assumed, 0));
        begun(&file, (0, assumed));
    }
}

#[test]
fn a_bit_at_or_above_k_is_refused_16() {
    for count in 0..=16 {
        let file = with_abducibles(count);
        for fault in 0..16 {
            for masks in [(1 << fault, 0), (0, 1 << fault)] {
                if fault < count {
                    begun(&file, masks);
                } else {
                    masks_refused(&file, masks, 16);
                }
            }
        }
    }
}

#[test]
fn a_bit_of_both_masks_is_refused_15_wherever_it_is() {
    for count in 0..=16 {
        let file = with_abducibles(count);
        for fault in 0..16 {
            masks_refused(&file, (1 << fault, 1 << fault), 15);
            masks_refused(&file, (u16::MAX, 1 << fault), 15);
        }
    }
}

#[test]
fn the_masks_of_the_reference_calls() {
    let file = OF_NOT_P4.program.file();
    for &(masks, number) in REFUSED_MASKS {
        masks_refused(&file, masks, number);
    }
}

#[test]
fn each_refusal_of_the_file_comes_before_those_of_the_masks() {
    each_refused_file(|number, place, file| {
        let refusal = Refusal {
            number,
            paper: Paper::File,
            place,
        };
        let words = [number.into(), 0, place as u64, 0, 0, 0, 0, 0];
        for masks in [(0, 0), (A, 0), (A, A), (1 << 15, 0), (u16::MAX, u16::MAX)] {
            check(file, masks, words, Err(FreshRefusal::File(refusal)));
        }
    });
}

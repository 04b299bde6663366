//! Each slot of finder_rest, and the answer made of them, on hand-made papers.

mod pairs;
mod papers;

use finder::{rest, rest_words, Answer, Paper, Refusal, SLOTS};
use pairs::{each_pair_with_refused_file, each_pair_with_refused_sheet, first_slots, SHEET};
use papers::{FILE, PATTERN};

fn words(file: &[u8], sheet: &[u8]) -> [u64; SLOTS] {
    let mut out = [PATTERN; SLOTS];
    rest_words(file, sheet, &mut out);
    out
}

/// Checks the eight words and the answer for a refused paper.
fn refused(file: &[u8], sheet: &[u8], refusal: Refusal) {
    let [number, paper, place] = first_slots(refusal);
    let bytes = match refusal.paper {
        Paper::File => file,
        Paper::Sheet => sheet,
    };
    let rest_of_paper = &bytes[refusal.place..];
    let rest_length = rest_of_paper.len() as u64;
    let expected = [number, paper, place, rest_length, 0, 0, 0, 0];
    assert_eq!(words(file, sheet), expected);
    let expected = Answer {
        refusal: Some(refusal),
        rest: rest_of_paper,
    };
    assert_eq!(rest(file, sheet), expected);
}

#[test]
fn accepted_papers_give_eight_zeros_and_the_end_of_the_sheet() {
    assert_eq!(words(FILE, SHEET), [0; SLOTS]);
    let answer = rest(FILE, SHEET);
    assert_eq!(answer.refusal, None);
    let end_of_sheet = &SHEET[SHEET.len()..];
    assert_eq!(answer.rest.as_ptr_range(), end_of_sheet.as_ptr_range());
}

#[test]
fn each_refusal_of_the_file() {
    each_pair_with_refused_file(refused);
}

#[test]
fn each_refusal_of_the_sheet() {
    each_pair_with_refused_sheet(refused);
}

#[test]
fn the_file_is_refused_before_the_sheet() {
    let of_file = |number, place| Refusal {
        number,
        paper: Paper::File,
        place,
    };
    refused(&[], &[], of_file(1, 0));
    refused(&[FILE, &[0]].concat(), FILE, of_file(10, 24));
}

//! Each slot of finder_import, each byte of the buffer that it is lent, and the
//! answer made of them, on texts made by hand, long ones too.

use std::time::{Duration, Instant};

use calls::lent::pattern;
use finder::{import_text, import_words, ImportRefusal, TextRefusal, LONGEST_FILE, SLOTS};

/// What `out` holds before a call; no answer here has such a word.
const PATTERN: u64 = 0xA5A5_5A5A_C3C3_3C3C;

/// Edition 1, and the end.
const FRONT: &[u8] = &[0x01, 0, 1, 1];
const END: &[u8] = &[0x7F, 0, 0];

/// Checks the eight words, the bytes of a buffer of so many bytes and the
/// answer.
fn check(
    text: &[u8],
    buffer_length: usize,
    words: [u64; SLOTS],
    start: &[u8],
    answer: Result<usize, ImportRefusal>,
) {
    let mut expected = pattern(buffer_length);
    expected[..start.len()].copy_from_slice(start);

    let mut out = [PATTERN; SLOTS];
    let mut buffer = pattern(buffer_length);
    import_words(text, &mut buffer, &mut out);
    assert_eq!(out, words, "{}", shown(text));
    assert_eq!(buffer, expected, "{}", shown(text));

    let mut buffer = pattern(buffer_length);
    assert_eq!(import_text(text, &mut buffer), answer, "{}", shown(text));
    assert_eq!(buffer, expected, "{}", shown(text));
}

/// The text, or its start where it is long.
fn shown(text: &[u8]) -> String {
    text[..text.len().min(80)].escape_ascii().to_string()
}

/// The file with so many atoms, whose fields are these.
fn file(atoms: u16, fields: &[&[u8]]) -> Vec<u8> {
    let count = [&[0x02, 0, 2], &atoms.to_be_bytes()[..]].concat();
    [FRONT, &count, &fields.concat(), END].concat()
}

/// Checks that the text is imported as the file where there is room for it, and
/// refused by 11 where there is not.
fn imported(text: impl AsRef<[u8]>, file: &[u8]) {
    let (text, length) = (text.as_ref(), file.len());
    let words = [0, 0, 0, length as u64, 0, 0, 0, 0];
    for beyond in [0, 1, 100, LONGEST_FILE] {
        check(text, length + beyond, words, file, Ok(length));
    }
    let short = Err(ImportRefusal::ShortFile);
    for buffer_length in (0..length.min(50)).chain([length - 1]) {
        check(text, buffer_length, [11, 0, 0, 0, 0, 0, 0, 0], &[], short);
    }
}

/// Checks that the text is refused whatever buffer is lent.
fn refused(number: u8, place: usize, text: impl AsRef<[u8]>) {
    let words = [number.into(), 2, place as u64, 0, 0, 0, 0, 0];
    let refusal = TextRefusal { number, place };
    for buffer_length in [0, 14, 100] {
        let answer = Err(ImportRefusal::Text(refusal));
        check(text.as_ref(), buffer_length, words, &[], answer);
    }
}

/// A line with this head, which may be `false`, and so many literals.
fn with_literals(head: &str, count: usize) -> String {
    format!("{head} :- {}.", vec!["-p0"; count].join(","))
}

/// Lines that declare the atoms, 15 bytes each.
fn declared(atoms: impl Iterator<Item = u16>) -> String {
    let lines = atoms.map(|atom| format!("abducible p{atom:<3}."));
    lines.collect()
}

const NO_ABDUCIBLES: &[u8] = &[0x03, 0, 0];

#[test]
fn the_lines_of_card_4() {
    let rule: &[u8] = &[0x04, 0, 6, 0, 6, 0, 6, 0, 1];
    imported("p3 :- -p1, not p0.", &file(4, &[NO_ABDUCIBLES, rule]));
    imported("abducible p4.", &file(5, &[&[0x03, 0, 2, 0, 4]]));
    let integrity_rule: &[u8] = &[0x05, 0, 2, 0, 4];
    imported("false :- p1.", &file(2, &[NO_ABDUCIBLES, integrity_rule]));
    imported("false.", &file(1, &[NO_ABDUCIBLES, &[0x05, 0, 0]]));
    imported("p2.", &file(3, &[NO_ABDUCIBLES, &[0x04, 0, 2, 0, 4]]));
}

#[test]
fn the_empty_text_and_blanks_are_a_file_of_15_bytes() {
    let smallest = file(1, &[NO_ABDUCIBLES]);
    assert_eq!(smallest.len(), 15);
    for text in ["", " ", "\r", "\n", " \r\n\r\n  \n"] {
        imported(text, &smallest);
    }
}

#[test]
fn lines_are_written_by_their_kind_and_abducibles_rising_and_once() {
    let text = "false :- p1. abducible p3.
        -p1 :- not -p255, p3.
        false. abducible p0. abducible p3.
        p2.";
    let expected = file(
        256,
        &[
            &[0x03, 0, 4, 0, 0, 0, 3],
            &[0x04, 0, 6, 0, 3, 0x03, 0xFF, 0, 12],
            &[0x04, 0, 2, 0, 4],
            &[0x05, 0, 2, 0, 4],
            &[0x05, 0, 0],
        ],
    );
    imported(text, &expected);
}

#[test]
fn tokens_may_touch() {
    let rule: &[u8] = &[0x04, 0, 4, 0, 2, 0, 1];
    let expected = file(2, &[NO_ABDUCIBLES, rule]);
    imported("p1:-notp0.", &expected);
    imported(" p1\r:-\nnot p0 \r\n.\n", &expected);
    let denied: &[u8] = &[0x04, 0, 4, 0, 2, 0, 3];
    for text in ["p1:-not-p0.", "p1 :- not - p0 ."] {
        imported(text, &file(2, &[NO_ABDUCIBLES, denied]));
    }
    refused(18, 2, "p3p4.");
    refused(18, 0, "nothing.");
    refused(17, 9, "abducibles p1.");
    refused(17, 9, "p1 :- notx");
}

#[test]
fn refusal_17_at_what_starts_no_token() {
    for typed in ["p", "p00", "p01", "p256", "p99999999999999999999", "px"] {
        refused(17, 0, typed);
        refused(17, 6, format!("p1 :- {typed}."));
        // No atom would be allowed there either.
        refused(17, 3, format!("p1 {typed}."));
    }
    for typed in [
        "no", ":", "fals", "abducibl", "x", "P0", "\t", "\0", "\u{FEFF}",
    ] {
        refused(17, 3, format!("p1.{typed}"));
        refused(17, 3, format!("p1.{typed} p1."));
    }
    refused(17, 3, "p1 : - p0.");
}

#[test]
fn refusal_18_at_what_the_line_form_bars() {
    for (place, text) in [
        (0, "."),
        (0, "not p1."),
        (0, ":- p1."),
        (10, "abducible -p1."),
        (13, "abducible p1 :- p0."),
        (6, "false p1."),
        (3, "p1 p0."),
        (1, "--p0."),
        (5, "p1:- ."),
        (4, "p1:-,p0."),
        (7, "p1:-p0,."),
        (8, "p1:-not not p0."),
        (7, "p1:-p0 p0."),
        (7, "p1:-p0 false."),
    ] {
        refused(18, place, text);
    }
    // The end inside a line, whose blanks count.
    for text in ["p1", "p1 ", "p1 :-\r\n", "abducible", "-", "p1. false"] {
        refused(18, text.len(), text);
    }
}

#[test]
fn the_earlier_of_17_and_18_decides_and_both_come_before_the_file() {
    refused(18, 3, "p1 p0. ?");
    refused(17, 3, "p1 ? p0 p0.");
    let too_long = with_literals("p1", 17);
    refused(17, too_long.len(), format!("{too_long}?"));
    refused(18, too_long.len(), format!("{too_long}."));
}

#[test]
fn refusal_3_at_the_line_with_one_too_many() {
    let sixteen = declared((0..16).rev().chain(0..16));
    refused(
        3,
        sixteen.len() + 2,
        format!("{sixteen}\r\nabducible p16. abducible p17."),
    );
    for head in ["p1", "-p1", "false"] {
        refused(3, 4, format!("p1. {}", with_literals(head, 17)));
        refused(3, 0, with_literals(head, 40_000));
    }
    let numbers: Vec<u8> = (0..16).flat_map(u16::to_be_bytes).collect();
    let abducibles = [&[0x03, 0, 32], &numbers[..]].concat();
    imported(sixteen, &file(16, &[&abducibles]));
    let rule = [&[0x04, 0, 34, 0, 2][..], &[0, 2].repeat(16)].concat();
    imported(with_literals("p1", 16), &file(2, &[NO_ABDUCIBLES, &rule]));
    let integrity_rule = [&[0x05, 0, 32][..], &[0, 2].repeat(16)].concat();
    let expected = file(1, &[NO_ABDUCIBLES, &integrity_rule]);
    imported(with_literals("false", 16), &expected);
}

#[test]
fn refusal_8_wherever_the_abducible_is_declared() {
    refused(8, 13, "abducible p1.p1.");
    refused(8, 13, "abducible p1.-p1 :- p0.");
    refused(8, 1, " p1. abducible p1.");
    refused(8, 0, "-p1 :- p1. abducible p1.");
}

#[test]
fn refusal_9_at_the_first_past_the_limit() {
    refused(9, 1_024 * 3, "p0.".repeat(1_025));
    refused(9, 256 * 6, "false.".repeat(257));
    let rules = [0x04, 0, 2, 0, 0].repeat(1_024);
    let integrity_rules = [0x05, 0, 0].repeat(256);
    let expected = file(1, &[NO_ABDUCIBLES, &rules, &integrity_rules]);
    imported("false.".repeat(256) + &"p0.".repeat(1_024), &expected);
}

#[test]
fn fields_are_checked_in_the_order_of_the_file() {
    let long_rule = with_literals("p0", 17);
    let long_integrity_rule = with_literals("false", 17);
    // An integrity rule after the rules, and these after the abducibles.
    let text = format!("{long_integrity_rule}{long_rule}");
    refused(3, long_integrity_rule.len(), text);
    let text = format!("{long_integrity_rule}p1. abducible p1.");
    refused(8, long_integrity_rule.len(), text);
    let text = format!("{long_rule}{}", declared(0..17));
    refused(3, long_rule.len() + 16 * 15, text);
    // In a rule the count, the length, the head.
    refused(3, 0, format!("{long_rule}abducible p0."));
    let rules = "p1.".repeat(1_024);
    refused(9, rules.len(), format!("{rules}{long_rule}abducible p0."));
    let integrity_rules = "false.".repeat(256);
    let text = format!("{integrity_rules}{long_integrity_rule}");
    refused(9, integrity_rules.len(), text);
}

#[test]
fn the_longest_file() {
    let rules = format!("{}\n", with_literals("p255", 16)).repeat(1_024);
    let integrity_rules = with_literals("false", 16).repeat(256);
    let text = format!("{}{rules}{integrity_rules}", declared(1..17));
    let mut buffer = pattern(LONGEST_FILE);
    assert_eq!(import_text(text.as_bytes(), &mut buffer), Ok(LONGEST_FILE));
    imported(text, &buffer);
}

#[test]
fn a_refusal_says_why_and_where() {
    let said = |text: &str, room| {
        let answer = import_text(text.as_bytes(), &mut vec![0; room]);
        answer.expect_err("a refusal").to_string()
    };
    let stray = "refused by 17: no permitted token starts at place 6 of the text";
    assert_eq!(said("p1 :- ?.", 15), stray);
    let broken = "refused by 18: the line form is broken at place 6 of the text";
    assert_eq!(said("p1 :- .", 15), broken);
    let many = "refused by 3: too many abducibles or literals with the line at place 0 of the text";
    assert_eq!(said(&with_literals("p0", 17), 15), many);
    let fixed = "refused by 8: an abducible or its negation heads the line at place 0 of the text";
    assert_eq!(said("p0. abducible p0.", 15), fixed);
    let overfull =
        "refused by 9: too many rules or integrity rules with the line at place 1536 of the text";
    assert_eq!(said(&"false.".repeat(257), 15), overfull);
    let short = "refused by 11: the buffer is shorter than the file";
    assert_eq!(said("", 14), short);
}

/// The bytes of a long text, or about as many.
const LONG: usize = 10_000_000;

/// Checks what comes of a long text, and that it does not take long.
fn answered_at_once(text: String, expected: Result<usize, TextRefusal>) {
    let mut buffer = pattern(100);
    let begun = Instant::now();
    let answer = import_text(text.as_bytes(), &mut buffer);
    let taken = begun.elapsed();
    println!("{taken:?} {}", shown(text.as_bytes()));
    assert_eq!(answer, expected.map_err(ImportRefusal::Text));
    assert!(taken < Duration::from_secs(1), "{taken:?}");
}

#[test]
fn long_texts_are_answered_at_once() {
    let refused = |number, place| Err(TextRefusal { number, place });
    answered_at_once(with_literals("p1", LONG / 4), refused(3, 0));
    answered_at_once(with_literals("false", LONG / 4), refused(3, 0));
    let unended = format!("p1 :- p0{}", ",p0".repeat(LONG / 3));
    let end = unended.len();
    answered_at_once(unended, refused(18, end));

    answered_at_once("abducible p1.\n".repeat(LONG / 14), Ok(17));
    answered_at_once(" \r\n ".repeat(LONG / 4), Ok(15));
    let facts = "p0.".repeat(LONG / 3);
    answered_at_once(format!("{facts}?"), refused(17, facts.len()));
    answered_at_once(facts, refused(9, 1_024 * 3));
    answered_at_once("false.".repeat(LONG / 6), refused(9, 256 * 6));
    answered_at_once("-".repeat(LONG), refused(18, 1));

    let digits = "1".repeat(LONG);
    answered_at_once(format!("p{digits}"), refused(17, 0));
    answered_at_once(format!("p0 :- p{digits}."), refused(17, 6));
    answered_at_once(format!("p{}.", "0".repeat(LONG)), refused(17, 0));
}

//! Hand-made files and their duals. They stand in hexadecimal as document 01
//! writes them; numbers and lengths are counted by hand, not taken from the
//! crate.

mod hand;

use calls::lent::pattern;
use hand::{body_literals, bytes};
use plain::{
    dual, encode_dual, encode_file, read_file, write_dual, BodyLiteral, Dual, Entry, Fold, Folding,
    Literal, Number, ObjectiveLiteral, Paper, Program, Refusal, Rule, WriteRefusal,
};

/// a, b, c = 0, 1, 2; c :- not b; b :- a; -b; a :- not a.
const EXAMPLE_2_1: &str = "01 0001 01 02 0002 0003 03 0000
    04 0004 0004 0005
    04 0004 0002 0000
    04 0002 0003
    04 0004 0000 0001
    7F 0000";
/// Folds 0 to 3 are the rules above; -b, which is 3, is a fact; 6 is falsum.
const DUAL_OF_2_1: &str = "08 0004 0000 0003  09 0004 0003 0000
    08 0002 0001
    08 0004 0002 0001  09 0004 0001 0001
    08 0004 0004 0000  09 0004 0000 0004
    08 0002 0005
    08 0002 0006
    7F 0000";

/// Edition, one atom, no abducibles. Objective literals 0 and 1, falsum 2.
const ONE_ATOM: &str = "01 0001 01 02 0002 0001 03 0000";
/// The same with two atoms: objective literals 0 to 3, falsum 4.
const TWO_ATOMS: &str = "01 0001 01 02 0002 0002 03 0000";
const END: &str = "7F 0000";

/// Checks that the file has this dual and that it is written to any buffer
/// that is long enough and to no other.
fn is_dual(file: &[&str], expected: &[&str]) {
    let file = bytes(file);
    let expected = bytes(expected);
    let program = read_file(&file).expect("an accepted file");
    assert_eq!(encode_dual(&dual(&program)), expected);
    is_written(&file, &expected);
}

fn is_written(file: &[u8], expected: &[u8]) {
    for beyond in [0, 1, 50] {
        let mut buffer = pattern(expected.len() + beyond);
        assert_eq!(write_dual(file, &mut buffer), Ok(expected.len()));
        let (start, rest) = buffer.split_at(expected.len());
        assert_eq!(start, expected);
        assert_eq!(rest, &pattern(buffer.len())[expected.len()..]);
    }
    for length in [0, expected.len() / 2, expected.len() - 1] {
        is_refused(WriteRefusal::ShortDual, file, length);
    }
}

fn is_refused(refusal: WriteRefusal, file: &[u8], buffer_length: usize) {
    let mut buffer = pattern(buffer_length);
    assert_eq!(write_dual(file, &mut buffer), Err(refusal));
    assert_eq!(buffer, pattern(buffer_length));
}

#[test]
fn example_2_1() {
    assert_eq!(bytes(&[DUAL_OF_2_1]).len(), 60);
    is_dual(&[EXAMPLE_2_1], &[DUAL_OF_2_1]);
}

#[test]
fn the_content_of_the_dual_of_example_2_1() {
    let with_rule = |literal, fold, conjugate| Entry {
        literal: ObjectiveLiteral(literal),
        foldings: vec![Folding {
            fold: Fold(fold),
            conjugates: body_literals(&[conjugate]),
        }],
    };
    let without_rules = |literal| Entry {
        literal: ObjectiveLiteral(literal),
        foldings: vec![],
    };
    let entries = vec![
        with_rule(0, 3, 0),
        without_rules(1),
        with_rule(2, 1, 1),
        with_rule(4, 0, 4),
        without_rules(5),
        without_rules(6),
    ];
    let program = read_file(&bytes(&[EXAMPLE_2_1])).unwrap();
    assert_eq!(dual(&program), Dual { entries });
}

#[test]
fn a_fact_has_no_entry() {
    is_dual(
        &[ONE_ATOM, "04 0002 0000", END],
        &["08 0002 0001 08 0002 0002", END],
    );
    is_dual(
        &[ONE_ATOM, "04 0002 0001", END],
        &["08 0002 0000 08 0002 0002", END],
    );
    // Whatever its other rules are and wherever they stand.
    let body = "04 0004 0000 0002";
    let fact = "04 0002 0000";
    for rules in [[body, fact, body], [fact, body, body], [body, body, fact]] {
        is_dual(
            &[ONE_ATOM, &rules.concat(), END],
            &["08 0002 0001 08 0002 0002", END],
        );
    }
}

#[test]
fn the_rules_of_a_fact_keep_their_fold_numbers() {
    let rules = "04 0002 0000  04 0004 0000 0002  04 0004 0001 0000";
    is_dual(
        &[ONE_ATOM, rules, END],
        &["08 0004 0001 0002 09 0004 0002 0001", "08 0002 0002", END],
    );
}

#[test]
fn an_abducible_and_its_negation_have_no_entry() {
    // The example of document 01: atom 1 is abducible and stands in the body.
    is_dual(
        &["01 0001 01 02 0002 0002 03 0002 0001 04 0004 0000 0004 7F 0000"],
        &[
            "08 0004 0000 0000 09 0004 0000 0005",
            "08 0002 0001",
            "08 0002 0004",
            END,
        ],
    );
    is_dual(
        &["01 0001 01 02 0002 0003 03 0004 0000 0002", END],
        &["08 0002 0002 08 0002 0003 08 0002 0006", END],
    );
}

#[test]
fn a_literal_without_rules_has_an_entry_without_folds() {
    is_dual(
        &[TWO_ATOMS, END],
        &[
            "08 0002 0000 08 0002 0001 08 0002 0002 08 0002 0003",
            "08 0002 0004",
            END,
        ],
    );
    // Whether or not not(o) occurs: here not(1) does, not(2) does not.
    is_dual(
        &[TWO_ATOMS, "04 0004 0000 0003", END],
        &[
            "08 0004 0000 0000 09 0004 0000 0002",
            "08 0002 0001 08 0002 0002 08 0002 0003",
            "08 0002 0004",
            END,
        ],
    );
}

#[test]
fn rules_stand_under_their_heads_by_rising_fold_number() {
    let rules = "04 0004 0002 0000
        04 0004 0000 0002
        04 0004 0003 0004
        04 0004 0002 0006
        04 0004 0000 0001
        04 0004 0002 0003";
    is_dual(
        &[TWO_ATOMS, rules, END],
        &[
            "08 0006 0000 0001 0004  09 0004 0001 0003  09 0004 0004 0000",
            "08 0002 0001",
            "08 0008 0002 0000 0003 0005
                09 0004 0000 0001  09 0004 0003 0007  09 0004 0005 0002",
            "08 0004 0003 0002  09 0004 0002 0005",
            "08 0002 0004",
            END,
        ],
    );
}

#[test]
fn falsum_is_last_and_its_folds_go_on_from_the_rules() {
    let rules = "04 0004 0000 0002 04 0004 0000 0002";
    let integrity_rules = "05 0002 0000 05 0004 0001 0003";
    let foldings_of_0 = "09 0004 0000 0003 09 0004 0001 0003";
    let foldings_of_falsum = "09 0004 0002 0001 09 0006 0003 0000 0002";
    is_dual(
        &[ONE_ATOM, rules, integrity_rules, END],
        &[
            "08 0006 0000 0000 0001",
            foldings_of_0,
            "08 0002 0001",
            "08 0006 0002 0002 0003",
            foldings_of_falsum,
            END,
        ],
    );
    // Without rules they begin at 0.
    is_dual(
        &[ONE_ATOM, integrity_rules, END],
        &[
            "08 0002 0000 08 0002 0001",
            "08 0006 0002 0000 0001",
            "09 0004 0000 0001 09 0006 0001 0000 0002",
            END,
        ],
    );
}

#[test]
fn an_empty_integrity_rule_makes_falsum_a_fact() {
    let entries = "08 0002 0000 08 0002 0001";
    is_dual(&[ONE_ATOM, "05 0000", END], &[entries, END]);
    let body_first = [ONE_ATOM, "05 0002 0000 05 0000", END];
    is_dual(&body_first, &[entries, END]);
    let body_last = [ONE_ATOM, "05 0000 05 0002 0000", END];
    is_dual(&body_last, &[entries, END]);
}

#[test]
fn the_shortest_dual_is_the_end_alone() {
    is_dual(
        &["01 0001 01 02 0002 0001 03 0002 0000 05 0000", END],
        &[END],
    );
    let facts = "04 0002 0000 04 0002 0001 05 0000";
    is_dual(&[ONE_ATOM, facts, END], &[END]);
}

#[test]
fn each_body_literal_has_its_default_conjugate_in_order() {
    let body = "0007 0006 0005 0004 0003 0002 0001 0000 0000 0007";
    let conjugates = "0006 0007 0004 0005 0002 0003 0000 0001 0001 0006";
    is_dual(
        &[TWO_ATOMS, "04 0016 0001", body, "05 0014", body, END],
        &[
            "08 0002 0000",
            "08 0004 0001 0000 09 0016 0000",
            conjugates,
            "08 0002 0002 08 0002 0003",
            "08 0004 0004 0001 09 0016 0001",
            conjugates,
            END,
        ],
    );
    for number in 0..1024 {
        let conjugate = Literal(number).default_conjugate();
        assert_ne!(conjugate, Literal(number));
        assert_eq!(conjugate.0 / 2, number / 2);
        assert_eq!(conjugate.default_conjugate(), Literal(number));
        let in_body = BodyLiteral::Literal(Literal(number));
        assert_eq!(in_body.default_conjugate(), BodyLiteral::Literal(conjugate));
    }
}

#[test]
fn the_constant_is_its_own_default_conjugate() {
    let u = BodyLiteral::Undefined;
    assert_eq!(u.default_conjugate(), u);
    let body = "FFFF 0007 FFFF FFFF 0000";
    let conjugates = "FFFF 0006 FFFF FFFF 0001";
    is_dual(
        &[TWO_ATOMS, "04 000C 0001", body, "05 000A", body, END],
        &[
            "08 0002 0000",
            "08 0004 0001 0000 09 000C 0000",
            conjugates,
            "08 0002 0002 08 0002 0003",
            "08 0004 0004 0001 09 000C 0001",
            conjugates,
            END,
        ],
    );
}

#[test]
fn a_head_keeps_its_entry_where_the_constant_is_its_whole_body() {
    is_dual(
        &[ONE_ATOM, "04 0004 0000 FFFF", END],
        &[
            "08 0004 0000 0000 09 0004 0000 FFFF",
            "08 0002 0001 08 0002 0002",
            END,
        ],
    );
    is_dual(
        &[ONE_ATOM, "05 0002 FFFF", END],
        &[
            "08 0002 0000 08 0002 0001",
            "08 0004 0002 0000 09 0004 0000 FFFF",
            END,
        ],
    );
    // Not where it has an empty body besides.
    let rules = "04 0004 0000 FFFF 04 0002 0000 05 0000 05 0002 FFFF";
    is_dual(&[ONE_ATOM, rules, END], &["08 0002 0001", END]);
}

#[test]
fn numbers_have_their_high_byte_first() {
    // 256 atoms: objective literal 511 is the last, falsum is 512, literal
    // 1023 the last. The last rule is fold 256, the integrity rule fold 257.
    let rules = "04 0002 0000".repeat(256);
    let file = [
        "01 0001 01 02 0002 0100 03 0000",
        &rules,
        "04 0004 01FF 03FE 05 0004 03FF 0100",
        END,
    ];
    let no_rules: String = (1..511)
        .map(|literal| format!("08 0002 {literal:04X}"))
        .collect();
    is_dual(
        &file,
        &[
            &no_rules,
            "08 0004 01FF 0100  09 0004 0100 03FF",
            "08 0004 0200 0101  09 0006 0101 03FE 0101",
            END,
        ],
    );
}

#[test]
fn an_entry_can_have_every_rule() {
    let rules = "04 0004 0001 0003".repeat(1024);
    let folds: String = (0..1024).map(|fold| format!("{fold:04X}")).collect();
    let foldings: String = (0..1024)
        .map(|fold| format!("09 0004 {fold:04X} 0002"))
        .collect();
    let entry = ["08 0802 0001", &folds, &foldings].concat();
    is_dual(
        &[ONE_ATOM, &rules, END],
        &["08 0002 0000", &entry, "08 0002 0002", END],
    );
}

/// A program with as many rules and literals as there is room for, each literal
/// having this number.
fn fullest(literal: u16) -> Program {
    let sixteen = body_literals(&[literal; 16]);
    Program {
        atoms: 256,
        abducibles: vec![],
        rules: (0..1024)
            .map(|rule| Rule {
                head: ObjectiveLiteral(rule % 512),
                body: sixteen.clone(),
            })
            .collect(),
        integrity_bodies: vec![sixteen; 256],
    }
}

#[test]
fn the_longest_dual() {
    for (literal, conjugate) in [(1023, "03FE"), (0xFFFF, "FFFF")] {
        is_longest(&fullest(literal), conjugate);
    }
}

fn is_longest(program: &Program, conjugate: &str) {
    let written = encode_dual(&dual(program));
    // An 08 field for each objective literal and falsum; for each rule and
    // integrity rule a fold number there and a 09 field of 17 numbers; the end.
    let length = 513 * (3 + 2) + 1280 * 2 + 1280 * (3 + 2 * 17) + 3;
    assert_eq!(length, 52_488);
    assert_eq!(written.len(), length);
    assert_eq!(plain::dual::LONGEST_DUAL, length);
    is_written(&encode_file(program), &written);
    let conjugates = conjugate.repeat(16);
    let first = ["08 0006 0000 0000 0200  09 0022 0000", &conjugates];
    assert!(written.starts_with(&bytes(&first)));
    let last = ["09 0022 04FF", &conjugates, END];
    assert!(written.ends_with(&bytes(&last)));
}

#[test]
fn a_refused_file_has_no_dual() {
    let refused = |number, place, parts: &[&str]| {
        let refusal = WriteRefusal::File(Refusal {
            number,
            paper: Paper::File,
            place,
        });
        assert_eq!(refusal.number(), number as u8);
        let file = bytes(parts);
        // Not even a short buffer is refused before the file.
        for buffer_length in [0, 3, 100, 60_000] {
            is_refused(refusal, &file, buffer_length);
        }
    };
    refused(Number::Cut, 0, &[]);
    refused(Number::Cut, 12, &[ONE_ATOM]);
    refused(Number::StrayField, 12, &[ONE_ATOM, "08 0002 0000", END]);
    refused(Number::Misfit, 12, &[ONE_ATOM, "04 0000", END]);
    refused(Number::Edition, 0, &["01 0001 02"]);
    refused(Number::AtomCount, 4, &["01 0001 01 02 0002 0101"]);
    refused(Number::Unlisted, 12, &[ONE_ATOM, "04 0002 0002", END]);
    let disorder = "01 0001 01 02 0002 0002 03 0004 0001 0000";
    refused(Number::Disorder, 9, &[disorder, END]);
    let fixed = "01 0001 01 02 0002 0001 03 0002 0000";
    refused(Number::FixedFault, 14, &[fixed, "04 0002 0001", END]);
    let overfull = "05 0000".repeat(257);
    refused(Number::Overfull, 780, &[ONE_ATOM, &overfull, END]);
    refused(Number::Tail, 15, &[ONE_ATOM, END, "00"]);
}

#[test]
fn a_short_buffer_is_refused_11() {
    assert_eq!(WriteRefusal::ShortDual.number(), 11);
    let file = bytes(&[EXAMPLE_2_1]);
    for length in 0..60 {
        is_refused(WriteRefusal::ShortDual, &file, length);
    }
    assert_eq!(write_dual(&file, &mut pattern(60)), Ok(60));
}

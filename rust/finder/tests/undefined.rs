//! FFFF in bodies, the constant u of Card 5 of document 02: what is judged, found
//! and written with it, and that it is refused elsewhere.

use calls::lent::{list_pattern, pattern};
use calls::{file, sheet};
use finder::{
    continue_search, fresh, judge, rest, write_dual, FreshRefusal, JudgeRefusal, Judgement, Paper,
    Refusal, State, WriteRefusal,
};

/// No dual here is longer.
const LONGEST_DUAL: usize = 52_488;
const LONGEST_MODEL: usize = 513;

const NO_QUERY: &[u8] = &[0x06, 0, 0, 0x7F, 0, 0];

const UNDEFINED: u16 = 0xFFFF;
const NEIGHBOUR: u16 = 0xFFFE;

/// The judgement with the empty query and the model of scenario 0.
fn judged(file: &[u8]) -> (Judgement, Vec<u8>) {
    let (mut dual, mut model) = (pattern(LONGEST_DUAL), pattern(LONGEST_MODEL));
    let judgement = judge(file, NO_QUERY, 0, &mut dual, &mut model);
    model.truncate(2 * atom_count(file) + 1);
    (judgement.expect("an accepted call"), model)
}

fn atom_count(file: &[u8]) -> usize {
    u16::from_be_bytes([file[7], file[8]]).into()
}

/// The model of the one scenario of these rules.
fn model(atoms: &str, rules: &str) -> Vec<u8> {
    judged(&file(atoms, "", rules)).1
}

#[test]
fn a_head_with_u_alone_is_undefined() {
    let (judgement, bytes) = judged(&file("p", "", "p :- undefined"));
    assert_eq!(bytes, [0, 2, 2]);
    assert_eq!(judgement.rounds, 1);
    assert_eq!(model("p", "-p :- undefined"), [2, 0, 2]);
    assert_eq!(model("p", "p :- undefined, undefined"), [0, 2, 2]);
    // Nor is a literal that follows from it, or from its not, true or false.
    let after = "p :- undefined; q :- p; -q :- not p";
    assert_eq!(model("p q", after), [0, 2, 0, 0, 2]);
}

#[test]
fn u_is_as_a_loop_through_not() {
    let by_loop = judged(&file("p", "", "p :- not p"));
    assert_eq!(judged(&file("p", "", "p :- undefined")), by_loop);
}

#[test]
fn u_never_fails_and_never_holds() {
    // q has no rule and is false.
    for body in ["undefined, q", "q, undefined", "undefined, q, undefined"] {
        assert_eq!(model("p q", &format!("p :- {body}")), [2; 5], "{body}");
    }
    assert_eq!(model("p q", "p :- undefined, not q"), [0, 2, 2, 2, 2]);
    assert_eq!(model("p q", "q; p :- q, undefined"), [0, 2, 1, 2, 2]);
    assert_eq!(model("p q", "q; p :- not q, undefined"), [2, 2, 1, 2, 2]);
    // A ring through it fails.
    assert_eq!(model("p q", "p :- q, undefined; q :- p"), [2; 5]);
}

#[test]
fn u_bars_no_other_rule_and_a_conjugate_bars_it() {
    assert_eq!(model("p", "p :- undefined; p"), [1, 2, 2]);
    assert_eq!(model("p", "p; p :- undefined"), [1, 2, 2]);
    assert_eq!(model("p", "p :- undefined; -p"), [2, 1, 2]);
    assert_eq!(model("p", "p :- undefined; -p :- undefined"), [0, 0, 2]);
}

#[test]
fn without_anything_true_or_false_there_is_no_round() {
    let rules = "p :- undefined; -p :- undefined; falsum :- undefined";
    let judgement = Judgement {
        explains: false,
        rounds: 0,
    };
    assert_eq!(judged(&file("p", "", rules)), (judgement, vec![0; 3]));
}

/// What a whole search over p and the abducible a finds.
fn found(rules: &str, query: &str) -> Vec<u32> {
    let (file, sheet) = (file("p a", "a", rules), sheet("p a", query));
    let mut list = list_pattern(3);
    let mut dual = pattern(LONGEST_DUAL);
    let record = fresh(&file, 0, 0).expect("an accepted file");
    let answer = continue_search(&file, &sheet, &mut dual, &mut list, record, u32::MAX);
    let continued = answer.expect("an accepted call");
    assert_eq!((continued.tried, continued.state), (3, State::Ended));
    let count = continued.record.found as usize;
    assert_eq!(list[count..], list_pattern(3)[count..]);
    list.truncate(count);
    list
}

#[test]
fn with_falsum_undefined_there_is_no_explanation() {
    let (judgement, bytes) = judged(&file("p", "", "p; falsum :- undefined"));
    assert_eq!(bytes, [1, 2, 0]);
    assert!(!judgement.explains);
    for query in ["", "p", "a", "not p"] {
        assert_eq!(found("p :- a; falsum :- undefined", query), [], "{query}");
    }
    // Unless another literal of its rule fails.
    assert_eq!(found("falsum :- undefined, a", ""), [2]);
    assert_eq!(found("falsum :- not a, undefined", ""), [1]);
    assert_eq!(found("falsum :- undefined, p", ""), [0]);
    assert_eq!(found("falsum :- undefined, p; falsum :- undefined", ""), []);
}

#[test]
fn a_search_finds_what_does_not_need_u() {
    assert_eq!(found("p :- undefined", "p"), []);
    assert_eq!(found("p :- undefined", "not p"), []);
    assert_eq!(found("p :- a, undefined", "p"), []);
    assert_eq!(found("p :- a, undefined", "not p"), [2]);
    assert_eq!(found("p :- a, undefined; p :- not a", "p"), [2]);
}

fn dual(atoms: &str, rules: &str) -> Vec<u8> {
    let mut dual = pattern(LONGEST_DUAL);
    let length = write_dual(&file(atoms, "", rules), &mut dual);
    dual.truncate(length.expect("an accepted file"));
    dual
}

#[test]
fn the_dual_lists_u_as_it_stands() {
    let expected = [
        &[0x08, 0, 4, 0, 0, 0, 0][..],
        &[0x09, 0, 8, 0, 0, 0, 3, 0xFF, 0xFF, 0, 2],
        &[0x08, 0, 2, 0, 1],
        &[0x08, 0, 4, 0, 2, 0, 1],
        &[0x09, 0, 6, 0, 1, 0xFF, 0xFF, 0xFF, 0xFF],
        &[0x7F, 0, 0],
    ];
    let rules = "p :- -p, undefined, not -p; falsum :- undefined, undefined";
    assert_eq!(dual("p", rules), expected.concat());
}

#[test]
fn a_rule_with_u_alone_makes_no_fact_of_its_head() {
    let expected = [
        &[0x08, 0, 4, 0, 0, 0, 0][..],
        &[0x09, 0, 4, 0, 0, 0xFF, 0xFF],
        &[0x08, 0, 2, 0, 1],
        &[0x08, 0, 4, 0, 2, 0, 1],
        &[0x09, 0, 4, 0, 1, 0xFF, 0xFF],
        &[0x7F, 0, 0],
    ];
    let rules = "p :- undefined; falsum :- undefined";
    assert_eq!(dual("p", rules), expected.concat());
    // A fact leaves no entry to list it.
    let rules = "p :- undefined; p; falsum :- undefined; falsum";
    let expected = [&[0x08, 0, 2, 0, 1][..], &[0x7F, 0, 0]];
    assert_eq!(dual("p", rules), expected.concat());
}

/// The paper with another number at a place.
fn with_number(paper: &[u8], at: usize, number: u16) -> Vec<u8> {
    let mut paper = paper.to_vec();
    paper[at..at + 2].copy_from_slice(&number.to_be_bytes());
    paper
}

/// Checks what reading and judging tell of refused papers, and that the buffers
/// stay.
fn papers_refused(file: &[u8], sheet: &[u8], refusal: Refusal) {
    let answer = rest(file, sheet);
    let bytes = match refusal.paper {
        Paper::File => file,
        Paper::Sheet => sheet,
    };
    assert_eq!(answer.refusal, Some(refusal));
    assert_eq!(answer.rest, &bytes[refusal.place..]);

    let (mut dual, mut model) = (pattern(100), pattern(100));
    let judgement = judge(file, sheet, 0, &mut dual, &mut model);
    assert_eq!(judgement, Err(JudgeRefusal::Papers(refusal)));
    assert_eq!((dual, model), (pattern(100), pattern(100)));
}

fn file_refused(file: &[u8], number: u8, place: usize) {
    let refusal = Refusal {
        number,
        paper: Paper::File,
        place,
    };
    // A refused file hides what the sheet is.
    for sheet in [NO_QUERY, &[]] {
        papers_refused(file, sheet, refusal);
    }
    let mut dual = pattern(100);
    let written = write_dual(file, &mut dual);
    assert_eq!(written, Err(WriteRefusal::File(refusal)));
    assert_eq!(dual, pattern(100));
    assert_eq!(fresh(file, 0, 0), Err(FreshRefusal::File(refusal)));
}

/// Where the fields of the files below begin: the front has one abducible, the
/// rule one literal.
const ABDUCIBLES: usize = 9;
const RULE: usize = 14;
const INTEGRITY_RULE: usize = 21;

/// The numbers of a field come after tag and length.
const HEADING: usize = 3;

#[test]
fn in_a_head_and_among_the_abducibles_it_is_unlisted() {
    let whole = file("p a", "a", "p :- a; falsum :- a");
    for number in [UNDEFINED, NEIGHBOUR] {
        file_refused(&with_number(&whole, RULE + HEADING, number), 6, RULE);
        let among = with_number(&whole, ABDUCIBLES + HEADING, number);
        file_refused(&among, 6, ABDUCIBLES);
    }
    // Of a head of FFFF the body comes too late.
    let rule = with_number(&whole, RULE + HEADING, UNDEFINED);
    file_refused(&with_number(&rule, RULE + HEADING + 2, UNDEFINED), 6, RULE);
}

#[test]
fn its_neighbour_is_unlisted_in_bodies_too() {
    for rules in ["p :- a; falsum :- a", "p :- undefined; falsum :- undefined"] {
        let whole = file("p a", "a", rules);
        let in_rule = with_number(&whole, RULE + HEADING + 2, NEIGHBOUR);
        file_refused(&in_rule, 6, RULE);
        let in_integrity_rule = with_number(&whole, INTEGRITY_RULE + HEADING, NEIGHBOUR);
        file_refused(&in_integrity_rule, 6, INTEGRITY_RULE);
    }
}

#[test]
fn in_the_sheet_it_is_unlisted() {
    let whole = file("p a", "a", "p :- undefined");
    let query = sheet("p a", "p, not a");
    for at in [HEADING, HEADING + 2] {
        for number in [UNDEFINED, NEIGHBOUR] {
            let refusal = Refusal {
                number: 6,
                paper: Paper::Sheet,
                place: 0,
            };
            papers_refused(&whole, &with_number(&query, at, number), refusal);
        }
    }
}

#[test]
fn it_counts_as_one_of_sixteen_literals() {
    let with_literals = |count| {
        let body = ["undefined"].repeat(count).join(", ");
        file("p a", "a", &format!("p :- {body}"))
    };
    assert_eq!(judged(&with_literals(16)).1, [0, 2, 0, 0, 2]);
    file_refused(&with_literals(17), 3, RULE);
}

#[test]
fn with_256_atoms_the_literals_below_it_are_as_before() {
    // p :- u and a literal of the last atom.
    let whole = |literal| {
        let few = file("p", "", "p :- undefined, p");
        let literal_place = few.len() - 3 - 2;
        with_number(&with_number(&few, 7, 256), literal_place, literal)
    };
    let rule = 12;
    for (literal, byte) in [(1_022, 2), (1_023, 0), (UNDEFINED, 0)] {
        let (_, model) = judged(&whole(literal));
        assert_eq!((model.len(), model[0]), (LONGEST_MODEL, byte), "{literal}");
    }
    for literal in [1_024, 1_025, NEIGHBOUR] {
        file_refused(&whole(literal), 6, rule);
    }
}

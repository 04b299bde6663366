//! What is read of hand-made papers, which of the tests comes first, and the rest
//! of a refused paper. The papers stand in hexadecimal as document 01 writes
//! them; counts and places are counted by hand, not taken from the crate.

mod checks;
mod example;
mod hand;

use checks::{file_accepted, file_refused, sheet_accepted, sheet_refused};
use checks::{END, ONE_FIXED, TWO_ATOMS};
use hand::{body_literals, bytes};
use plain::{
    encode_file, read_file, read_papers, read_sheet, rest_of_paper, Atom, BodyLiteral, Literal,
    Number, ObjectiveLiteral, Paper, Program, Refusal, Rule,
};

#[test]
fn rules_and_integrity_rules_keep_their_order() {
    let program = file_accepted(&[
        TWO_ATOMS,
        "04 0002 0003",
        "04 0006 0000 0007 0001",
        "05 0000",
        "05 0004 0002 0006",
        END,
    ]);
    let expected = Program {
        atoms: 2,
        abducibles: vec![],
        rules: vec![
            Rule {
                head: ObjectiveLiteral(3),
                body: vec![],
            },
            Rule {
                head: ObjectiveLiteral(0),
                body: body_literals(&[7, 1]),
            },
        ],
        integrity_bodies: vec![vec![], body_literals(&[2, 6])],
    };
    assert_eq!(program, expected);
}

#[test]
fn a_body_literal_is_a_number_or_the_constant() {
    let program = file_accepted(&[
        TWO_ATOMS,
        "04 0004 0000 FFFF",
        "04 0008 0003 FFFF 0007 FFFF",
        "05 0002 FFFF",
        "05 0004 0002 FFFF",
        END,
    ]);
    let u = BodyLiteral::Undefined;
    let literal = |number| BodyLiteral::Literal(Literal(number));
    let bodies: Vec<_> = program.rules.iter().map(|rule| &rule.body[..]).collect();
    assert_eq!(bodies, [&[u][..], &[u, literal(7), u]]);
    assert_eq!(program.integrity_bodies, [vec![u], vec![literal(2), u]]);

    assert_eq!(BodyLiteral::read(0xFFFF), u);
    assert_eq!(u.number(), 0xFFFF);
    for number in 0..0xFFFF {
        assert_eq!(BodyLiteral::read(number), literal(number));
        assert_eq!(literal(number).number(), number);
    }
}

#[test]
fn the_smallest_papers_are_accepted() {
    let program = file_accepted(&["01 0001 01 02 0002 0001 03 0000", END]);
    assert_eq!(program.atoms, 1);
    let query = sheet_accepted(1, &["06 0000", END]);
    assert_eq!(query.literals, []);
}

#[test]
fn sixteen_abducibles_pass_and_seventeen_do_not() {
    let with_abducibles = |count: u16| Program {
        atoms: 20,
        abducibles: (0..count).map(Atom).collect(),
        rules: vec![],
        integrity_bodies: vec![],
    };
    let most = with_abducibles(16);
    assert_eq!(read_file(&encode_file(&most)), Ok(most));
    let refusal = read_file(&encode_file(&with_abducibles(17))).unwrap_err();
    assert_eq!((refusal.number, refusal.place), (Number::Misfit, 9));
}

#[test]
fn sixteen_literals_pass_and_seventeen_do_not() {
    let sixteen = "0001".repeat(16);
    let seventeen = "0001".repeat(17);
    file_accepted(&[TWO_ATOMS, "04 0022 0000", &sixteen, END]);
    let rule = [TWO_ATOMS, "04 0024 0000", &seventeen, END];
    file_refused(Number::Misfit, 12, &rule);
    file_accepted(&[TWO_ATOMS, "05 0020", &sixteen, END]);
    let integrity = [TWO_ATOMS, "05 0022", &seventeen, END];
    file_refused(Number::Misfit, 12, &integrity);
    sheet_accepted(2, &["06 0020", &sixteen, END]);
    sheet_refused(Number::Misfit, 0, &["06 0022", &seventeen, END]);
}

#[test]
fn the_constant_counts_as_one_of_the_sixteen() {
    for undefined in [1, 8, 15, 16] {
        let sixteen = ["0001".repeat(16 - undefined), "FFFF".repeat(undefined)].concat();
        file_accepted(&[TWO_ATOMS, "04 0022 0000", &sixteen, END]);
        file_accepted(&[TWO_ATOMS, "05 0020", &sixteen, END]);
        for one_more in ["FFFF", "0001"] {
            let rule = [TWO_ATOMS, "04 0024 0000", one_more, &sixteen, END];
            file_refused(Number::Misfit, 12, &rule);
            let integrity = [TWO_ATOMS, "05 0022", one_more, &sixteen, END];
            file_refused(Number::Misfit, 12, &integrity);
        }
    }
}

#[test]
fn tests_of_a_field_come_in_order() {
    // Heading (1) before tag (2).
    file_refused(Number::Cut, 0, &["FF 00"]);
    // Tag (2) before length (3) and content whole (1).
    file_refused(Number::StrayField, 0, &["02 FFFF"]);
    // Length (3) before content whole (1).
    file_refused(Number::Misfit, 0, &["01 FFFF"]);
    file_refused(Number::Misfit, 12, &[TWO_ATOMS, "05 0022 0000"]);
    // Content whole (1) before content (4 to 8).
    file_refused(Number::Cut, 12, &[TWO_ATOMS, "05 0004 FFFE 00"]);
    file_refused(Number::Cut, 14, &[ONE_FIXED, "04 0004 0002 00"]);
    sheet_refused(Number::Cut, 0, &["06 0004 FFFF 00"]);
    // An earlier field before a later one.
    file_refused(Number::Edition, 0, &["01 0001 02 FF"]);
    file_refused(Number::AtomCount, 4, &["01 0001 01 02 0002 0000 03 0001"]);
}

#[test]
fn the_file_is_refused_before_the_sheet() {
    let good_file = bytes(&[example::FILE]);
    let bad_file = bytes(&[example::FILE, "00"]);
    let good_sheet = bytes(&[example::SHEET]);
    let bad_sheet = bytes(&["06 0002 0008", END]);
    let papers = |file, sheet| {
        let refusal = read_papers(file, sheet).unwrap_err();
        (refusal.paper, refusal.number, refusal.place)
    };
    let tail = (Paper::File, Number::Tail, 24);
    assert_eq!(papers(&bad_file, &good_sheet), tail);
    assert_eq!(papers(&bad_file, &bad_sheet), tail);
    let unlisted = (Paper::Sheet, Number::Unlisted, 0);
    assert_eq!(papers(&good_file, &bad_sheet), unlisted);
    assert_eq!(papers(&[], &[]), (Paper::File, Number::Cut, 0));
    assert_eq!(papers(&good_file, &[]), (Paper::Sheet, Number::Cut, 0));
}

#[test]
fn the_sheet_is_bounded_by_the_atoms_of_its_file() {
    let sheet = bytes(&["06 0002 0007", END]);
    assert!(read_sheet(2, &sheet).is_ok());
    let refusal = read_sheet(1, &sheet).unwrap_err();
    assert_eq!((refusal.number, refusal.place), (Number::Unlisted, 0));
}

#[test]
fn the_rest_is_that_of_the_refused_paper() {
    let file = bytes(&[example::FILE]);
    let sheet = bytes(&[example::SHEET]);
    assert!(is_part_at(rest_of_paper(&file, &sheet), &sheet, 8));

    let stray = bytes(&[ONE_FIXED, "06 0000", END]);
    assert!(is_part_at(rest_of_paper(&stray, &sheet), &stray, 14));
    let missing = bytes(&[ONE_FIXED]);
    assert!(is_part_at(rest_of_paper(&missing, &sheet), &missing, 14));
    let tail = bytes(&[example::SHEET, "0102"]);
    assert!(is_part_at(rest_of_paper(&file, &tail), &tail, 8));
    assert_eq!(rest_of_paper(&file, &tail), [1, 2]);
}

/// Whether `part` is the very part of `paper` from `place`, not a copy.
fn is_part_at(part: &[u8], paper: &[u8], place: usize) -> bool {
    part.as_ptr_range() == paper[place..].as_ptr_range()
}

#[test]
fn a_refusal_is_shown_as_document_01_prints_it() {
    let refusal = Refusal {
        number: Number::Unlisted,
        paper: Paper::Sheet,
        place: 0,
    };
    assert_eq!(refusal.to_string(), "refused 6 sheet 0");
    let refusal = read_file(&[]).unwrap_err();
    assert_eq!(refusal.to_string(), "refused 1 file 0");
}

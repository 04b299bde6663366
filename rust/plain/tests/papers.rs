//! Hand-made papers: the example of document 01, and each refusal by its number.
//! They stand in hexadecimal as document 01 writes them; counts and places are
//! counted by hand, not taken from the crate.

mod checks;
mod example;
mod hand;

use checks::{file_accepted, file_refused, sheet_accepted, sheet_refused};
use checks::{END, ONE_FIXED, TWO_ATOMS};
use hand::{body_literals, bytes};
use plain::{
    encode_file, encode_sheet, read_file, read_papers, read_sheet, rest_of_paper, Atom, Literal,
    Number, ObjectiveLiteral, Program, Query, Rule,
};

#[test]
fn the_example_of_document_01() {
    let file = bytes(&[example::FILE]);
    let sheet = bytes(&[example::SHEET]);
    let program = Program {
        atoms: 2,
        abducibles: vec![Atom(1)],
        rules: vec![Rule {
            head: ObjectiveLiteral(0),
            body: body_literals(&[4]),
        }],
        integrity_bodies: vec![],
    };
    let query = Query {
        literals: vec![Literal(0)],
    };
    assert_eq!(encode_file(&program), file);
    assert_eq!(encode_sheet(&query), sheet);
    assert_eq!(read_papers(&file, &sheet), Ok((program, query)));
    assert_eq!(rest_of_paper(&file, &sheet), []);
}

#[test]
fn refusal_1_cut() {
    // A field is missing: the place is the end of the paper.
    file_refused(Number::Cut, 0, &[]);
    file_refused(Number::Cut, 4, &["01 0001 01"]);
    file_refused(Number::Cut, 9, &["01 0001 01 02 0002 0002"]);
    file_refused(Number::Cut, 12, &[TWO_ATOMS]);
    file_refused(Number::Cut, 17, &[TWO_ATOMS, "04 0002 0000"]);
    file_refused(Number::Cut, 15, &[TWO_ATOMS, "05 0000"]);
    sheet_refused(Number::Cut, 0, &[]);
    sheet_refused(Number::Cut, 5, &["06 0002 0000"]);
    // The heading is not whole.
    file_refused(Number::Cut, 0, &["01"]);
    file_refused(Number::Cut, 0, &["01 00"]);
    file_refused(Number::Cut, 12, &[TWO_ATOMS, "7F 00"]);
    sheet_refused(Number::Cut, 0, &["06 00"]);
    sheet_refused(Number::Cut, 3, &["06 0000 7F"]);
    // The content is not whole.
    file_refused(Number::Cut, 0, &["01 0001"]);
    file_refused(Number::Cut, 4, &["01 0001 01 02 0002 00"]);
    file_refused(Number::Cut, 9, &["01 0001 01 02 0002 0002 03 0002 00"]);
    file_refused(Number::Cut, 12, &[TWO_ATOMS, "04 0004 0000 00"]);
    file_refused(Number::Cut, 12, &[TWO_ATOMS, "05 0002 00"]);
    sheet_refused(Number::Cut, 0, &["06 0004 0000 00"]);
}

#[test]
fn every_cut_of_the_example_is_refused_1_at_the_field_it_is_in() {
    let file = bytes(&[example::FILE]);
    let starts = [0, 4, 9, 14, 21];
    for length in 0..file.len() {
        let place = *starts.iter().rfind(|&&start| start <= length).unwrap();
        let refusal = read_file(&file[..length]).unwrap_err();
        assert_eq!((refusal.number, refusal.place), (Number::Cut, place));
    }
    let sheet = bytes(&[example::SHEET]);
    let starts = [0, 5];
    for length in 0..sheet.len() {
        let place = *starts.iter().rfind(|&&start| start <= length).unwrap();
        let refusal = read_sheet(2, &sheet[..length]).unwrap_err();
        assert_eq!((refusal.number, refusal.place), (Number::Cut, place));
    }
}

#[test]
fn refusal_2_stray_field() {
    // Unknown tags.
    file_refused(Number::StrayField, 0, &["00 0001 01"]);
    file_refused(Number::StrayField, 12, &[TWO_ATOMS, "07 0000", END]);
    file_refused(Number::StrayField, 12, &[TWO_ATOMS, "08 0000", END]);
    file_refused(Number::StrayField, 12, &[TWO_ATOMS, "FF 0000", END]);
    sheet_refused(Number::StrayField, 0, &["86 0000", END]);
    // Known tags where they are not allowed.
    file_refused(Number::StrayField, 0, &["02 0002 0002"]);
    file_refused(Number::StrayField, 4, &["01 0001 01 01 0001 01"]);
    file_refused(Number::StrayField, 4, &["01 0001 01 03 0000"]);
    file_refused(Number::StrayField, 9, &["01 0001 01 02 0002 0002 7F 0000"]);
    file_refused(Number::StrayField, 9, &["01 0001 01 02 0002 0002 05 0000"]);
    file_refused(Number::StrayField, 12, &[TWO_ATOMS, "03 0000", END]);
    file_refused(Number::StrayField, 12, &[TWO_ATOMS, "06 0000", END]);
    sheet_refused(Number::StrayField, 0, &[END]);
    sheet_refused(Number::StrayField, 3, &["06 0000 06 0000", END]);
    // A rule after an integrity rule.
    let rule_after = [TWO_ATOMS, "04 0002 0000 05 0000 04 0002 0000", END];
    file_refused(Number::StrayField, 20, &rule_after);
    // The papers the wrong way round.
    file_refused(Number::StrayField, 0, &[example::SHEET]);
    sheet_refused(Number::StrayField, 0, &[example::FILE]);
}

#[test]
fn refusal_3_misfit() {
    file_refused(Number::Misfit, 0, &["01 0000"]);
    file_refused(Number::Misfit, 0, &["01 0002 0101"]);
    file_refused(Number::Misfit, 4, &["01 0001 01 02 0001 02"]);
    file_refused(Number::Misfit, 4, &["01 0001 01 02 0003 000200"]);
    file_refused(Number::Misfit, 9, &["01 0001 01 02 0002 0002 03 0001 00"]);
    file_refused(Number::Misfit, 12, &[TWO_ATOMS, "04 0000", END]);
    file_refused(Number::Misfit, 12, &[TWO_ATOMS, "04 0001 00", END]);
    file_refused(Number::Misfit, 12, &[TWO_ATOMS, "04 0003 000000", END]);
    file_refused(Number::Misfit, 12, &[TWO_ATOMS, "05 0001 00", END]);
    file_refused(Number::Misfit, 12, &[TWO_ATOMS, "7F 0001 00"]);
    sheet_refused(Number::Misfit, 0, &["06 0003 000000", END]);
    sheet_refused(Number::Misfit, 3, &["06 0000 7F 0002 0000"]);
    // The high byte of the length counts.
    file_refused(Number::Misfit, 0, &["01 0101 01"]);
    file_refused(Number::Misfit, 12, &[TWO_ATOMS, "7F 0100"]);
}

#[test]
fn refusal_4_edition() {
    file_refused(Number::Edition, 0, &["01 0001 00"]);
    file_refused(Number::Edition, 0, &["01 0001 02"]);
    file_refused(Number::Edition, 0, &["01 0001 FF"]);
}

#[test]
fn refusal_5_atom_count() {
    let with_atoms = |atoms: &str| bytes(&["01 0001 01 02 0002", atoms, "03 0000", END]);
    for (atoms, count) in [("0001", 1), ("00FF", 255), ("0100", 256)] {
        assert_eq!(read_file(&with_atoms(atoms)).unwrap().atoms, count);
    }
    for atoms in ["0000", "0101", "0200", "FFFF"] {
        let refusal = read_file(&with_atoms(atoms)).unwrap_err();
        assert_eq!((refusal.number, refusal.place), (Number::AtomCount, 4));
    }
}

#[test]
fn refusal_6_unlisted() {
    // Two atoms: atoms below 2, heads below 4, literals below 8.
    file_accepted(&["01 0001 01 02 0002 0002 03 0002 0001", END]);
    let atom = ["01 0001 01 02 0002 0002 03 0002 0002", END];
    file_refused(Number::Unlisted, 9, &atom);
    file_accepted(&[TWO_ATOMS, "04 0002 0003", END]);
    file_refused(Number::Unlisted, 12, &[TWO_ATOMS, "04 0002 0004", END]);
    file_accepted(&[TWO_ATOMS, "04 0006 0000 0000 0007", END]);
    let body = [TWO_ATOMS, "04 0006 0000 0000 0008", END];
    file_refused(Number::Unlisted, 12, &body);
    file_accepted(&[TWO_ATOMS, "05 0004 0000 0007", END]);
    let integrity = [TWO_ATOMS, "05 0004 0000 0008", END];
    file_refused(Number::Unlisted, 12, &integrity);
    sheet_accepted(2, &["06 0004 0000 0007", END]);
    sheet_refused(Number::Unlisted, 0, &["06 0004 0000 0008", END]);
    // The high byte counts.
    file_refused(Number::Unlisted, 12, &[TWO_ATOMS, "04 0002 0100", END]);
    sheet_refused(Number::Unlisted, 0, &["06 0002 FF00", END]);
}

#[test]
fn refusal_6_with_256_atoms() {
    let atoms = "01 0001 01 02 0002 0100";
    file_accepted(&[atoms, "03 0002 00FF", END]);
    file_refused(Number::Unlisted, 9, &[atoms, "03 0002 0100", END]);
    file_accepted(&[atoms, "03 0000 04 0002 01FF", END]);
    file_refused(Number::Unlisted, 12, &[atoms, "03 0000 04 0002 0200", END]);
    file_accepted(&[atoms, "03 0000 05 0002 03FF", END]);
    file_refused(Number::Unlisted, 12, &[atoms, "03 0000 05 0002 0400", END]);
    sheet_accepted(256, &["06 0002 03FF", END]);
}

#[test]
fn refusal_6_of_ffff_anywhere_but_in_a_body() {
    file_accepted(&[TWO_ATOMS, "04 0004 0000 FFFF", END]);
    file_accepted(&[TWO_ATOMS, "05 0002 FFFF", END]);
    let atom = ["01 0001 01 02 0002 0002 03 0002 FFFF", END];
    file_refused(Number::Unlisted, 9, &atom);
    file_refused(Number::Unlisted, 12, &[TWO_ATOMS, "04 0002 FFFF", END]);
    let head_and_body = [TWO_ATOMS, "04 0004 FFFF FFFF", END];
    file_refused(Number::Unlisted, 12, &head_and_body);
    sheet_refused(Number::Unlisted, 0, &["06 0002 FFFF", END]);
    sheet_refused(Number::Unlisted, 0, &["06 0004 0000 FFFF", END]);
    sheet_refused(Number::Unlisted, 0, &["06 0004 FFFF 0000", END]);
    // What stands after it in a body is tested as before.
    let body = [TWO_ATOMS, "04 0008 0000 FFFF 0008 FFFF", END];
    file_refused(Number::Unlisted, 12, &body);
    let integrity = [TWO_ATOMS, "05 0004 FFFF 0008", END];
    file_refused(Number::Unlisted, 12, &integrity);
}

#[test]
fn refusal_6_of_fffe_everywhere() {
    for atoms in [1, 2, 256] {
        let header = format!("01 0001 01 02 0002 {atoms:04X}");
        for near in ["FFFE", "FEFF", "FF7F", "7FFF", "FF00"] {
            let rest = format!("03 0002 {near}");
            file_refused(Number::Unlisted, 9, &[&header, &rest, END]);
            for field in ["04 0002", "04 0004 0000", "04 0006 0000 FFFF", "05 0002"] {
                let rest = format!("03 0000 {field} {near}");
                file_refused(Number::Unlisted, 12, &[&header, &rest, END]);
            }
            let sheet = bytes(&["06 0002", near, END]);
            let refusal = read_sheet(atoms, &sheet).unwrap_err();
            assert_eq!((refusal.number, refusal.place), (Number::Unlisted, 0));
        }
    }
}

#[test]
fn refusal_7_disorder() {
    let three_atoms = "01 0001 01 02 0002 0003";
    file_accepted(&[three_atoms, "03 0006 0000 0001 0002", END]);
    file_refused(Number::Disorder, 9, &[three_atoms, "03 0004 0001 0001"]);
    file_refused(Number::Disorder, 9, &[three_atoms, "03 0004 0002 0000"]);
    file_refused(Number::Disorder, 9, &[three_atoms, "03 0004 0000 0000"]);
    // The numbers are tested one after the other.
    let disorder_first = [three_atoms, "03 0006 0001 0000 0003"];
    file_refused(Number::Disorder, 9, &disorder_first);
    let unlisted_first = [three_atoms, "03 0006 0001 0003 0000"];
    file_refused(Number::Unlisted, 9, &unlisted_first);
}

#[test]
fn refusal_8_fixed_fault() {
    // Atom 1 is abducible: objective literals 2 and 3 head no rule.
    file_accepted(&[ONE_FIXED, "04 0002 0001", END]);
    file_refused(Number::FixedFault, 14, &[ONE_FIXED, "04 0002 0002", END]);
    file_refused(Number::FixedFault, 14, &[ONE_FIXED, "04 0002 0003", END]);
    file_refused(Number::Unlisted, 14, &[ONE_FIXED, "04 0002 0004", END]);
    // They may stand in bodies.
    file_accepted(&[ONE_FIXED, "04 0006 0000 0004 0007", END]);
    // The head is tested before the body.
    let both = [ONE_FIXED, "04 0004 0002 0008", END];
    file_refused(Number::FixedFault, 14, &both);
    let with_undefined = [ONE_FIXED, "04 0004 0002 FFFF", END];
    file_refused(Number::FixedFault, 14, &with_undefined);
}

#[test]
fn refusal_9_overfull_rules() {
    let most = "04 0002 0000".repeat(1024);
    let place = 12 + 1024 * 5;
    let program = file_accepted(&[TWO_ATOMS, &most, END]);
    assert_eq!(program.rules.len(), 1024);
    let refused = |number, next: &str| file_refused(number, place, &[TWO_ATOMS, &most, next]);
    refused(Number::Overfull, "04 0002 0000 7F 0000");
    // Tested after heading and tag, before length and content.
    refused(Number::Cut, "04 00");
    refused(Number::StrayField, "03 0000");
    refused(Number::Overfull, "04 0001 00");
    refused(Number::Overfull, "04 0002 00");
    refused(Number::Overfull, "04 0002 FFFF");
    // Integrity rules have a count of their own.
    let program = file_accepted(&[TWO_ATOMS, &most, "05 0000", END]);
    assert_eq!(program.integrity_bodies.len(), 1);
    // After an integrity rule, rule 1,025 is stray first.
    let stray = [TWO_ATOMS, &most, "05 0000 04 0002 0000"];
    file_refused(Number::StrayField, place + 3, &stray);
}

#[test]
fn refusal_9_overfull_integrity_rules() {
    let most = "05 0000".repeat(256);
    let place = 12 + 256 * 3;
    let program = file_accepted(&[TWO_ATOMS, &most, END]);
    assert_eq!(program.integrity_bodies.len(), 256);
    let refused = |number, next: &str| file_refused(number, place, &[TWO_ATOMS, &most, next]);
    refused(Number::Overfull, "05 0000 7F 0000");
    refused(Number::Cut, "05 00");
    refused(Number::StrayField, "04 0002 0000");
    refused(Number::Overfull, "05 0001 00");
    refused(Number::Overfull, "05 0002 00");
    refused(Number::Overfull, "05 0002 FFFE");
}

#[test]
fn refusal_10_tail() {
    file_refused(Number::Tail, 15, &[TWO_ATOMS, END, "00"]);
    file_refused(Number::Tail, 15, &[TWO_ATOMS, END, END]);
    sheet_refused(Number::Tail, 6, &["06 0000", END, "7F"]);
    sheet_refused(Number::Tail, 8, &[example::SHEET, example::SHEET]);
}

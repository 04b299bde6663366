//! Programs and queries as document 01 writes them in its reference calls.

use calls::Source;
use plain::{
    encode_file, encode_sheet, read_file, read_sheet, Atom, Literal, ObjectiveLiteral, Program,
    Query, Rule,
};

use crate::hand::body_literals;

/// The program with these atoms, numbered from 0 in order, of which these are
/// abducible. Rules are parted by semicolons; the head of an integrity rule is
/// falsum.
pub fn program(atoms: &str, abducibles: &str, rules: &str) -> Program {
    let file = calls::file(atoms, abducibles, rules);
    read_file(&file).expect("a file that is accepted")
}

pub fn query(atoms: &str, text: &str) -> Query {
    let count = atoms.split_whitespace().count() as u16;
    let sheet = calls::sheet(atoms, text);
    read_sheet(count, &sheet).expect("a sheet that is accepted")
}

/// The program and the query of a reference call.
pub fn loaded(source: &Source, text: &str) -> (Program, Query) {
    let program = program(source.atoms, source.abducibles, source.rules);
    let query = query(source.atoms, text);
    assert_eq!(encode_file(&program), source.file());
    assert_eq!(encode_sheet(&query), source.sheet(text));
    (program, query)
}

#[test]
fn text_is_numbered_as_document_01_does() {
    let atoms = "a b c";
    let text = "c :- not b; b :- a, undefined, not -c; -b; falsum :- -a; falsum";
    let rule = |head, body| Rule {
        head: ObjectiveLiteral(head),
        body: body_literals(body),
    };
    let expected = Program {
        atoms: 3,
        abducibles: vec![Atom(0)],
        rules: vec![rule(4, &[5]), rule(2, &[0, 0xFFFF, 11]), rule(3, &[])],
        integrity_bodies: vec![body_literals(&[2]), vec![]],
    };
    assert_eq!(program(atoms, "a", text), expected);
    let literals = vec![Literal(2), Literal(9)];
    assert_eq!(query(atoms, "-a, not c"), Query { literals });
}

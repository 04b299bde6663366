//! Reads hand-made papers and checks that they are accepted or refused.

use plain::{
    encode_file, encode_sheet, read_file, read_sheet, Number, Paper, Program, Query, Refusal,
};

use crate::hand::bytes;

/// Edition, two atoms, no abducibles: 12 bytes.
pub const TWO_ATOMS: &str = "01 0001 01 02 0002 0002 03 0000";
/// The same with atom 1 abducible: 14 bytes.
pub const ONE_FIXED: &str = "01 0001 01 02 0002 0002 03 0002 0001";
pub const END: &str = "7F 0000";

pub fn file_accepted(parts: &[&str]) -> Program {
    let file = bytes(parts);
    let program = read_file(&file).expect("an accepted file");
    assert_eq!(encode_file(&program), file);
    program
}

pub fn sheet_accepted(atoms: u16, parts: &[&str]) -> Query {
    let sheet = bytes(parts);
    let query = read_sheet(atoms, &sheet).expect("an accepted sheet");
    assert_eq!(encode_sheet(&query), sheet);
    query
}

pub fn file_refused(number: Number, place: usize, parts: &[&str]) {
    let refusal = Refusal {
        number,
        paper: Paper::File,
        place,
    };
    assert_eq!(read_file(&bytes(parts)), Err(refusal), "{parts:?}");
}

pub fn sheet_refused(number: Number, place: usize, parts: &[&str]) {
    let refusal = Refusal {
        number,
        paper: Paper::Sheet,
        place,
    };
    assert_eq!(read_sheet(2, &bytes(parts)), Err(refusal), "{parts:?}");
}

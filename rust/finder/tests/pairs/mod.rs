//! Hand-made pairs of papers, and the refusals that the tests of each call with
//! two papers expect.

use finder::{Paper, Refusal};

use crate::papers::{each_refused_file, FILE};

/// The sheet of the example of document 01.
pub const SHEET: &[u8] = &[0x06, 0, 2, 0, 0, 0x7F, 0, 0];

/// Hands the papers of each refusal that a file can have to `check`, and the
/// refusal. A refused file hides what the sheet is.
pub fn each_pair_with_refused_file(check: impl Fn(&[u8], &[u8], Refusal)) {
    each_refused_file(|number, place, file| {
        let refusal = Refusal {
            number,
            paper: Paper::File,
            place,
        };
        for sheet in [SHEET, FILE, &[]] {
            check(file, sheet, refusal);
        }
    });
}

/// The same for each refusal that a sheet can have.
pub fn each_pair_with_refused_sheet(check: impl Fn(&[u8], &[u8], Refusal)) {
    let refused = |number, place, sheet: &[u8]| {
        let refusal = Refusal {
            number,
            paper: Paper::Sheet,
            place,
        };
        check(FILE, sheet, refusal);
    };
    refused(1, 0, &[]);
    refused(1, 5, &SHEET[..7]);
    refused(2, 0, &[0x01, 0, 1, 1]);
    refused(3, 0, &[0x06, 0, 1, 0]);
    refused(6, 0, &[0x06, 0, 2, 0, 8, 0x7F, 0, 0]);
    refused(10, 8, &[SHEET, SHEET].concat());
}

/// Slots 0 to 2 where a paper is refused.
pub fn first_slots(refusal: Refusal) -> [u64; 3] {
    let paper = match refusal.paper {
        Paper::File => 0,
        Paper::Sheet => 1,
    };
    [refusal.number.into(), paper, refusal.place as u64]
}

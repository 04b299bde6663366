//! Which paper is refused, why and where, and the rest of it from there.

use crate::boundary::{self, SLOTS};
use crate::refusal::{Paper, Refusal};

#[derive(Clone, Copy, Debug, PartialEq, Eq)]
pub struct Answer<'p> {
    /// None where both papers are accepted.
    pub refusal: Option<Refusal>,
    /// The refused paper from the place on, or the empty part at the sheet's
    /// end where neither paper is refused.
    pub rest: &'p [u8],
}

/// Reads both papers, the file first.
///
/// # Panics
///
/// Where the words that come back are not as include/finder.h documents them.
pub fn rest<'p>(file: &'p [u8], sheet: &'p [u8]) -> Answer<'p> {
    let mut words = [0; SLOTS];
    rest_words(file, sheet, &mut words);
    answer(file, sheet, &words)
}

/// The same call with its words as they cross the boundary.
pub fn rest_words(file: &[u8], sheet: &[u8], out: &mut [u64; SLOTS]) {
    // SAFETY: the slices are readable for their lengths and, being slices,
    // not null and not longer than PTRDIFF_MAX; `out` is writable for eight
    // words and, being lent alone, overlaps neither of them.
    unsafe {
        boundary::finder_rest(
            file.as_ptr(),
            file.len(),
            sheet.as_ptr(),
            sheet.len(),
            out.as_mut_ptr(),
        );
    }
}

fn answer<'p>(file: &'p [u8], sheet: &'p [u8], words: &[u64; SLOTS]) -> Answer<'p> {
    let [number, paper, place, rest_length, unused @ ..] = *words;
    assert_eq!(unused, [0; 4], "slots 4 to 7 have no meaning");
    if number == 0 {
        assert_eq!((paper, place, rest_length), (0, 0, 0), "both accepted");
        return Answer {
            refusal: None,
            rest: &sheet[sheet.len()..],
        };
    }

    let refusal = Refusal::of_slots([number, paper, place], file, sheet);
    let rest = match refusal.paper {
        Paper::File => &file[refusal.place..],
        Paper::Sheet => &sheet[refusal.place..],
    };
    assert_eq!(rest.len() as u64, rest_length, "the length of the rest");
    Answer {
        refusal: Some(refusal),
        rest,
    }
}

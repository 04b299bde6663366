//! Beginning a search.

use crate::boundary::{self, SLOTS};
use crate::refusal::Refusal;
use crate::search::Record;

/// Why a search was not begun.
#[derive(Clone, Copy, Debug, PartialEq, Eq)]
pub enum FreshRefusal {
    /// 1 to 10: the file is not accepted.
    File(Refusal),
    /// 15: the masks share a bit.
    SharedBit,
    /// 16: a bit at or above k is set.
    UnlistedBit,
}

/// The record of a fresh search that holds the faults of these masks, bit i for
/// the i-th abducible.
///
/// # Panics
///
/// Where the words that come back are not as include/finder.h documents them.
pub fn fresh(file: &[u8], assumed: u16, ruled: u16) -> Result<Record, FreshRefusal> {
    let mut words = [0; SLOTS];
    fresh_words(file, assumed, ruled, &mut words);
    if words[0] != 0 {
        return Err(refusal(file, &words));
    }
    let begun = [0, 0, 0, 0, 0, assumed.into(), ruled.into(), 0];
    assert_eq!(words, begun, "the record is fresh and has both masks");
    Ok(Record {
        position: 0,
        found: 0,
        assumed,
        ruled,
    })
}

/// The same call with its words as they cross the boundary.
pub fn fresh_words(file: &[u8], assumed: u16, ruled: u16, out: &mut [u64; SLOTS]) {
    // SAFETY: the file is readable for its length and, being a slice, not null
    // and not longer than PTRDIFF_MAX; `out` is writable for eight words and,
    // being lent alone, does not overlap it.
    unsafe {
        boundary::finder_fresh(file.as_ptr(), file.len(), assumed, ruled, out.as_mut_ptr());
    }
}

fn refusal(file: &[u8], words: &[u64; SLOTS]) -> FreshRefusal {
    let [number, paper, place, unused @ ..] = *words;
    assert_eq!(unused, [0; 5], "nothing is begun");
    assert_eq!(paper, 0, "the only paper is the file");
    if number <= 10 {
        return FreshRefusal::File(Refusal::of_slots([number, paper, place], file, &[]));
    }
    assert_eq!(place, 0, "{number} has no place");
    match number {
        15 => FreshRefusal::SharedBit,
        16 => FreshRefusal::UnlistedBit,
        _ => panic!("no fresh search is refused with number {number}"),
    }
}

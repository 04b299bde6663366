//! Continuing a search.

use crate::boundary::{self, SLOTS};
use crate::refusal::Refusal;

/// How far a search has come, and the faults that it holds. That of a fresh
/// search is made by [`fresh`](crate::fresh::fresh).
#[derive(Clone, Copy, Debug, PartialEq, Eq)]
pub struct Record {
    pub position: u32,
    pub found: u32,
    /// The mask of the faults held as assumed, bit i for the i-th abducible.
    pub assumed: u16,
    /// The mask of those held as ruled out.
    pub ruled: u16,
}

/// What became of a call.
#[derive(Clone, Copy, Debug, PartialEq, Eq)]
pub enum State {
    Going,
    Full,
    Ended,
}

/// The answer of continuing.
#[derive(Clone, Copy, Debug, PartialEq, Eq)]
pub struct Continued {
    /// The new record. Its masks are the old ones.
    pub record: Record,
    pub tried: u32,
    /// The round counts of the scenarios tried added up, zero for one whose
    /// digit at a held fault is not the held one.
    pub rounds: u64,
    pub state: State,
}

/// Why a search was not continued. Its record stays as it was.
#[derive(Clone, Copy, Debug, PartialEq, Eq)]
pub enum ContinueRefusal {
    /// 1 to 10: one of the papers is not accepted.
    Papers(Refusal),
    /// 11: the lent dual buffer is shorter than the dual.
    ShortDual,
    /// 14: position above 3^k, found above list length, the first found entries
    /// not strictly rising or not all below position, or masks that a fresh
    /// search would refuse.
    SpoiltSearch,
}

/// Continues the search of the record. Leaves the dual at the start of the dual
/// buffer, whose bytes beyond stay, and adds to the list, whose entries beyond
/// found stay; where continuing is refused all bytes and entries stay.
///
/// # Panics
///
/// Where the words that come back are not as include/finder.h documents them.
pub fn continue_search(
    file: &[u8],
    sheet: &[u8],
    dual: &mut [u8],
    list: &mut [u32],
    record: Record,
    allowance: u32,
) -> Result<Continued, ContinueRefusal> {
    let mut words = [0; SLOTS];
    continue_words(file, sheet, dual, list, record, allowance, &mut words);
    if words[0] != 0 {
        return Err(refusal(file, sheet, record, &words));
    }
    let continued = answer(record, &words);
    let Record {
        position, found, ..
    } = continued.record;
    let room = record.found as usize..=list.len();
    assert_eq!(record.position.checked_add(continued.tried), Some(position));
    assert!(room.contains(&(found as usize)), "found entries are listed");
    assert!(
        continued.tried <= allowance,
        "no more is tried than allowed"
    );
    Ok(continued)
}

/// The same call with its words as they cross the boundary.
pub fn continue_words(
    file: &[u8],
    sheet: &[u8],
    dual: &mut [u8],
    list: &mut [u32],
    record: Record,
    allowance: u32,
    out: &mut [u64; SLOTS],
) {
    // SAFETY: the slices are readable, and `dual` and `list` writable, for
    // their lengths and, being slices, aligned, not null and in bytes not
    // longer than PTRDIFF_MAX; `out` is writable for eight words; `dual`,
    // `list` and `out`, each being lent alone, overlap neither each other nor
    // a paper.
    unsafe {
        boundary::finder_continue(
            file.as_ptr(),
            file.len(),
            sheet.as_ptr(),
            sheet.len(),
            dual.as_mut_ptr(),
            dual.len(),
            list.as_mut_ptr(),
            list.len(),
            record.position,
            record.found,
            record.assumed,
            record.ruled,
            allowance,
            out.as_mut_ptr(),
        );
    }
}

fn answer(given: Record, words: &[u64; SLOTS]) -> Continued {
    let [_, paper, place, position, found, tried, rounds, state] = *words;
    let word = |slot| u32::try_from(slot).expect("a word of 32 bits");
    assert_eq!((paper, place), (0, 0), "both papers are accepted");
    Continued {
        record: Record {
            position: word(position),
            found: word(found),
            ..given
        },
        tried: word(tried),
        rounds,
        state: match state {
            0 => State::Going,
            1 => State::Full,
            2 => State::Ended,
            _ => panic!("there is no state {state}"),
        },
    }
}

fn refusal(file: &[u8], sheet: &[u8], record: Record, words: &[u64; SLOTS]) -> ContinueRefusal {
    let [number, paper, place, position, found, unused @ ..] = *words;
    assert_eq!(unused, [0; 3], "nothing is tried");
    let given = (u64::from(record.position), u64::from(record.found));
    assert_eq!((position, found), given, "the record is as given");
    if number <= 10 {
        let refusal = Refusal::of_slots([number, paper, place], file, sheet);
        return ContinueRefusal::Papers(refusal);
    }
    assert_eq!((paper, place), (0, 0), "{number} has no place");
    match number {
        11 => ContinueRefusal::ShortDual,
        14 => ContinueRefusal::SpoiltSearch,
        _ => panic!("no continuing is refused with number {number}"),
    }
}

//! Writing the dual of a file.

use crate::boundary::{self, SLOTS};
use crate::refusal::{Paper, Refusal};

#[derive(Clone, Copy, Debug, PartialEq, Eq)]
pub enum WriteRefusal {
    /// 1 to 10: the file is not accepted.
    File(Refusal),
    /// 11: the lent dual buffer is shorter than the dual.
    ShortDual,
}

/// Writes the dual of the file to the start of the buffer and gives its length.
/// The bytes beyond stay; where the dual is refused all bytes stay.
///
/// # Panics
///
/// Where the words that come back are not as include/finder.h documents them.
pub fn write_dual(file: &[u8], dual: &mut [u8]) -> Result<usize, WriteRefusal> {
    let mut words = [0; SLOTS];
    write_dual_words(file, dual, &mut words);
    answer(file, dual, &words)
}

/// The same call with its words as they cross the boundary.
pub fn write_dual_words(file: &[u8], dual: &mut [u8], out: &mut [u64; SLOTS]) {
    // SAFETY: the slices are readable, and `dual` writable, for their lengths
    // and, being slices, not null and not longer than PTRDIFF_MAX; `out` is
    // writable for eight words; `dual` and `out`, each being lent alone,
    // overlap neither each other nor the file.
    unsafe {
        boundary::finder_write_dual(
            file.as_ptr(),
            file.len(),
            dual.as_mut_ptr(),
            dual.len(),
            out.as_mut_ptr(),
        );
    }
}

fn answer(file: &[u8], dual: &[u8], words: &[u64; SLOTS]) -> Result<usize, WriteRefusal> {
    let [number, paper, place, length, unused @ ..] = *words;
    assert_eq!(unused, [0; 4], "slots 4 to 7 have no meaning");
    assert_eq!(paper, 0, "the only paper is the file");
    match number {
        0 => {
            assert_eq!(place, 0, "the file is accepted");
            let length = usize::try_from(length).expect("a length in memory");
            assert!(length <= dual.len(), "the dual is in the buffer");
            Ok(length)
        }
        1..=10 => {
            assert_eq!(length, 0, "no dual is written");
            let place = usize::try_from(place).expect("a place in a paper");
            assert!(place <= file.len(), "a place in the file");
            Err(WriteRefusal::File(Refusal {
                number: number as u8,
                paper: Paper::File,
                place,
            }))
        }
        11 => {
            assert_eq!((place, length), (0, 0), "11 has no place and no length");
            Err(WriteRefusal::ShortDual)
        }
        _ => panic!("no dual is refused with number {number}"),
    }
}

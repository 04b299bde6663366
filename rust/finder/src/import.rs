//! Importing rules typed as text.

use std::fmt;

use crate::boundary::{self, SLOTS};
use crate::refusal::TextRefusal;

/// The bytes of the longest file that there is.
pub const LONGEST_FILE: usize = 46_895;

/// Why a text was not imported.
#[derive(Clone, Copy, Debug, PartialEq, Eq)]
pub enum ImportRefusal {
    /// 17, 18, 3, 8 or 9: the text is not accepted.
    Text(TextRefusal),
    /// 11: the lent file buffer is shorter than the file.
    ShortFile,
}

impl fmt::Display for ImportRefusal {
    fn fmt(&self, f: &mut fmt::Formatter) -> fmt::Result {
        match self {
            ImportRefusal::Text(refusal) => refusal.fmt(f),
            ImportRefusal::ShortFile => {
                f.write_str("refused by 11: the buffer is shorter than the file")
            }
        }
    }
}

impl std::error::Error for ImportRefusal {}

/// Writes the file of the rules typed in the text to the start of the buffer and
/// gives its length. The bytes beyond stay; where importing is refused all bytes
/// stay.
///
/// # Panics
///
/// Where the words that come back are not as include/finder.h documents them.
pub fn import_text(text: &[u8], file: &mut [u8]) -> Result<usize, ImportRefusal> {
    let mut words = [0; SLOTS];
    import_words(text, file, &mut words);
    answer(text, file, &words)
}

/// The same call with its words as they cross the boundary.
pub fn import_words(text: &[u8], file: &mut [u8], out: &mut [u64; SLOTS]) {
    // SAFETY: the slices are readable, and `file` writable, for their lengths
    // and, being slices, not null and not longer than PTRDIFF_MAX; `out` is
    // writable for eight words; `file` and `out`, each being lent alone,
    // overlap neither each other nor the text.
    unsafe {
        boundary::finder_import(
            text.as_ptr(),
            text.len(),
            file.as_mut_ptr(),
            file.len(),
            out.as_mut_ptr(),
        );
    }
}

fn answer(text: &[u8], file: &[u8], words: &[u64; SLOTS]) -> Result<usize, ImportRefusal> {
    let [number, paper, place, length, unused @ ..] = *words;
    assert_eq!(unused, [0; 4], "slots 4 to 7 have no meaning");
    if number == 0 {
        assert_eq!((paper, place), (0, 0), "the text is accepted");
        let length = usize::try_from(length).expect("a length in memory");
        assert!(length <= file.len(), "the file is in the buffer");
        return Ok(length);
    }

    assert_eq!(length, 0, "no file is written");
    if number == 11 {
        assert_eq!((paper, place), (0, 0), "11 has no place");
        return Err(ImportRefusal::ShortFile);
    }
    let refusal = TextRefusal::of_slots([number, paper, place], text);
    Err(ImportRefusal::Text(refusal))
}

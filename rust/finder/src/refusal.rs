//! Why a paper is not accepted, and where.

use std::fmt;

#[derive(Clone, Copy, Debug, PartialEq, Eq)]
pub enum Paper {
    File,
    Sheet,
}

#[derive(Clone, Copy, Debug, PartialEq, Eq)]
pub struct Refusal {
    /// From 1 to 10, as document 01 numbers them.
    pub number: u8,
    pub paper: Paper,
    pub place: usize,
}

impl Refusal {
    /// The refusal that slots 0 to 2 tell where slot 0 is from 1 to 10.
    ///
    /// # Panics
    ///
    /// Where they are not as include/finder.h documents them.
    pub(crate) fn of_slots(slots: [u64; 3], file: &[u8], sheet: &[u8]) -> Self {
        let [number, paper, place] = slots;
        assert!((1..=10).contains(&number), "no paper's number is {number}");
        let (paper, bytes) = match paper {
            0 => (Paper::File, file),
            1 => (Paper::Sheet, sheet),
            _ => panic!("there is no paper {paper}"),
        };
        let place = usize::try_from(place).expect("a place in a paper");
        assert!(place <= bytes.len(), "a place in the refused paper");
        Refusal {
            number: number as u8,
            paper,
            place,
        }
    }
}

/// Why a text is not accepted. The paper that it names is the text.
#[derive(Clone, Copy, Debug, PartialEq, Eq)]
pub struct TextRefusal {
    /// 17 or 18, or one of the file's own: 3, 8 or 9.
    pub number: u8,
    /// Of 17 and 18 the character, the token or the text's end; of the others
    /// the first token of the line.
    pub place: usize,
}

impl TextRefusal {
    /// The refusal that slots 0 to 2 tell where slot 1 is 2.
    ///
    /// # Panics
    ///
    /// Where they are not as include/finder.h documents them.
    pub(crate) fn of_slots(slots: [u64; 3], text: &[u8]) -> Self {
        let [number, paper, place] = slots;
        assert!(
            [3, 8, 9, 17, 18].contains(&number),
            "no text is refused with number {number}"
        );
        assert_eq!(paper, 2, "the only paper is the text");
        let place = usize::try_from(place).expect("a place in a paper");
        assert!(place <= text.len(), "a place in the text");
        TextRefusal {
            number: number as u8,
            place,
        }
    }
}

impl fmt::Display for TextRefusal {
    fn fmt(&self, f: &mut fmt::Formatter) -> fmt::Result {
        let TextRefusal { number, place } = self;
        let what = match number {
            3 => "too many abducibles or literals with the line",
            8 => "an abducible or its negation heads the line",
            9 => "too many rules or integrity rules with the line",
            17 => "no permitted token starts",
            _ => "the line form is broken",
        };
        write!(
            f,
            "refused by {number}: {what} at place {place} of the text"
        )
    }
}

impl std::error::Error for TextRefusal {}

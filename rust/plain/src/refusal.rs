//! Refusals 1 to 10, which name a paper and a place in it, and those of each
//! call: writing the dual has 11 too, judging 11 to 13, continuing 11 and 14, a
//! fresh search 15 and 16. Importing has 17 and 18, then the file's own, all of
//! which name a place in the text, then 11.

use std::fmt;

/// The number of a refusal, named by its word.
#[derive(Clone, Copy, Debug, PartialEq, Eq, PartialOrd, Ord, Hash)]
pub enum Number {
    /// Bytes end inside a field or before 7F.
    Cut = 1,
    /// Tag unknown or not allowed there.
    StrayField = 2,
    /// Length not allowed for the tag.
    Misfit = 3,
    /// Value is not 1.
    Edition = 4,
    /// 0 or above 256.
    AtomCount = 5,
    /// Atom not below n, head not below 2n, literal not below 4n, save u in a body.
    Unlisted = 6,
    /// Abducible not above the one before.
    Disorder = 7,
    /// Head is an abducible or its negation.
    FixedFault = 8,
    /// Rule 1,025 or integrity rule 257.
    Overfull = 9,
    /// Bytes after 7F.
    Tail = 10,
    /// Character that starts no permitted token.
    StrayCharacter = 17,
    /// Token the line form doesn't allow, or the end inside a line.
    BrokenLine = 18,
}

#[derive(Clone, Copy, Debug, PartialEq, Eq, PartialOrd, Ord, Hash)]
pub enum Paper {
    File,
    Sheet,
}

/// Why a paper was not accepted, and where.
#[derive(Clone, Copy, Debug, PartialEq, Eq)]
pub struct Refusal {
    pub number: Number,
    pub paper: Paper,
    /// The first byte of the refused field; for [`Number::Tail`] the byte
    /// after the 7F field; the end of the paper where a field is missing.
    pub place: usize,
}

impl fmt::Display for Paper {
    fn fmt(&self, f: &mut fmt::Formatter) -> fmt::Result {
        f.write_str(match self {
            Paper::File => "file",
            Paper::Sheet => "sheet",
        })
    }
}

/// The line that document 01 prints for a refusal.
impl fmt::Display for Refusal {
    fn fmt(&self, f: &mut fmt::Formatter) -> fmt::Result {
        let number = self.number as u8;
        write!(f, "refused {number} {} {}", self.paper, self.place)
    }
}

impl std::error::Error for Refusal {}

/// Why a text was not accepted, and where. The paper named is the text.
#[derive(Clone, Copy, Debug, PartialEq, Eq)]
pub struct TextRefusal {
    pub number: Number,
    /// The character of 17, the token of 18 or the text's end; for the file's own
    /// numbers the first token of the line whose field fails.
    pub place: usize,
}

/// The line that document 01 prints for a refusal, the text being the paper.
impl fmt::Display for TextRefusal {
    fn fmt(&self, f: &mut fmt::Formatter) -> fmt::Result {
        write!(f, "refused {} text {}", self.number as u8, self.place)
    }
}

impl std::error::Error for TextRefusal {}

/// Why a dual was not written.
#[derive(Clone, Copy, Debug, PartialEq, Eq)]
pub enum WriteRefusal {
    /// 1 to 10: the file is not accepted.
    File(Refusal),
    /// 11: the lent dual buffer is shorter than the dual.
    ShortDual,
}

impl WriteRefusal {
    pub fn number(&self) -> u8 {
        match self {
            WriteRefusal::File(refusal) => refusal.number as u8,
            WriteRefusal::ShortDual => 11,
        }
    }
}

/// Why a scenario was not judged.
#[derive(Clone, Copy, Debug, PartialEq, Eq)]
pub enum JudgeRefusal {
    /// 1 to 10: one of the papers is not accepted.
    Papers(Refusal),
    /// 11: the lent dual buffer is shorter than the dual.
    ShortDual,
    /// 12: the lent model buffer is shorter than N.
    ShortModel,
    /// 13: the scenario's number is not below 3^k.
    NoScenario,
}

impl JudgeRefusal {
    pub fn number(&self) -> u8 {
        match self {
            JudgeRefusal::Papers(refusal) => refusal.number as u8,
            JudgeRefusal::ShortDual => 11,
            JudgeRefusal::ShortModel => 12,
            JudgeRefusal::NoScenario => 13,
        }
    }
}

/// Why a search was not begun.
#[derive(Clone, Copy, Debug, PartialEq, Eq)]
pub enum FreshRefusal {
    /// 1 to 10: the file is not accepted.
    File(Refusal),
    /// 15: the masks share a bit.
    SharedBit,
    /// 16: a bit at or above k is set.
    UnlistedBit,
}

impl FreshRefusal {
    pub fn number(&self) -> u8 {
        match self {
            FreshRefusal::File(refusal) => refusal.number as u8,
            FreshRefusal::SharedBit => 15,
            FreshRefusal::UnlistedBit => 16,
        }
    }
}

/// Why a search was not continued.
#[derive(Clone, Copy, Debug, PartialEq, Eq)]
pub enum ContinueRefusal {
    /// 1 to 10: one of the papers is not accepted.
    Papers(Refusal),
    /// 11: the lent dual buffer is shorter than the dual.
    ShortDual,
    /// 14: position above 3^k, found above list length, the first found entries
    /// not strictly rising or not all below position, or masks that 15 or 16
    /// would refuse.
    SpoiltSearch,
}

impl ContinueRefusal {
    pub fn number(&self) -> u8 {
        match self {
            ContinueRefusal::Papers(refusal) => refusal.number as u8,
            ContinueRefusal::ShortDual => 11,
            ContinueRefusal::SpoiltSearch => 14,
        }
    }
}

/// Why a text was not imported.
#[derive(Clone, Copy, Debug, PartialEq, Eq)]
pub enum ImportRefusal {
    /// 17, 18, 3, 8 or 9: the text is not accepted.
    Text(TextRefusal),
    /// 11: the lent file buffer is shorter than the file.
    ShortFile,
}

impl ImportRefusal {
    pub fn number(&self) -> u8 {
        match self {
            ImportRefusal::Text(refusal) => refusal.number as u8,
            ImportRefusal::ShortFile => 11,
        }
    }
}

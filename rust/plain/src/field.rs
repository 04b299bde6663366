//! The fields of the two papers and of the dual table: their tags, lengths and
//! limits.
//!
//! A field is a one-byte tag, a two-byte length and the content; all two-byte
//! numbers are unsigned, high byte first.

/// The bytes of a heading: tag and length.
pub const HEADING: usize = 3;

/// The only edition there is.
pub const EDITION: u8 = 1;

pub const MOST_ATOMS: u16 = 256;
pub const MOST_ABDUCIBLES: usize = 16;
pub const MOST_RULES: usize = 1024;
pub const MOST_INTEGRITY_RULES: usize = 256;
/// Of a rule's or an integrity rule's body, where u counts as one, and of a query.
pub const MOST_LITERALS: usize = 16;

/// The tags of the two papers.
#[derive(Clone, Copy, Debug, PartialEq, Eq)]
pub enum Tag {
    Edition = 0x01,
    AtomCount = 0x02,
    Abducibles = 0x03,
    Rule = 0x04,
    IntegrityRule = 0x05,
    Query = 0x06,
    End = 0x7F,
}

impl Tag {
    pub fn byte(self) -> u8 {
        self as u8
    }

    /// Whether a field with this tag may have a content of `length` bytes.
    pub fn allows_length(self, length: usize) -> bool {
        match self {
            Tag::Edition => length == 1,
            Tag::AtomCount => length == 2,
            Tag::Abducibles => is_numbers(length, 0, MOST_ABDUCIBLES),
            Tag::Rule => is_numbers(length, 1, 1 + MOST_LITERALS),
            Tag::IntegrityRule | Tag::Query => is_numbers(length, 0, MOST_LITERALS),
            Tag::End => length == 0,
        }
    }
}

/// The tags of the dual table.
#[derive(Clone, Copy, Debug, PartialEq, Eq)]
pub enum DualTag {
    Entry = 0x08,
    Folding = 0x09,
    End = 0x7F,
}

impl DualTag {
    pub fn byte(self) -> u8 {
        self as u8
    }
}

/// Whether `length` bytes are from `least` to `most` two-byte numbers.
fn is_numbers(length: usize, least: usize, most: usize) -> bool {
    length.is_multiple_of(2) && (least..=most).contains(&(length / 2))
}

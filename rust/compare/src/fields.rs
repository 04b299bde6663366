//! A paper taken apart by its headings, however damaged it is already.

use std::ops::Range;

use plain::field::HEADING;

/// A paper that is not empty, and where its fields begin. The last field may
/// lack some of its content or even of its heading.
pub struct Fields<'p> {
    pub bytes: &'p [u8],
    starts: Vec<usize>,
}

impl<'p> Fields<'p> {
    pub fn of(bytes: &'p [u8]) -> Self {
        let mut starts = Vec::new();
        let mut place = 0;
        while place < bytes.len() {
            starts.push(place);
            place = match bytes[place..] {
                [_, high, low, ..] => {
                    place + HEADING + usize::from(u16::from_be_bytes([high, low]))
                }
                _ => bytes.len(),
            };
        }
        Fields { bytes, starts }
    }

    pub fn count(&self) -> usize {
        self.starts.len()
    }

    /// Where field `index` is, heading and content.
    pub fn range(&self, index: usize) -> Range<usize> {
        let next = self.starts.get(index + 1);
        self.starts[index]..next.copied().unwrap_or(self.bytes.len())
    }

    /// Where the content of field `index` is; empty if the heading is cut.
    pub fn content_range(&self, index: usize) -> Range<usize> {
        let range = self.range(index);
        (range.start + HEADING).min(range.end)..range.end
    }

    /// The bytes of each field, heading and content.
    pub fn parts(&self) -> Vec<&'p [u8]> {
        (0..self.count())
            .map(|index| &self.bytes[self.range(index)])
            .collect()
    }
}

#[cfg(test)]
mod tests {
    use super::Fields;

    #[test]
    fn fields_follow_the_headings() {
        let fields = Fields::of(&[1, 0, 1, 1, 5, 0, 0, 6, 0, 2, 9, 9]);
        assert_eq!(
            fields.parts(),
            [&[1, 0, 1, 1][..], &[5, 0, 0], &[6, 0, 2, 9, 9]]
        );
        assert_eq!(fields.content_range(2), 10..12);
    }

    #[test]
    fn the_last_field_may_be_cut() {
        assert_eq!(
            Fields::of(&[5, 0, 0, 4, 0, 9, 1]).parts(),
            [&[5, 0, 0][..], &[4, 0, 9, 1]]
        );
        let fields = Fields::of(&[5, 0, 0, 4, 0]);
        assert_eq!(fields.parts(), [&[5, 0, 0][..], &[4, 0]]);
        assert_eq!(fields.content_range(1), 5..5);
        assert_eq!(Fields::of(&[]).count(), 0);
    }
}

//! The lines and words of files that are not in comments. A comment has lines of
//! its own.

use std::collections::BTreeSet;

pub fn lines_of<'t>(
    files: impl Iterator<Item = (&'t str, &'t str)>,
) -> impl Iterator<Item = &'t str> {
    files.flat_map(|(path, text)| {
        let comment = match path.rsplit('.').next() {
            Some("antt") => "--",
            Some("rt" | "rs") => "//",
            _ => "#",
        };
        let lines = text.lines();
        lines.filter(move |line| !line.trim_start().starts_with(comment))
    })
}

pub fn words_of<'t>(files: impl Iterator<Item = (&'t str, &'t str)>) -> BTreeSet<&'t str> {
    lines_of(files).flat_map(words).collect()
}

/// The words of a text; one has a letter or a digit.
pub fn words(text: &str) -> impl Iterator<Item = &str> {
    let words = text.split(|letter| !is_of_word(letter));
    words.filter(|word| word.contains(char::is_alphanumeric))
}

/// Whether the text stands in the line, and not as a part of longer words.
pub fn occurs(text: &str, line: &str) -> bool {
    let goes_on = |edge: Option<char>, beyond: Option<char>| {
        edge.is_some_and(is_of_word) && beyond.is_some_and(is_of_word)
    };
    line.match_indices(text).any(|(at, _)| {
        let before = line[..at].chars().next_back();
        let after = line[at + text.len()..].chars().next();
        !goes_on(text.chars().next(), before) && !goes_on(text.chars().next_back(), after)
    })
}

fn is_of_word(letter: char) -> bool {
    letter.is_alphanumeric() || ['_', '-', '′', '·'].contains(&letter)
}

#[cfg(test)]
mod tests {
    use super::*;

    #[test]
    fn comments_have_no_words() {
        let files = [
            ("a.rt", "// one\nfn two_a() {}"),
            ("b.antt", "  -- three\nfour-a : ℕ -> ℕ"),
            ("run", "# five\nrt ci"),
        ];
        let words = words_of(files.into_iter());
        let expected = ["ci", "fn", "four-a", "rt", "two_a", "ℕ"];
        assert_eq!(words, BTreeSet::from(expected));
    }

    #[test]
    fn a_part_of_a_word_does_not_occur() {
        assert!(occurs("rt ci", "(rt ci 2>&1)"));
        assert!(!occurs("rt ci", "rt cited"));
        assert!(!occurs("rt ci", "start ci"));
        assert!(occurs("rt ci", "start ci; rt ci"));
        assert!(occurs("[u64; 513]", "t: [u64; 513],"));
        assert!(!occurs("[u64; 51]", "t: [u64; 513],"));
    }
}

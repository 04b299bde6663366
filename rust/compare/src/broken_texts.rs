//! Texts that are no lines of tokens, refused by 17 or 18: what stands at the
//! place, and what before it.

use plain::tokens::{split, Placed, Token, Tokens};

use crate::surveyed::{is_blank, lines, After, Line};
use crate::tally::Feature;

/// The tokens of the text, and those before the place.
fn parted(text: &[u8], place: usize) -> (Tokens, Vec<Placed>) {
    let tokens = split(text);
    let is_before = |placed: &&Placed| placed.place < place;
    let before = tokens.placed.iter().take_while(is_before);
    let before = before.copied().collect();
    (tokens, before)
}

/// A text refused by 17.
pub struct Stray {
    /// The text from the place on.
    rest: Vec<u8>,
    after: After,
    /// The lines before.
    lines: Vec<Line>,
}

impl Stray {
    pub fn new(text: &[u8], place: usize) -> Self {
        let (_, before) = parted(text, place);
        Stray {
            rest: text[place..].to_vec(),
            after: After::tokens(&before),
            lines: lines(&before),
        }
    }

    fn is_one_of(&self, first: &[u8]) -> bool {
        first.contains(&self.rest[0])
    }

    /// The digits after a p.
    fn digits(&self) -> Option<&[u8]> {
        let after_p = self.rest.strip_prefix(b"p")?;
        let is_other = |byte: &u8| !byte.is_ascii_digit();
        let end = after_p.iter().position(is_other);
        Some(&after_p[..end.unwrap_or(after_p.len())])
    }

    fn is_above_255(&self) -> bool {
        self.digits()
            .is_some_and(|digits| !digits.is_empty() && digits[0] != b'0')
    }

    /// Whether the rest is the start of the word.
    fn is_cut(&self, word: &str) -> bool {
        word.as_bytes().starts_with(&self.rest)
    }
}

pub const STRAY: &[Feature<Stray>] = &[
    ("a byte that starts no token", |it| !it.is_one_of(b"pn:af")),
    ("a tab", |it| it.is_one_of(b"\t")),
    ("a NUL", |it| it.is_one_of(b"\0")),
    ("a byte above 7F", |it| !it.rest[0].is_ascii()),
    ("a digit", |it| it.rest[0].is_ascii_digit()),
    ("a capital letter", |it| it.rest[0].is_ascii_uppercase()),
    ("a p without a digit", |it| it.digits() == Some(b"")),
    ("a p without a digit at the end", |it| it.rest == b"p"),
    ("a p above 255", Stray::is_above_255),
    ("p256", |it| it.digits() == Some(b"256")),
    ("a p of more than three digits", |it| {
        it.is_above_255() && it.digits().is_some_and(|digits| digits.len() > 3)
    }),
    ("a leading zero", |it| {
        it.digits().is_some_and(|digits| digits.starts_with(b"0"))
    }),
    ("a p where no atom may stand", |it| {
        it.digits().is_some() && !it.after.allows_atom()
    }),
    ("a cut word", |it| it.is_one_of(b"n:af")),
    ("a `not` that the end cuts", |it| it.is_cut("not")),
    ("a `:-` that the end cuts", |it| it.is_cut(":-")),
    ("an `abducible` that the end cuts", |it| {
        it.is_cut("abducible")
    }),
    ("a `false` that the end cuts", |it| it.is_cut("false")),
    ("no token before it in its line", |it| {
        it.after == After::LineEnd
    }),
    ("some of its line before it", |it| {
        it.after != After::LineEnd
    }),
    ("a line before it that 3, 8 or 9 would refuse", |it| {
        it.lines.iter().any(|line| !line.faults.is_empty())
    }),
];

/// A text refused by 18.
pub struct Broken {
    /// None at the end of the text.
    token: Option<Token>,
    after: After,
    /// Whether the byte before the place is a blank.
    is_after_blank: bool,
    /// Whether a character after the place would be refused by 17.
    is_before_stray: bool,
    lines: Vec<Line>,
}

impl Broken {
    pub fn new(text: &[u8], place: usize) -> Self {
        let (tokens, before) = parted(text, place);
        let token = tokens.placed.get(before.len());
        Broken {
            token: token.map(|placed| placed.token),
            after: After::tokens(&before),
            is_after_blank: place > 0 && is_blank(text[place - 1]),
            is_before_stray: tokens.stray.is_some(),
            lines: lines(&before),
        }
    }

    /// Whether a token stands there that must not.
    fn is_token(&self, after: After) -> bool {
        self.token.is_some() && self.after == after
    }

    fn is_end(&self, after: After) -> bool {
        self.token.is_none() && self.after == after
    }
}

pub const BROKEN: &[Feature<Broken>] = &[
    ("a token at the start of a line", |it| {
        it.is_token(After::LineEnd)
    }),
    ("a full stop at the start of a line", |it| {
        it.is_token(After::LineEnd) && it.token == Some(Token::FullStop)
    }),
    ("a token after `abducible`", |it| {
        it.is_token(After::Abducible)
    }),
    ("a `-` after `abducible`", |it| {
        it.is_token(After::Abducible) && it.token == Some(Token::Minus)
    }),
    ("a token after what is declared", |it| {
        it.is_token(After::Declared)
    }),
    ("a token after `false`", |it| it.is_token(After::False)),
    ("a token after a head", |it| it.is_token(After::Head)),
    ("a token after a head's `-`", |it| {
        it.is_token(After::HeadMinus)
    }),
    ("a token after `:-`", |it| it.is_token(After::If)),
    ("a full stop after `:-`", |it| {
        it.is_token(After::If) && it.token == Some(Token::FullStop)
    }),
    ("a token after `,`", |it| it.is_token(After::Comma)),
    ("a token after `not`", |it| it.is_token(After::Not)),
    ("a token after a literal's `-`", |it| {
        it.is_token(After::LiteralMinus)
    }),
    ("a token after a literal", |it| it.is_token(After::Literal)),
    ("an atom that touches an atom", |it| {
        let after = [After::Declared, After::Head, After::Literal];
        let is_atom = matches!(it.token, Some(Token::Atom(_)));
        is_atom && after.contains(&it.after) && !it.is_after_blank
    }),
    ("the end after `abducible`", |it| {
        it.is_end(After::Abducible)
    }),
    ("the end after what is declared", |it| {
        it.is_end(After::Declared)
    }),
    ("the end after `false`", |it| it.is_end(After::False)),
    ("the end after a head", |it| it.is_end(After::Head)),
    ("the end after a head's `-`", |it| {
        it.is_end(After::HeadMinus)
    }),
    ("the end after `:-`", |it| it.is_end(After::If)),
    ("the end after `,`", |it| it.is_end(After::Comma)),
    ("the end after `not`", |it| it.is_end(After::Not)),
    ("the end after a literal's `-`", |it| {
        it.is_end(After::LiteralMinus)
    }),
    ("the end after a literal", |it| it.is_end(After::Literal)),
    ("blanks at the end", |it| {
        it.token.is_none() && it.is_after_blank
    }),
    ("a stray character after it", |it| it.is_before_stray),
    ("a line before it that 3, 8 or 9 would refuse", |it| {
        it.lines.iter().any(|line| !line.faults.is_empty())
    }),
];

#[cfg(test)]
mod tests {
    use super::*;
    use crate::tally::names;

    #[test]
    fn the_features_of_stray_characters() {
        let features = |text: &str, place| {
            let mut names = names(STRAY, &Stray::new(text.as_bytes(), place));
            assert_eq!(names.pop(), Some("some of its line before it"));
            names
        };
        let expected = ["a p above 255", "p256", "a p where no atom may stand"];
        assert_eq!(features("p1 p256.", 3), expected);
        let expected = ["a p above 255", "a p of more than three digits"];
        assert_eq!(features("p1:-p2550", 4), expected);
        let expected = ["a p without a digit", "a p without a digit at the end"];
        assert_eq!(features("p1:-p2,p", 7), expected);
        assert_eq!(features("p1:-not p00 ", 8), ["a leading zero"]);
        let expected = ["a cut word", "a `false` that the end cuts"];
        assert_eq!(features("p1:-fals", 4), expected);
        assert_eq!(features("p1:-no.", 4), ["a cut word"]);
        let expected = ["a byte that starts no token", "a tab"];
        assert_eq!(features("p1:-\tp1", 4), expected);
    }

    #[test]
    fn the_features_of_broken_lines() {
        let features = |text: &str, place| names(BROKEN, &Broken::new(text.as_bytes(), place));
        let expected = ["a token after a head", "an atom that touches an atom"];
        assert_eq!(features("p3p4.", 2), expected);
        assert_eq!(features("p3 p4.", 3), ["a token after a head"]);
        let expected = ["a token after `:-`", "a full stop after `:-`"];
        assert_eq!(features("p1:-.", 4), expected);
        let expected = ["the end after a literal", "blanks at the end"];
        assert_eq!(features("p1:-p0 \n", 8), expected);
        let expected = [
            "a token at the start of a line",
            "a stray character after it",
            "a line before it that 3, 8 or 9 would refuse",
        ];
        assert_eq!(features("p1.abducible p1.,?", 16), expected);
    }
}

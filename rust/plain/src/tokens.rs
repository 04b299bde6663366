//! The tokens of a text: the words of Card 4 of document 02, "Rules typed as
//! text".
//!
//! Blanks may stand before and after any token and need not, so tokens may
//! touch. None is the start of another, and all digits after a p belong to it,
//! so what stands at a place starts one token at most.

use crate::numbering::Atom;

#[derive(Clone, Copy, Debug, PartialEq, Eq)]
pub enum Token {
    /// p0 to p255.
    Atom(Atom),
    Minus,
    Not,
    If,
    Comma,
    FullStop,
    Abducible,
    False,
}

/// The other tokens as they are typed.
const OTHERS: [(&[u8], Token); 7] = [
    (b"-", Token::Minus),
    (b"not", Token::Not),
    (b":-", Token::If),
    (b",", Token::Comma),
    (b".", Token::FullStop),
    (b"abducible", Token::Abducible),
    (b"false", Token::False),
];

/// A token and its first character.
#[derive(Clone, Copy, Debug, PartialEq, Eq)]
pub struct Placed {
    pub token: Token,
    pub place: usize,
}

/// A text split into its tokens.
#[derive(Clone, Debug, PartialEq, Eq)]
pub struct Tokens {
    /// Those before the stray character, or all where there is none.
    pub placed: Vec<Placed>,
    /// The first character that starts no permitted token.
    pub stray: Option<usize>,
}

/// Splits the text from left to right.
pub fn split(text: &[u8]) -> Tokens {
    let mut placed = Vec::new();
    let mut place = 0;
    while place < text.len() {
        if is_blank(text[place]) {
            place += 1;
            continue;
        }
        let Some((token, length)) = token_at_start(&text[place..]) else {
            let stray = Some(place);
            return Tokens { placed, stray };
        };
        placed.push(Placed { token, place });
        place += length;
    }
    let stray = None;
    Tokens { placed, stray }
}

/// Spaces (20) and line ends (0D, 0A).
fn is_blank(byte: u8) -> bool {
    [0x20, 0x0D, 0x0A].contains(&byte)
}

/// The token that the first character of the part starts, and its length.
fn token_at_start(part: &[u8]) -> Option<(Token, usize)> {
    if let Some(after_p) = part.strip_prefix(b"p") {
        let digits = digits_at_start(after_p);
        let atom = Atom(number(digits)?);
        return Some((Token::Atom(atom), 1 + digits.len()));
    }
    let (typed, token) = OTHERS.iter().find(|(typed, _)| part.starts_with(typed))?;
    Some((*token, typed.len()))
}

/// All digits after the p belong to it.
fn digits_at_start(after_p: &[u8]) -> &[u8] {
    let is_other = |byte: &u8| !byte.is_ascii_digit();
    let end = after_p.iter().position(is_other).unwrap_or(after_p.len());
    &after_p[..end]
}

/// The atom's number, from 0 to 255. A p whose number is above 255 or has a
/// leading zero starts no permitted token, nor does one without a number.
fn number(digits: &[u8]) -> Option<u16> {
    if digits.len() > 1 && digits[0] == b'0' {
        return None;
    }
    // A byte is a number up to 255; the library refuses what is above.
    let typed = str::from_utf8(digits).ok()?;
    typed.parse().ok().map(|number: u8| number.into())
}

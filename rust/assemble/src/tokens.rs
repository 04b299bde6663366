//! The words and signs of a text.

use crate::mistake::Mistake;

/// A sign that begins another comes after it.
const SIGNS: [&str; 5] = [":-", ":", ",", ".", "-"];

/// From here to the end of its line a text is a comment.
const COMMENT: char = '#';

/// A word or a sign, and its line, counted from 1.
#[derive(Clone, Copy, Debug, PartialEq, Eq)]
pub struct Token<'t> {
    pub line: usize,
    pub text: &'t str,
}

impl Token<'_> {
    pub fn is_word(&self) -> bool {
        self.text.starts_with(is_of_word)
    }

    pub fn mistake(&self, what: impl Into<String>) -> Mistake {
        Mistake {
            line: self.line,
            what: what.into(),
        }
    }

    pub fn unexpected(&self, expected: &str) -> Mistake {
        self.mistake(format!("{expected} should stand here, not `{}`", self.text))
    }

    /// Refuses what begins with this token where as many come before it as
    /// there may be.
    pub fn room(&self, before: usize, most: usize, what: &str) -> Result<(), Mistake> {
        if before < most {
            Ok(())
        } else {
            Err(self.mistake(format!("more than {most} {what}")))
        }
    }
}

/// All of them, in order.
pub fn tokens(text: &str) -> Result<Vec<Token<'_>>, Mistake> {
    let mut tokens = vec![];
    for (line, text) in (1..).zip(text.lines()) {
        let said = text.split(COMMENT).next().unwrap_or_default();
        let mut rest = said.trim();
        while !rest.is_empty() {
            let (text, after) = rest.split_at(first_length(rest));
            let token = Token { line, text };
            if !token.is_word() && !SIGNS.contains(&text) {
                return Err(token.mistake(format!("`{text}` means nothing here")));
            }
            tokens.push(token);
            rest = after.trim_start();
        }
    }
    Ok(tokens)
}

/// The bytes of the word, the sign or else the one character at the start.
fn first_length(text: &str) -> usize {
    let word = text.find(|next| !is_of_word(next)).unwrap_or(text.len());
    if word > 0 {
        return word;
    }
    let sign = SIGNS.into_iter().find(|sign| text.starts_with(sign));
    let character = text.chars().next().map(char::len_utf8);
    sign.map(str::len).or(character).unwrap_or(0)
}

fn is_of_word(character: char) -> bool {
    character.is_alphanumeric() || "_*".contains(character)
}

#[cfg(test)]
mod tests {
    use super::*;

    #[test]
    fn words_and_signs_are_told_apart() {
        let text = "faults:a_1,b*.# not this\n\nc:-not -a_1 ,-b*.\n# nor this";
        let tokens = tokens(text).expect("words and signs");
        let words: Vec<(usize, &str)> = tokens.iter().map(|it| (it.line, it.text)).collect();
        let expected = [
            (1, "faults"),
            (1, ":"),
            (1, "a_1"),
            (1, ","),
            (1, "b*"),
            (1, "."),
            (3, "c"),
            (3, ":-"),
            (3, "not"),
            (3, "-"),
            (3, "a_1"),
            (3, ","),
            (3, "-"),
            (3, "b*"),
            (3, "."),
        ];
        assert_eq!(words, expected);
        let are_words = tokens.iter().map(Token::is_word);
        let is_name = |text: &str| !SIGNS.contains(&text);
        assert!(are_words.eq(expected.iter().map(|&(_, text)| is_name(text))));
    }

    #[test]
    fn another_sign_is_a_mistake_of_its_line() {
        for (text, line, sign) in [
            ("a;b", 1, ";"),
            ("a :-\n b,\n«c", 3, "«"),
            ("a ? b", 1, "?"),
        ] {
            let mistake = tokens(text).expect_err("a sign of no rule");
            let what = format!("`{sign}` means nothing here");
            assert_eq!(mistake, Mistake { line, what });
        }
    }
}

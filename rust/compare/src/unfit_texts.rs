//! Texts whose lines no file can hold, refused by 3, 8 or 9: which line it is, and
//! what is wrong with others.

use plain::field::MOST_LITERALS;
use plain::tokens::split;
use plain::Number;

use crate::surveyed::{is_declared_again, lines, Line};
use crate::tally::Feature;

/// A text refused by one of the file's own numbers.
pub struct Unfit {
    lines: Vec<Line>,
    /// The line that is refused.
    at: usize,
}

impl Unfit {
    /// The line at the place is refused.
    pub fn new(text: &[u8], place: usize) -> Self {
        let lines = lines(&split(text).placed);
        let at = lines.iter().position(|line| line.place == place);
        Unfit {
            at: at.expect("the place of a line"),
            lines,
        }
    }

    fn line(&self) -> &Line {
        &self.lines[self.at]
    }

    fn before(&self) -> &[Line] {
        &self.lines[..self.at]
    }

    fn after(&self) -> &[Line] {
        &self.lines[self.at + 1..]
    }

    fn is_abducible(&self) -> bool {
        self.line().declared().is_some()
    }

    fn is_rule(&self) -> bool {
        self.line().head().is_some()
    }

    fn is_integrity_rule(&self) -> bool {
        self.line().is_integrity_rule()
    }

    fn literals(&self) -> usize {
        self.line().literals
    }

    fn is_atom(&self) -> bool {
        self.line().head().is_some_and(|head| head.0 % 2 == 0)
    }

    fn is_negation(&self) -> bool {
        self.line().head().is_some_and(|head| head.0 % 2 == 1)
    }

    /// Whether the head's atom is declared in these lines.
    fn is_declared_in(&self, lines: &[Line]) -> bool {
        let atom = self.line().head().map(|head| head.atom());
        lines.iter().any(|line| line.declared() == atom)
    }

    fn is_declared_after(&self) -> bool {
        self.is_declared_in(self.after()) && !self.is_declared_in(self.before())
    }
}

/// The first count of literals that is refused.
const EXACT: usize = MOST_LITERALS + 1;

pub const MISFIT: &[Feature<Unfit>] = &[
    ("a seventeenth abducible", Unfit::is_abducible),
    ("a seventeenth abducible after one declared again", |it| {
        it.is_abducible() && is_declared_again(it.before())
    }),
    (
        "a seventeenth abducible after a rule that 8 would refuse",
        |it| it.is_abducible() && it.before().iter().any(|line| line.has(Number::FixedFault)),
    ),
    ("a seventeenth abducible after a long body", |it| {
        it.is_abducible() && it.before().iter().any(|line| line.has(Number::Misfit))
    }),
    ("a rule of 17 literals", |it| {
        it.is_rule() && it.literals() == EXACT
    }),
    ("a rule of more", |it| it.is_rule() && it.literals() > EXACT),
    ("a rule of more than 255", |it| {
        it.is_rule() && it.literals() > 255
    }),
    ("a rule that 8 would refuse", |it| {
        it.line().has(Number::FixedFault)
    }),
    ("a rule before one that 8 would refuse", |it| {
        it.is_rule() && it.after().iter().any(|line| line.has(Number::FixedFault))
    }),
    ("a rule after a long integrity rule", |it| {
        let is_long = |line: &Line| line.is_integrity_rule() && line.has(Number::Misfit);
        it.is_rule() && it.before().iter().any(is_long)
    }),
    ("an integrity rule of 17 literals", |it| {
        it.is_integrity_rule() && it.literals() == EXACT
    }),
    ("an integrity rule of more", |it| {
        it.is_integrity_rule() && it.literals() > EXACT
    }),
    ("an integrity rule of more than 255", |it| {
        it.is_integrity_rule() && it.literals() > 255
    }),
];

pub const FIXED_FAULT: &[Feature<Unfit>] = &[
    ("an atom declared before", |it| {
        it.is_atom() && it.is_declared_in(it.before())
    }),
    ("an atom declared after", |it| {
        it.is_atom() && it.is_declared_after()
    }),
    ("a negation declared before", |it| {
        it.is_negation() && it.is_declared_in(it.before())
    }),
    ("a negation declared after", |it| {
        it.is_negation() && it.is_declared_after()
    }),
    ("a fact", |it| it.literals() == 0),
    ("a body", |it| it.literals() > 0),
    ("a long integrity rule before it", |it| {
        it.before().iter().any(|line| line.has(Number::Misfit))
    }),
    ("a long rule after it", |it| {
        let is_long = |line: &Line| line.head().is_some() && line.has(Number::Misfit);
        it.after().iter().any(is_long)
    }),
];

pub const OVERFULL: &[Feature<Unfit>] = &[
    ("rule 1,025", Unfit::is_rule),
    ("rule 1,025, which 3 would refuse", |it| {
        it.is_rule() && it.line().has(Number::Misfit)
    }),
    ("rule 1,025, which 8 would refuse", |it| {
        it.is_rule() && it.line().has(Number::FixedFault)
    }),
    ("rule 1,025 after integrity rule 257", |it| {
        it.is_rule() && it.before().iter().any(|line| line.has(Number::Overfull))
    }),
    ("integrity rule 257", Unfit::is_integrity_rule),
    ("integrity rule 257, which 3 would refuse", |it| {
        it.is_integrity_rule() && it.line().has(Number::Misfit)
    }),
];

#[cfg(test)]
mod tests {
    use super::*;
    use crate::tally::names;
    use plain::import;

    /// The features of a text under the number that refuses it.
    fn features(text: &str) -> Vec<&'static str> {
        let refusal = import(text.as_bytes()).expect_err("a refused text");
        let of_number = match refusal.number {
            Number::Misfit => MISFIT,
            Number::FixedFault => FIXED_FAULT,
            Number::Overfull => OVERFULL,
            number => panic!("refused by {number:?}"),
        };
        names(of_number, &Unfit::new(text.as_bytes(), refusal.place))
    }

    fn long(head: &str) -> String {
        format!("{head}:-{}.", vec!["p0"; 17].join(","))
    }

    #[test]
    fn the_features_of_too_much() {
        let [rule, integrity_rule] = [long("p1"), long("false")];
        assert_eq!(features(&rule), ["a rule of 17 literals"]);
        let expected = ["an integrity rule of 17 literals"];
        assert_eq!(features(&integrity_rule), expected);
        let expected = [
            "a rule of 17 literals",
            "a rule that 8 would refuse",
            "a rule after a long integrity rule",
        ];
        let text = format!("{integrity_rule}{rule}abducible p1.");
        assert_eq!(features(&text), expected);
        let declared = (0..17).map(|atom| format!("abducible p{atom}. abducible p0."));
        let expected = [
            "a seventeenth abducible",
            "a seventeenth abducible after one declared again",
            "a seventeenth abducible after a rule that 8 would refuse",
        ];
        let text = format!("p1.{}", declared.collect::<String>());
        assert_eq!(features(&text), expected);
    }

    #[test]
    fn the_features_of_fixed_faults() {
        let expected = ["an atom declared before", "a fact"];
        assert_eq!(features("abducible p1. p1. abducible p1."), expected);
        let expected = [
            "a negation declared after",
            "a body",
            "a long integrity rule before it",
            "a long rule after it",
        ];
        let text = format!("{}-p1:-p0.{}abducible p1.", long("false"), long("p2"));
        assert_eq!(features(&text), expected);
    }

    #[test]
    fn the_features_of_overfull_texts() {
        let [rules, integrity_rules] = ["p0.".repeat(1_024), "false.".repeat(256)];
        let expected = [
            "integrity rule 257",
            "integrity rule 257, which 3 would refuse",
        ];
        let text = format!("{integrity_rules}{}", long("false"));
        assert_eq!(features(&text), expected);
        let expected = [
            "rule 1,025",
            "rule 1,025, which 8 would refuse",
            "rule 1,025 after integrity rule 257",
        ];
        let text = format!("{integrity_rules}false.{rules}p1.abducible p1.");
        assert_eq!(features(&text), expected);
    }
}

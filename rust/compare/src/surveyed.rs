//! What stands in a text: its lines, all that the file's own numbers would refuse
//! in each, and where in a line a place is.

use std::collections::BTreeSet;

use plain::field::{MOST_ABDUCIBLES, MOST_INTEGRITY_RULES, MOST_LITERALS, MOST_RULES};
use plain::tokens::{Placed, Token};
use plain::{Atom, Number, ObjectiveLiteral};

/// What a line is.
#[derive(Clone, Copy, Debug, PartialEq, Eq)]
pub enum Kind {
    Declares(Atom),
    Rule(ObjectiveLiteral),
    IntegrityRule,
}

/// A line that is well formed.
#[derive(Clone, Debug, PartialEq, Eq)]
pub struct Line {
    /// Its first token.
    pub place: usize,
    pub kind: Kind,
    pub literals: usize,
    /// Each number that would refuse it, if it came to that.
    pub faults: Vec<Number>,
}

impl Line {
    fn of(tokens: &[Placed]) -> Self {
        let first = tokens[0];
        let atom = match tokens.iter().map(|placed| placed.token).nth(1) {
            Some(Token::Atom(atom)) => atom,
            _ => Atom(0),
        };
        let kind = match first.token {
            Token::Abducible => Kind::Declares(atom),
            Token::False => Kind::IntegrityRule,
            Token::Minus => Kind::Rule(ObjectiveLiteral::negation_of(atom)),
            Token::Atom(head) => Kind::Rule(ObjectiveLiteral::of(head)),
            other => panic!("no line begins with {other:?}"),
        };
        let parts = tokens.iter();
        let parts = parts.filter(|placed| [Token::If, Token::Comma].contains(&placed.token));
        Line {
            place: first.place,
            kind,
            literals: parts.count(),
            faults: vec![],
        }
    }

    pub fn declared(&self) -> Option<Atom> {
        match self.kind {
            Kind::Declares(atom) => Some(atom),
            _ => None,
        }
    }

    pub fn head(&self) -> Option<ObjectiveLiteral> {
        match self.kind {
            Kind::Rule(head) => Some(head),
            _ => None,
        }
    }

    pub fn is_integrity_rule(&self) -> bool {
        self.kind == Kind::IntegrityRule
    }

    pub fn has(&self, number: Number) -> bool {
        self.faults.contains(&number)
    }
}

/// The lines that the tokens make, up to the last full stop, and what is wrong
/// with each. All of them are well formed.
pub fn lines(tokens: &[Placed]) -> Vec<Line> {
    let parts = tokens.split_inclusive(is_full_stop);
    let whole = parts.filter(|part| part.last().is_some_and(is_full_stop));
    let mut lines: Vec<Line> = whole.map(Line::of).collect();

    let abducibles: BTreeSet<Atom> = lines.iter().filter_map(Line::declared).collect();
    let mut declared = BTreeSet::new();
    let [mut rules, mut integrity_rules] = [0; 2];
    for line in &mut lines {
        let is_long = line.literals > MOST_LITERALS;
        let tests: &[(bool, Number)] = match line.kind {
            Kind::Declares(atom) => {
                let is_new = declared.insert(atom);
                &[(is_new && declared.len() > MOST_ABDUCIBLES, Number::Misfit)]
            }
            Kind::Rule(head) => {
                rules += 1;
                &[
                    (rules > MOST_RULES, Number::Overfull),
                    (is_long, Number::Misfit),
                    (abducibles.contains(&head.atom()), Number::FixedFault),
                ]
            }
            Kind::IntegrityRule => {
                integrity_rules += 1;
                &[
                    (integrity_rules > MOST_INTEGRITY_RULES, Number::Overfull),
                    (is_long, Number::Misfit),
                ]
            }
        };
        let failed = tests.iter().filter(|(fails, _)| *fails);
        line.faults = failed.map(|&(_, number)| number).collect();
    }
    lines
}

fn is_full_stop(placed: &Placed) -> bool {
    placed.token == Token::FullStop
}

/// Whether an atom is declared a second time in these lines.
pub fn is_declared_again(lines: &[Line]) -> bool {
    let declared: Vec<Atom> = lines.iter().filter_map(Line::declared).collect();
    (1..declared.len()).any(|at| declared[..at].contains(&declared[at]))
}

/// Whether the byte may stand about tokens.
pub fn is_blank(byte: u8) -> bool {
    b" \r\n".contains(&byte)
}

/// What comes right before a place in a line.
#[derive(Clone, Copy, Debug, PartialEq, Eq)]
pub enum After {
    /// Nothing: there a line begins.
    LineEnd,
    Abducible,
    Declared,
    False,
    Head,
    HeadMinus,
    If,
    Comma,
    Not,
    LiteralMinus,
    Literal,
}

impl After {
    /// These are the tokens before the place; all of them are allowed.
    pub fn tokens(tokens: &[Placed]) -> Self {
        let begun = tokens.rsplit(is_full_stop).next().unwrap_or_default();
        let has = |token| begun.iter().any(|placed| placed.token == token);
        let Some(last) = begun.last() else {
            return After::LineEnd;
        };
        match last.token {
            Token::Abducible => After::Abducible,
            Token::False => After::False,
            Token::If => After::If,
            Token::Comma => After::Comma,
            Token::Not => After::Not,
            Token::Minus if has(Token::If) => After::LiteralMinus,
            Token::Minus => After::HeadMinus,
            Token::Atom(_) if has(Token::If) => After::Literal,
            Token::Atom(_) if has(Token::Abducible) => After::Declared,
            Token::Atom(_) => After::Head,
            Token::FullStop => panic!("a full stop ends the line"),
        }
    }

    /// Whether an atom may stand there.
    pub fn allows_atom(self) -> bool {
        let barring = [After::Declared, After::False, After::Head, After::Literal];
        !barring.contains(&self)
    }
}

#[cfg(test)]
mod tests {
    use super::*;
    use plain::tokens::split;

    fn lines_of(text: &str) -> Vec<Line> {
        lines(&split(text.as_bytes()).placed)
    }

    fn faults_of(text: &str) -> Vec<Vec<Number>> {
        lines_of(text).into_iter().map(|line| line.faults).collect()
    }

    #[test]
    fn lines_are_known_by_what_stands_in_them() {
        let lines = lines_of("abducible p2. -p1 :- p0, not p3. false. p4. p5 :-");
        let line = |place, kind, literals| Line {
            place,
            kind,
            literals,
            faults: vec![],
        };
        let expected = [
            line(0, Kind::Declares(Atom(2)), 0),
            line(14, Kind::Rule(ObjectiveLiteral(3)), 2),
            line(33, Kind::IntegrityRule, 0),
            line(40, Kind::Rule(ObjectiveLiteral(8)), 0),
        ];
        assert_eq!(lines, expected);
    }

    #[test]
    fn all_that_is_wrong_with_a_line_is_known() {
        let body = vec!["p1"; 17].join(",");
        let text = format!("p0 :- {body}. false :- {body}. abducible p0. -p0. p1.");
        let expected = [
            vec![Number::Misfit, Number::FixedFault],
            vec![Number::Misfit],
            vec![],
            vec![Number::FixedFault],
            vec![],
        ];
        assert_eq!(faults_of(&text), expected);

        let declared = (0..18).map(|atom| format!("abducible p{atom}. abducible p0."));
        let faults = faults_of(&declared.collect::<String>());
        let faulty = (0..36).filter(|&line| !faults[line].is_empty());
        assert_eq!(faulty.collect::<Vec<usize>>(), [32, 34]);

        let text = format!(
            "{}{}p1 :- {body}.",
            "false.".repeat(257),
            "p0.".repeat(1_024)
        );
        let faults = faults_of(&text);
        assert_eq!(faults[256], [Number::Overfull]);
        assert_eq!(faults[257 + 1_024], [Number::Overfull, Number::Misfit]);
        assert_eq!(faults.iter().filter(|faults| !faults.is_empty()).count(), 2);
    }

    #[test]
    fn a_place_is_known_by_the_tokens_before_it() {
        for (text, after) in [
            ("", After::LineEnd),
            ("p1.", After::LineEnd),
            ("abducible", After::Abducible),
            ("p0. abducible p1", After::Declared),
            ("false", After::False),
            ("p1 :- p0. -p1", After::Head),
            ("-", After::HeadMinus),
            ("p1 :-", After::If),
            ("p1 :- p0,", After::Comma),
            ("p1 :- not", After::Not),
            ("false :- p0, not -", After::LiteralMinus),
            ("p1 :- -p0", After::Literal),
        ] {
            assert_eq!(
                After::tokens(&split(text.as_bytes()).placed),
                after,
                "{text}"
            );
        }
    }
}

//! Texts that are accepted: what stands in them, and what their files hold.

use plain::field::{MOST_ABDUCIBLES, MOST_ATOMS, MOST_INTEGRITY_RULES, MOST_LITERALS, MOST_RULES};
use plain::tokens::split;
use plain::{encode_file, Atom, BodyLiteral, Program};

use crate::surveyed::{is_blank, is_declared_again, lines, Line};
use crate::tally::Feature;

/// A text that is imported where there is room.
pub struct Imported {
    text: Vec<u8>,
    lines: Vec<Line>,
    program: Program,
    pub file_length: usize,
}

impl Imported {
    pub fn new(text: &[u8], program: Program) -> Self {
        Imported {
            text: text.to_vec(),
            lines: lines(&split(text).placed),
            file_length: encode_file(&program).len(),
            program,
        }
    }

    fn declared(&self) -> impl Iterator<Item = Atom> + '_ {
        self.lines.iter().filter_map(Line::declared)
    }

    /// Whether the greatest atom is declared, heads a rule, is in a rule's body
    /// and is in an integrity rule.
    fn greatest(&self) -> [bool; 4] {
        let Program {
            atoms,
            abducibles,
            rules,
            integrity_bodies,
        } = &self.program;
        let greatest = Atom(atoms - 1);
        let is_of_it = |literal: &BodyLiteral| literal.number() / 4 == greatest.0;
        let has = |body: &Vec<BodyLiteral>| body.iter().any(is_of_it);
        [
            abducibles.contains(&greatest),
            rules.iter().any(|rule| rule.head.atom() == greatest),
            rules.iter().any(|rule| has(&rule.body)),
            integrity_bodies.iter().any(has),
        ]
    }

    fn has_rule_of(&self, literals: usize) -> bool {
        self.program
            .rules
            .iter()
            .any(|rule| rule.body.len() == literals)
    }

    fn has_integrity_rule_of(&self, literals: usize) -> bool {
        let mut bodies = self.program.integrity_bodies.iter();
        bodies.any(|body| body.len() == literals)
    }

    /// Whether a line of the one kind stands before one of the other.
    fn has_before(&self, one: fn(&Line) -> bool, other: fn(&Line) -> bool) -> bool {
        let first = self.lines.iter().position(one);
        let last = self.lines.iter().rposition(other);
        first.is_some() && first < last
    }
}

pub const IMPORTED: &[Feature<Imported>] = &[
    ("no byte", |it| it.text.is_empty()),
    ("blanks alone", |it| {
        it.lines.is_empty() && !it.text.is_empty()
    }),
    ("tokens that all touch", |it| {
        it.lines.len() > 1 && !it.text.iter().copied().any(is_blank)
    }),
    ("a 20", |it| it.text.contains(&b' ')),
    ("a 0D", |it| it.text.contains(&b'\r')),
    ("a 0A", |it| it.text.contains(&b'\n')),
    ("blanks at both ends", |it| {
        let ends = [it.text.first(), it.text.last()];
        !it.lines.is_empty()
            && ends
                .iter()
                .all(|end| end.is_some_and(|&byte| is_blank(byte)))
    }),
    ("an abducible declared twice", |it| {
        is_declared_again(&it.lines)
    }),
    ("abducibles out of order", |it| !it.declared().is_sorted()),
    ("16 abducibles", |it| {
        it.program.abducibles.len() == MOST_ABDUCIBLES
    }),
    ("16 abducibles in more lines", |it| {
        it.program.abducibles.len() == MOST_ABDUCIBLES && it.declared().count() > MOST_ABDUCIBLES
    }),
    ("an abducible declared after a rule", |it| {
        it.has_before(
            |line| line.head().is_some(),
            |line| line.declared().is_some(),
        )
    }),
    ("an integrity rule before a rule", |it| {
        it.has_before(Line::is_integrity_rule, |line| line.head().is_some())
    }),
    ("the greatest atom declared alone", |it| {
        it.greatest() == [true, false, false, false]
    }),
    ("the greatest atom in a head alone", |it| {
        it.greatest() == [false, true, false, false]
    }),
    ("the greatest atom in a rule's body alone", |it| {
        it.greatest() == [false, false, true, false]
    }),
    ("the greatest atom in an integrity rule alone", |it| {
        it.greatest() == [false, false, false, true]
    }),
    ("one atom", |it| it.program.atoms == 1),
    ("256 atoms", |it| it.program.atoms == MOST_ATOMS),
    ("a fact", |it| it.has_rule_of(0)),
    ("a rule of 16 literals", |it| it.has_rule_of(MOST_LITERALS)),
    ("`false.`", |it| it.has_integrity_rule_of(0)),
    ("an integrity rule of 16 literals", |it| {
        it.has_integrity_rule_of(MOST_LITERALS)
    }),
    ("1,024 rules", |it| it.program.rules.len() == MOST_RULES),
    ("256 integrity rules", |it| {
        it.program.integrity_bodies.len() == MOST_INTEGRITY_RULES
    }),
];

#[cfg(test)]
mod tests {
    use super::*;
    use crate::tally::names;
    use plain::import;

    #[test]
    fn the_features_of_imported_texts() {
        let features = |text: &str| {
            let program = import(text.as_bytes()).expect("an accepted text");
            names(IMPORTED, &Imported::new(text.as_bytes(), program))
        };
        assert_eq!(features(""), ["no byte", "one atom"]);
        assert_eq!(features("\r"), ["blanks alone", "a 0D", "one atom"]);
        let expected = [
            "tokens that all touch",
            "an abducible declared twice",
            "abducibles out of order",
            "an abducible declared after a rule",
            "an integrity rule before a rule",
            "the greatest atom declared alone",
            "a fact",
            "`false.`",
        ];
        let text = "false.abduciblep2.p0.abduciblep1.abduciblep2.";
        assert_eq!(features(text), expected);
        let expected = ["a 20", "the greatest atom in a rule's body alone"];
        assert_eq!(features("p1 :- not -p2."), expected);
        let expected = ["a 20", "blanks at both ends"];
        assert_eq!(features(" p1 :- p1. false :- p1. "), expected);
    }
}

//! Where FFFF and its neighbour stood in papers and what came of it, and which of
//! these must come for a comparison to be worth something.

use plain::field::{Tag, HEADING, MOST_ATOMS, MOST_LITERALS};
use plain::{Atom, BodyLiteral, Literal, Number, ObjectiveLiteral, Program, Refusal, UNDEFINED};

use crate::damage::number_at;
use crate::fields::Fields;
use crate::programs::{has_undefined, mentions_undefined};
use crate::tally::{Counted, Feature, Tally};

/// What there can be in an accepted file with FFFF.
pub const FILES: &[Feature<Program>] = &[
    ("FFFF in a rule", |it| has_rule(it, |_| true)),
    ("FFFF in an integrity rule", |it| {
        has_integrity_rule(it, |_| true)
    }),
    ("FFFF alone in a rule", |it| has_rule(it, is_alone)),
    ("FFFF alone in an integrity rule", |it| {
        has_integrity_rule(it, is_alone)
    }),
    ("FFFF beside others in a rule", |it| {
        has_rule(it, is_beside_others)
    }),
    ("FFFF beside others in an integrity rule", |it| {
        has_integrity_rule(it, is_beside_others)
    }),
    ("FFFF before a literal", |it| {
        has_body(it, |body| is_beside_others(body) && is_first(body))
    }),
    ("FFFF after a literal", |it| {
        has_body(it, |body| is_beside_others(body) && is_last(body))
    }),
    ("FFFF between literals", |it| {
        has_body(it, |body| !is_first(body) && !is_last(body))
    }),
    ("FFFF twice in a body", |it| {
        has_body(it, |body| count(body) > 1)
    }),
    ("FFFF in a body of 16 literals", |it| {
        has_body(it, |body| body.len() == MOST_LITERALS)
    }),
    ("an abducible", |it| !it.abducibles.is_empty()),
    ("256 atoms", |it| it.atoms == MOST_ATOMS),
];

type Body = [BodyLiteral];

/// Whether a rule has FFFF and such a body.
fn has_rule(program: &Program, is_it: fn(&Body) -> bool) -> bool {
    let mut rules = program.rules.iter();
    rules.any(|rule| has_undefined(&rule.body) && is_it(&rule.body))
}

fn has_integrity_rule(program: &Program, is_it: fn(&Body) -> bool) -> bool {
    let mut bodies = program.integrity_bodies.iter();
    bodies.any(|body| has_undefined(body) && is_it(body))
}

fn has_body(program: &Program, is_it: fn(&Body) -> bool) -> bool {
    has_rule(program, is_it) || has_integrity_rule(program, is_it)
}

fn count(body: &Body) -> usize {
    let these = body.iter().filter(|&&it| it == BodyLiteral::Undefined);
    these.count()
}

fn is_alone(body: &Body) -> bool {
    body.len() == 1
}

fn is_beside_others(body: &Body) -> bool {
    count(body) < body.len()
}

fn is_first(body: &Body) -> bool {
    body.first() == Some(&BodyLiteral::Undefined)
}

fn is_last(body: &Body) -> bool {
    body.last() == Some(&BodyLiteral::Undefined)
}

/// The number for which 6 refuses a field.
#[derive(Clone, Copy, Debug, PartialEq, Eq)]
pub struct Unlisted {
    /// The tag of the field.
    tag: u8,
    /// The numbers before it.
    before: usize,
    number: u16,
}

impl Unlisted {
    /// Of the field at the start of the rest of a paper, where there are so many
    /// atoms.
    fn new(atoms: u16, rest: &[u8]) -> Self {
        let tag = rest[0];
        let content = &rest[Fields::of(rest).content_range(0)];
        let numbers = content.chunks_exact(2).map(|number| number_at(number, 0));
        let is_listed = |before: usize, number: u16| match tag {
            _ if tag == Tag::Abducibles.byte() => Atom(number).is_listed(atoms),
            _ if tag == Tag::Query.byte() => Literal(number).is_listed(atoms),
            _ if tag == Tag::Rule.byte() && before == 0 => {
                ObjectiveLiteral(number).is_listed(atoms)
            }
            _ => BodyLiteral::read(number).is_listed(atoms),
        };
        let mut numbers = numbers.enumerate();
        let (before, number) = numbers
            .find(|&(before, number)| !is_listed(before, number))
            .expect("a number that is not listed");
        Unlisted {
            tag,
            before,
            number,
        }
    }

    fn is_in(&self, tag: Tag, number: u16) -> bool {
        self.tag == tag.byte() && self.number == number
    }

    fn is_head(&self, number: u16) -> bool {
        self.is_in(Tag::Rule, number) && self.before == 0
    }
}

/// What stands for nothing anywhere.
const NEIGHBOUR: u16 = UNDEFINED - 1;

const REFUSED: &[Feature<Unlisted>] = &[
    ("FFFF as a head", |it| it.is_head(UNDEFINED)),
    ("FFFE as a head", |it| it.is_head(NEIGHBOUR)),
    ("FFFE in a rule's body", |it| {
        it.is_in(Tag::Rule, NEIGHBOUR) && it.before > 0
    }),
    ("FFFE in an integrity rule", |it| {
        it.is_in(Tag::IntegrityRule, NEIGHBOUR)
    }),
    ("FFFF as an abducible", |it| {
        it.is_in(Tag::Abducibles, UNDEFINED)
    }),
    ("FFFE as an abducible", |it| {
        it.is_in(Tag::Abducibles, NEIGHBOUR)
    }),
    ("FFFF in the sheet", |it| it.is_in(Tag::Query, UNDEFINED)),
    ("FFFE in the sheet", |it| it.is_in(Tag::Query, NEIGHBOUR)),
];

/// How often each came.
pub struct UndefinedCoverage {
    accepted: Tally<Program>,
    refused: Tally<Unlisted>,
}

impl Default for UndefinedCoverage {
    fn default() -> Self {
        UndefinedCoverage {
            accepted: files(),
            refused: Tally::new("refused 6", REFUSED),
        }
    }
}

/// A tally of the accepted files that have FFFF.
pub fn files() -> Tally<Program> {
    Tally::new("accepted files with FFFF", FILES)
}

/// Counts an accepted file where it has FFFF.
pub fn count_file(tally: &mut Tally<Program>, program: &Program) {
    if mentions_undefined(program) {
        tally.count(program);
    }
}

impl UndefinedCoverage {
    pub fn count_accepted(&mut self, program: &Program) {
        count_file(&mut self.accepted, program);
    }

    /// Counts a refusal with the file, whichever paper is refused, and the rest of
    /// the refused one.
    pub fn count_refused(&mut self, file: &[u8], refusal: &Refusal, rest: &[u8]) {
        if refusal.number == Number::Unlisted {
            self.refused.count(&Unlisted::new(atom_count(file), rest));
        }
    }

    pub fn parts(&self) -> [&dyn Counted; 2] {
        [&self.accepted, &self.refused]
    }
}

/// The atom count of a file that is accepted so far.
fn atom_count(file: &[u8]) -> u16 {
    let edition = HEADING + 1;
    number_at(file, edition + HEADING)
}

#[cfg(test)]
mod tests {
    use super::*;
    use crate::tally::names;
    use plain::{encode_file, read_papers, rest_of_paper, Rule};

    fn program(rules: &[&[u16]], integrity_bodies: &[&[u16]]) -> Program {
        let body = |numbers: &[u16]| numbers.iter().copied().map(BodyLiteral::read).collect();
        Program {
            atoms: 2,
            abducibles: vec![Atom(1)],
            rules: rules
                .iter()
                .map(|numbers| Rule {
                    head: ObjectiveLiteral(numbers[0]),
                    body: body(&numbers[1..]),
                })
                .collect(),
            integrity_bodies: integrity_bodies.iter().map(|it| body(it)).collect(),
        }
    }

    #[test]
    fn where_undefined_stands_in_a_file() {
        let u = UNDEFINED;
        let features = |rules: &[&[u16]], integrity_bodies: &[&[u16]]| {
            names(FILES, &program(rules, integrity_bodies))
        };
        let abducible = "an abducible";
        let expected = ["FFFF in a rule", "FFFF alone in a rule", abducible];
        assert_eq!(features(&[&[0, u]], &[&[4]]), expected);
        let expected = [
            "FFFF in an integrity rule",
            "FFFF alone in an integrity rule",
            abducible,
        ];
        assert_eq!(features(&[&[0, 4]], &[&[u]]), expected);
        let expected = [
            "FFFF in a rule",
            "FFFF beside others in a rule",
            "FFFF between literals",
            abducible,
        ];
        assert_eq!(features(&[&[0, 4, u, 4]], &[]), expected);
        let expected = [
            "FFFF in an integrity rule",
            "FFFF beside others in an integrity rule",
            "FFFF before a literal",
            "FFFF after a literal",
            "FFFF twice in a body",
            abducible,
        ];
        assert_eq!(features(&[], &[&[u, 4, u]]), expected);
        let expected = ["FFFF in a rule", "FFFF twice in a body", abducible];
        assert_eq!(features(&[&[0, u, u]], &[]), expected);
    }

    /// The number for which papers are refused.
    fn unlisted(file: &[u8], sheet: &[u8]) -> Unlisted {
        let refusal = read_papers(file, sheet).expect_err("refused papers");
        assert_eq!(refusal.number, Number::Unlisted);
        Unlisted::new(atom_count(file), rest_of_paper(file, sheet))
    }

    #[test]
    fn the_number_for_which_6_refuses_is_the_first_that_is_not_listed() {
        let sheet = |number: u16| {
            let [high, low] = number.to_be_bytes();
            [Tag::Query.byte(), 0, 2, high, low, Tag::End.byte(), 0, 0]
        };
        let of_file = |rules: &[&[u16]], integrity_bodies: &[&[u16]]| {
            let file = encode_file(&program(rules, integrity_bodies));
            names(REFUSED, &unlisted(&file, &sheet(UNDEFINED)))
        };
        let (u, neighbour) = (UNDEFINED, NEIGHBOUR);
        assert_eq!(of_file(&[&[0, 4], &[u, u]], &[]), ["FFFF as a head"]);
        assert_eq!(of_file(&[&[neighbour, 4]], &[]), ["FFFE as a head"]);
        let in_body = ["FFFE in a rule's body"];
        assert_eq!(of_file(&[&[0, u, 7, neighbour]], &[]), in_body);
        let in_integrity_rule = ["FFFE in an integrity rule"];
        assert_eq!(of_file(&[], &[&[u, neighbour]]), in_integrity_rule);
        assert_eq!(of_file(&[&[0, 8, neighbour]], &[]), [""; 0]);

        let mut with_abducible = program(&[], &[]);
        with_abducible.abducibles[0] = Atom(UNDEFINED);
        let refused = unlisted(&encode_file(&with_abducible), &[]);
        assert_eq!(names(REFUSED, &refused), ["FFFF as an abducible"]);

        let file = encode_file(&program(&[&[0, u]], &[]));
        let of_sheet = |number| names(REFUSED, &unlisted(&file, &sheet(number)));
        assert_eq!(of_sheet(UNDEFINED), ["FFFF in the sheet"]);
        assert_eq!(of_sheet(NEIGHBOUR), ["FFFE in the sheet"]);
    }

    #[test]
    fn what_never_came_is_complained_of() {
        let coverage = UndefinedCoverage::default();
        let complaints = coverage.parts().map(|part| part.complaints().len());
        assert_eq!(complaints, [FILES.len(), REFUSED.len()]);
    }
}

//! Which files had a dual and what was in it, which buffers were lent for it,
//! and which of these must come for a comparison to be worth something.

use plain::dual::LONGEST_DUAL;
use plain::field::{MOST_ABDUCIBLES, MOST_ATOMS, MOST_INTEGRITY_RULES, MOST_LITERALS, MOST_RULES};
use plain::{
    dual, encode_dual, BodyLiteral, Dual, Entry, Folding, Form, ObjectiveLiteral, Program, Refusal,
};

use crate::buffers::{Buffer, Buffers};
use crate::programs::{has_undefined, mentions_undefined};
use crate::tally::{Counted, Feature, Numbers, Tally, OF_FILE};

/// An accepted file: its program and its dual.
pub struct Accepted {
    program: Program,
    dual: Dual,
    pub dual_length: usize,
}

impl Accepted {
    pub fn new(program: Program) -> Self {
        let dual = dual(&program);
        let dual_length = encode_dual(&dual).len();
        Accepted {
            program,
            dual,
            dual_length,
        }
    }

    fn has_rule(&self, holds: impl Fn(ObjectiveLiteral, &[BodyLiteral]) -> bool) -> bool {
        self.program
            .folds()
            .any(|(_, head, body)| holds(head, body))
    }

    /// Whether a 09 field lists such a literal.
    fn lists(&self, is_it: impl Fn(Form) -> bool) -> bool {
        self.has_folding(|_, folding| {
            let mut forms = folding.conjugates.iter().filter_map(form);
            forms.any(&is_it)
        })
    }

    /// Whether there is such a 09 field.
    fn has_folding(&self, is_it: impl Fn(&Entry, &Folding) -> bool) -> bool {
        self.has_entry(|entry| entry.foldings.iter().any(|folding| is_it(entry, folding)))
    }

    fn has_entry(&self, holds: impl Fn(&Entry) -> bool) -> bool {
        self.dual.entries.iter().any(holds)
    }

    fn falsum(&self) -> Option<&Entry> {
        let falsum = ObjectiveLiteral::falsum(self.program.atoms);
        self.dual
            .entries
            .iter()
            .find(|entry| entry.literal == falsum)
    }
}

/// What there can be in an accepted file or in its dual.
const ACCEPTED: &[Feature<Accepted>] = &[
    ("an abducible", |file| !file.program.abducibles.is_empty()),
    ("a fact", |file| {
        file.program.rules.iter().any(|rule| rule.body.is_empty())
    }),
    ("a fact that has other rules", |file| {
        let rules = &file.program.rules;
        let facts = rules.iter().filter(|rule| rule.body.is_empty());
        let mut heads = facts.map(|fact| fact.head);
        let has_others = |head| {
            let mut bodies = rules.iter().filter(|rule| rule.head == head);
            bodies.any(|rule| !rule.body.is_empty())
        };
        heads.any(has_others)
    }),
    ("no fact", |file| !file.has_rule(|_, body| body.is_empty())),
    ("a rule for an explicit negation", |file| {
        file.program.rules.iter().any(|rule| is_negation(rule.head))
    }),
    ("an explicit negation in a body", |file| {
        file.has_rule(|_, body| {
            let mut forms = body.iter().filter_map(form);
            forms.any(|(Form::Objective(it) | Form::Not(it))| is_negation(it))
        })
    }),
    ("an atom listed", |file| {
        file.lists(|form| matches!(form, Form::Objective(it) if !is_negation(it)))
    }),
    ("a negated atom listed", |file| {
        file.lists(|form| matches!(form, Form::Objective(it) if is_negation(it)))
    }),
    ("not of an atom listed", |file| {
        file.lists(|form| matches!(form, Form::Not(it) if !is_negation(it)))
    }),
    ("not of a negated atom listed", |file| {
        file.lists(|form| matches!(form, Form::Not(it) if is_negation(it)))
    }),
    ("an entry without folds", |file| {
        file.has_entry(|entry| entry.foldings.is_empty())
    }),
    ("an entry with several folds", |file| {
        file.has_entry(|entry| entry.foldings.len() > 1)
    }),
    ("an entry with folds that are no neighbours", |file| {
        file.has_entry(|entry| {
            let mut pairs = entry.foldings.windows(2);
            pairs.any(|pair| pair[0].fold.0 + 1 < pair[1].fold.0)
        })
    }),
    ("a later fold before an earlier one", |file| {
        let foldings = file.dual.entries.iter().flat_map(|entry| &entry.foldings);
        !foldings.is_sorted_by_key(|folding| folding.fold)
    }),
    ("a fold past 255", |file| {
        file.has_entry(|entry| entry.foldings.iter().any(|folding| folding.fold.0 > 255))
    }),
    ("falsum as a fact", |file| file.falsum().is_none()),
    ("falsum without folds", |file| {
        file.falsum().is_some_and(|entry| entry.foldings.is_empty())
    }),
    ("falsum with folds", |file| {
        file.falsum()
            .is_some_and(|entry| !entry.foldings.is_empty())
    }),
    ("no entry at all", |file| file.dual.entries.is_empty()),
    ("256 atoms", |file| file.program.atoms == MOST_ATOMS),
    ("16 abducibles", |file| {
        file.program.abducibles.len() == MOST_ABDUCIBLES
    }),
    ("1,024 rules", |file| file.program.rules.len() == MOST_RULES),
    ("256 integrity rules", |file| {
        file.program.integrity_bodies.len() == MOST_INTEGRITY_RULES
    }),
    ("a body of 16 literals", |file| {
        file.has_rule(|_, body| body.len() == MOST_LITERALS)
    }),
    ("a dual of more than 32,768 bytes", |file| {
        file.dual_length > 32_768
    }),
    ("the longest dual", |file| file.dual_length == LONGEST_DUAL),
    ("FFFF listed", |file| {
        file.has_folding(|_, folding| has_undefined(&folding.conjugates))
    }),
    ("FFFF listed beside literals", |file| {
        file.has_folding(|_, folding| {
            let mut forms = folding.conjugates.iter().filter_map(form);
            has_undefined(&folding.conjugates) && forms.next().is_some()
        })
    }),
    ("FFFF listed for falsum", |file| {
        file.falsum().is_some_and(|entry| {
            let mut foldings = entry.foldings.iter();
            foldings.any(|folding| has_undefined(&folding.conjugates))
        })
    }),
    ("FFFF listed with 256 atoms", |file| {
        file.program.atoms == MOST_ATOMS
            && file.has_folding(|_, folding| has_undefined(&folding.conjugates))
    }),
    ("an entry of a head with FFFF alone", |file| {
        file.has_folding(|_, folding| is_alone(folding))
    }),
    (
        "an entry of a head with no other rule than FFFF alone",
        |file| file.has_folding(|entry, folding| is_alone(folding) && entry.foldings.len() == 1),
    ),
    ("a fact that has a rule of FFFF alone", |file| {
        file.has_rule(|fact, body| {
            let is_fact = body.is_empty();
            is_fact && file.has_rule(|head, body| head == fact && body == ALONE)
        })
    }),
    ("the longest dual and FFFF in it", |file| {
        file.dual_length == LONGEST_DUAL && mentions_undefined(&file.program)
    }),
];

const ALONE: [BodyLiteral; 1] = [BodyLiteral::Undefined];

fn is_alone(folding: &Folding) -> bool {
    folding.conjugates == ALONE
}

/// The form of a literal; FFFF has none.
pub(crate) fn form(literal: &BodyLiteral) -> Option<Form> {
    match literal {
        BodyLiteral::Literal(literal) => Some(literal.form()),
        BodyLiteral::Undefined => None,
    }
}

pub(crate) fn is_negation(literal: ObjectiveLiteral) -> bool {
    literal.0 % 2 == 1
}

/// How often each answer came.
pub struct DualCoverage {
    refused: Numbers,
    accepted: Tally<Accepted>,
    lent: Buffers,
}

impl Default for DualCoverage {
    fn default() -> Self {
        DualCoverage {
            refused: Numbers::new("file refused", OF_FILE),
            accepted: Tally::new("files accepted", ACCEPTED),
            lent: Buffers::default(),
        }
    }
}

impl DualCoverage {
    pub fn count_refused(&mut self, refusal: &Refusal) {
        self.refused.count(refusal.number as u8);
    }

    pub fn count_accepted(&mut self, file: &Accepted) {
        self.accepted.count(file);
    }

    pub fn count_lent(&mut self, buffer: &Buffer) {
        self.lent.count(buffer);
    }

    pub fn parts(&self) -> [&dyn Counted; 4] {
        let [short, long_enough] = self.lent.parts();
        [&self.refused, &self.accepted, short, long_enough]
    }
}

#[cfg(test)]
mod tests {
    use super::*;
    use crate::tally::LEAST;
    use plain::{Atom, Number, Paper, Rule, UNDEFINED};

    fn rule(head: u16, body: &[u16]) -> Rule {
        Rule {
            head: ObjectiveLiteral(head),
            body: literals(body),
        }
    }

    fn literals(numbers: &[u16]) -> Vec<BodyLiteral> {
        numbers.iter().copied().map(BodyLiteral::read).collect()
    }

    fn features(program: Program) -> Vec<&'static str> {
        let file = Accepted::new(program);
        let features = ACCEPTED.iter().filter(|(_, has)| has(&file));
        features.map(|&(name, _)| name).collect()
    }

    #[test]
    fn the_features_of_example_2_1() {
        let program = Program {
            atoms: 3,
            abducibles: vec![],
            rules: vec![rule(4, &[5]), rule(2, &[0]), rule(3, &[]), rule(0, &[1])],
            integrity_bodies: vec![],
        };
        let expected = [
            "a fact",
            "a rule for an explicit negation",
            "an atom listed",
            "not of an atom listed",
            "an entry without folds",
            "a later fold before an earlier one",
            "falsum without folds",
        ];
        assert_eq!(features(program), expected);
    }

    #[test]
    fn the_features_of_other_programs() {
        let program = Program {
            atoms: 2,
            abducibles: vec![Atom(1)],
            rules: vec![rule(0, &[3]), rule(1, &[]), rule(0, &[6]), rule(1, &[0])],
            integrity_bodies: vec![literals(&[0])],
        };
        let expected = [
            "an abducible",
            "a fact",
            "a fact that has other rules",
            "a rule for an explicit negation",
            "an explicit negation in a body",
            "a negated atom listed",
            "not of an atom listed",
            "not of a negated atom listed",
            "an entry with several folds",
            "an entry with folds that are no neighbours",
            "falsum with folds",
        ];
        assert_eq!(features(program), expected);

        let program = Program {
            atoms: 1,
            abducibles: vec![Atom(0)],
            rules: vec![],
            integrity_bodies: vec![vec![]],
        };
        let expected = ["an abducible", "falsum as a fact", "no entry at all"];
        assert_eq!(features(program), expected);
    }

    #[test]
    fn the_features_of_programs_with_undefined() {
        let program = |rules, integrity_bodies| Program {
            atoms: 1,
            abducibles: vec![],
            rules,
            integrity_bodies,
        };
        let alone = program(vec![rule(0, &[UNDEFINED])], vec![]);
        let expected = [
            "no fact",
            "an entry without folds",
            "falsum without folds",
            "FFFF listed",
            "an entry of a head with FFFF alone",
            "an entry of a head with no other rule than FFFF alone",
        ];
        assert_eq!(features(alone), expected);

        // The fact leaves no entry that could list it.
        let rules = vec![rule(0, &[]), rule(0, &[UNDEFINED])];
        let with_fact = program(rules, vec![]);
        let expected = [
            "a fact",
            "a fact that has other rules",
            "an entry without folds",
            "falsum without folds",
            "a fact that has a rule of FFFF alone",
        ];
        assert_eq!(features(with_fact), expected);

        let of_falsum = program(vec![], vec![literals(&[0, UNDEFINED])]);
        let expected = [
            "no fact",
            "not of an atom listed",
            "an entry without folds",
            "falsum with folds",
            "FFFF listed",
            "FFFF listed beside literals",
            "FFFF listed for falsum",
        ];
        assert_eq!(features(of_falsum), expected);
    }

    #[test]
    fn what_never_came_is_complained_of() {
        let mut coverage = DualCoverage::default();
        let complaints = |coverage: &DualCoverage| {
            let complaints = coverage.parts().map(|part| part.complaints().len());
            complaints.iter().sum::<usize>()
        };
        let numbers_up_to_10 = 10;
        let accepted = 26 + 8;
        let buffers = 3 + 2;
        let all = numbers_up_to_10 + accepted + buffers;
        assert_eq!(complaints(&coverage), all);
        let refusal = Refusal {
            number: Number::Tail,
            paper: Paper::File,
            place: 15,
        };
        for _ in 0..LEAST {
            coverage.count_refused(&refusal);
        }
        assert_eq!(complaints(&coverage), all - 1);
    }
}

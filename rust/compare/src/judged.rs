//! Judged scenarios, and what there can be in them and in their models.

use plain::field::{MOST_ABDUCIBLES, MOST_ATOMS, MOST_INTEGRITY_RULES, MOST_LITERALS, MOST_RULES};
use plain::{
    digits, dual, scenario_count, BodyLiteral, Digit, Form, Judgement, ObjectiveLiteral, Program,
    Query,
};

use crate::dual_coverage::{form, is_negation};
use crate::programs::{has_undefined, mentions_undefined};
use crate::tally::Feature;

/// A judged scenario.
pub struct Judged {
    pub program: Program,
    pub query: Query,
    pub scenario: u32,
    pub judgement: Judgement,
    /// The model's bytes.
    pub model: Vec<u8>,
}

const UNDEFINED: u8 = 0;
const TRUE: u8 = 1;
const FALSE: u8 = 2;
const BOTH: u8 = 3;

fn byte(model: &[u8], literal: ObjectiveLiteral) -> u8 {
    model[usize::from(literal.0)]
}

fn is_true(model: &[u8], literal: ObjectiveLiteral) -> bool {
    [TRUE, BOTH].contains(&byte(model, literal))
}

fn is_false(model: &[u8], literal: ObjectiveLiteral) -> bool {
    [FALSE, BOTH].contains(&byte(model, literal))
}

fn holds(model: &[u8], form: Form) -> bool {
    match form {
        Form::Objective(objective) => is_true(model, objective),
        Form::Not(objective) => is_false(model, objective),
    }
}

fn query_holds(query: &Query, model: &[u8]) -> bool {
    let mut forms = query.literals.iter().map(|literal| literal.form());
    forms.all(|form| holds(model, form))
}

/// Whether a byte 3 alone keeps a scenario with such a model from being an
/// explanation. Before Card 3 it was one.
pub fn is_contradicted(query: &Query, model: &[u8]) -> bool {
    model.last() == Some(&FALSE) && query_holds(query, model) && model.contains(&BOTH)
}

impl Judged {
    fn is_true(&self, literal: ObjectiveLiteral) -> bool {
        is_true(&self.model, literal)
    }

    fn is_false(&self, literal: ObjectiveLiteral) -> bool {
        is_false(&self.model, literal)
    }

    fn byte(&self, literal: ObjectiveLiteral) -> u8 {
        byte(&self.model, literal)
    }

    fn falsum(&self) -> u8 {
        self.byte(ObjectiveLiteral::falsum(self.program.atoms))
    }

    fn query_holds(&self) -> bool {
        query_holds(&self.query, &self.model)
    }

    pub fn is_contradicted(&self) -> bool {
        is_contradicted(&self.query, &self.model)
    }

    /// Whether one of the two literals of an atom is both.
    fn is_atom_both(&self, atom: u16) -> bool {
        [2 * atom, 2 * atom + 1]
            .map(ObjectiveLiteral)
            .iter()
            .any(|&literal| self.byte(literal) == BOTH)
    }

    /// Whether some literal that is neither abducible nor falsum is so.
    fn has(&self, holds: impl Fn(ObjectiveLiteral) -> bool) -> bool {
        (0..2 * self.program.atoms)
            .map(ObjectiveLiteral)
            .any(|literal| !self.program.abducibles.contains(&literal.atom()) && holds(literal))
    }

    fn has_byte(&self, byte: u8) -> bool {
        self.has(|literal| self.byte(literal) == byte)
    }

    fn has_negation(&self, byte: u8) -> bool {
        self.has(|literal| is_negation(literal) && self.byte(literal) == byte)
    }

    fn has_digit(&self, digit: Digit) -> bool {
        digits(self.scenario, self.program.abducibles.len()).contains(&digit)
    }

    /// Whether the query has a literal of one that is both.
    fn asks_for_both(&self, is_it: impl Fn(Form) -> Option<ObjectiveLiteral>) -> bool {
        let mut forms = self.query.literals.iter().map(|literal| literal.form());
        forms.any(|form| is_it(form).is_some_and(|objective| self.byte(objective) == BOTH))
    }

    /// Whether a body that could hold does not make such a head possible.
    fn is_false_by_conjugate_alone(&self, is_it: impl Fn(ObjectiveLiteral) -> bool) -> bool {
        let mut folds = self.program.folds();
        folds.any(|(_, head, body)| is_it(head) && self.is_false(head) && !self.fails(body))
    }

    /// Whether all literals of a body hold that are not FFFF.
    fn others_hold(&self, body: &[BodyLiteral]) -> bool {
        let mut forms = body.iter().filter_map(form);
        forms.all(|form| holds(&self.model, form))
    }

    /// Whether a literal of a body fails. FFFF never does.
    fn fails(&self, body: &[BodyLiteral]) -> bool {
        let mut forms = body.iter().filter_map(form);
        forms.any(|form| match form {
            Form::Objective(objective) => self.is_false(objective),
            Form::Not(objective) => self.is_true(objective),
        })
    }

    pub fn mentions_undefined(&self) -> bool {
        mentions_undefined(&self.program)
    }

    /// Whether there is such a rule with FFFF, that is no integrity rule.
    fn has_undefined_rule(&self, is_it: impl Fn(ObjectiveLiteral, &[BodyLiteral]) -> bool) -> bool {
        let mut rules = self.program.rules.iter();
        rules.any(|rule| has_undefined(&rule.body) && is_it(rule.head, &rule.body))
    }

    fn has_true_conjugate(&self, literal: ObjectiveLiteral) -> bool {
        let conjugate = literal.conjugate(self.program.atoms);
        conjugate.is_some_and(|conjugate| self.is_true(conjugate))
    }

    /// Whether FFFF alone keeps those integrity rules from holding that do not
    /// fail.
    fn is_falsum_undefined_by_undefined_alone(&self) -> bool {
        let mut bodies = self.program.integrity_bodies.iter();
        self.falsum() == UNDEFINED
            && bodies.all(|body| self.fails(body) || has_undefined(body) && self.others_hold(body))
    }

    fn has_integrity_rule_with_undefined(&self) -> bool {
        let mut bodies = self.program.integrity_bodies.iter();
        bodies.any(|body| has_undefined(body))
    }

    /// Whether the least set of backed literals would be less than the greatest.
    pub fn has_failing_ring(&self) -> bool {
        let Program {
            atoms, abducibles, ..
        } = &self.program;
        let is_backed_alone = |literal: ObjectiveLiteral| {
            let is_falsum = literal == ObjectiveLiteral::falsum(*atoms);
            self.has_true_conjugate(literal)
                || !is_falsum && abducibles.contains(&literal.atom()) && self.is_false(literal)
        };
        let dual = dual(&self.program);
        let judged = ObjectiveLiteral::judged(*atoms);
        let mut least: Vec<bool> = judged.map(is_backed_alone).collect();
        let mut has_grown = true;
        while has_grown {
            has_grown = false;
            for entry in &dual.entries {
                // A listed FFFF never holds.
                let holds = |form| match form {
                    Form::Objective(objective) => self.is_true(objective),
                    Form::Not(objective) => least[usize::from(objective.0)],
                };
                let backs = |listed: &[BodyLiteral]| listed.iter().filter_map(form).any(holds);
                let mut foldings = entry.foldings.iter();
                let at = usize::from(entry.literal.0);
                if !least[at] && foldings.all(|folding| backs(&folding.conjugates)) {
                    least[at] = true;
                    has_grown = true;
                }
            }
        }
        ObjectiveLiteral::judged(*atoms)
            .any(|literal| self.is_false(literal) && !least[usize::from(literal.0)])
    }
}

/// What a judged scenario can have.
pub const JUDGED: &[Feature<Judged>] = &[
    ("an explanation", |it| it.judgement.explains),
    ("no explanation", |it| !it.judgement.explains),
    ("no rounds", |it| it.judgement.rounds == 0),
    ("1 round", |it| it.judgement.rounds == 1),
    ("2 rounds", |it| it.judgement.rounds == 2),
    ("3 rounds", |it| it.judgement.rounds == 3),
    ("4 rounds", |it| it.judgement.rounds == 4),
    ("5 rounds or more", |it| it.judgement.rounds >= 5),
    ("8 rounds or more", |it| it.judgement.rounds >= 8),
    ("a literal undefined", |it| it.has_byte(UNDEFINED)),
    ("a literal true", |it| it.has_byte(TRUE)),
    ("a literal false", |it| it.has_byte(FALSE)),
    ("a literal both", |it| it.has_byte(BOTH)),
    ("falsum undefined", |it| it.falsum() == UNDEFINED),
    ("falsum true", |it| it.falsum() == TRUE),
    ("falsum false", |it| it.falsum() == FALSE),
    ("falsum both", |it| it.falsum() == BOTH),
    ("a ring that fails", Judged::has_failing_ring),
    ("an explicit negation true", |it| it.has_negation(TRUE)),
    ("an explicit negation undefined", |it| {
        it.has_negation(UNDEFINED)
    }),
    ("a literal false by its conjugate alone", |it| {
        it.is_false_by_conjugate_alone(|_| true)
    }),
    ("an atom false by its negation alone", |it| {
        it.is_false_by_conjugate_alone(|head| !is_negation(head))
    }),
    ("a negated atom false by its atom alone", |it| {
        it.is_false_by_conjugate_alone(is_negation)
    }),
    ("a query that holds while falsum is undefined", |it| {
        it.query_holds() && it.falsum() == UNDEFINED
    }),
    ("a query that holds while falsum is true", |it| {
        it.query_holds() && it.falsum() == TRUE
    }),
    ("a query that holds while falsum is both", |it| {
        it.query_holds() && it.falsum() == BOTH
    }),
    ("an empty query", |it| it.query.literals.is_empty()),
    ("an abducible open", |it| it.has_digit(Digit::Open)),
    ("an abducible assumed", |it| it.has_digit(Digit::Assumed)),
    ("an abducible ruled out", |it| it.has_digit(Digit::RuledOut)),
    ("the last of several scenarios", |it| {
        it.scenario > 0 && it.scenario == scenario_count(&it.program) - 1
    }),
    ("no abducibles", |it| it.program.abducibles.is_empty()),
    ("16 abducibles", |it| {
        it.program.abducibles.len() == MOST_ABDUCIBLES
    }),
    ("256 atoms", |it| it.program.atoms == MOST_ATOMS),
    ("1,024 rules", |it| it.program.rules.len() == MOST_RULES),
    ("256 integrity rules", |it| {
        it.program.integrity_bodies.len() == MOST_INTEGRITY_RULES
    }),
    ("a body of 16 literals", |it| {
        let mut folds = it.program.folds();
        folds.any(|(_, _, body)| body.len() == MOST_LITERALS)
    }),
];

/// What a judged scenario of a file with FFFF can have.
pub const WITH_UNDEFINED: &[Feature<Judged>] = &[
    ("an explanation", |it| it.judgement.explains),
    ("no explanation", |it| !it.judgement.explains),
    (
        "a literal undefined that would be true without FFFF",
        |it| it.has_undefined_rule(|head, body| it.byte(head) == UNDEFINED && it.others_hold(body)),
    ),
    ("a literal undefined by FFFF alone", |it| {
        it.has_undefined_rule(|head, body| it.byte(head) == UNDEFINED && body.len() == 1)
    }),
    ("a literal true by another rule than that with FFFF", |it| {
        it.has_undefined_rule(|head, body| it.byte(head) == TRUE && !it.fails(body))
    }),
    ("a literal false though a rule of it has FFFF", |it| {
        it.has_undefined_rule(|head, body| {
            it.byte(head) == FALSE && it.fails(body) && !it.has_true_conjugate(head)
        })
    }),
    (
        "a literal false by its conjugate alone and a rule with FFFF",
        |it| it.has_undefined_rule(|head, body| it.byte(head) == FALSE && !it.fails(body)),
    ),
    ("a literal both and a rule of it with FFFF", |it| {
        it.has_undefined_rule(|head, _| it.byte(head) == BOTH)
    }),
    ("falsum undefined through FFFF alone", |it| {
        it.is_falsum_undefined_by_undefined_alone()
    }),
    ("a query that holds while falsum is so", |it| {
        it.query_holds() && it.is_falsum_undefined_by_undefined_alone()
    }),
    ("falsum false though an integrity rule has FFFF", |it| {
        it.falsum() == FALSE && it.has_integrity_rule_with_undefined()
    }),
    ("falsum true by another integrity rule", |it| {
        it.falsum() == TRUE && it.has_integrity_rule_with_undefined()
    }),
    ("256 atoms", |it| it.program.atoms == MOST_ATOMS),
];

/// What a scenario can have that a byte 3 alone keeps from being an explanation.
pub const CONTRADICTED: &[Feature<Judged>] = &[
    ("a query for a literal that is both", |it| {
        it.asks_for_both(|form| match form {
            Form::Objective(objective) => Some(objective),
            Form::Not(_) => None,
        })
    }),
    ("a query for not of a literal that is both", |it| {
        it.asks_for_both(|form| match form {
            Form::Objective(_) => None,
            Form::Not(objective) => Some(objective),
        })
    }),
    ("a query for others alone", |it| {
        !it.query.literals.is_empty()
            && !it.asks_for_both(|form| match form {
                Form::Objective(objective) | Form::Not(objective) => Some(objective),
            })
    }),
    ("an empty query", |it| it.query.literals.is_empty()),
    ("a literal both whose conjugate is not true", |it| {
        it.has(|literal| it.byte(literal) == BOTH && !it.has_true_conjugate(literal))
    }),
    ("one atom both", |it| {
        (0..it.program.atoms)
            .filter(|&atom| it.is_atom_both(atom))
            .count()
            == 1
    }),
    ("the first of several atoms both", |it| {
        it.program.atoms > 1 && it.is_atom_both(0)
    }),
    ("the last of several atoms both", |it| {
        it.program.atoms > 1 && it.is_atom_both(it.program.atoms - 1)
    }),
    ("an integrity rule", |it| {
        !it.program.integrity_bodies.is_empty()
    }),
    ("an abducible assumed or ruled out", |it| it.scenario > 0),
];

#[cfg(test)]
mod tests {
    use super::*;
    use crate::tally::names;
    use plain::{model, read_papers};

    fn judged(atoms: &str, abducibles: &str, rules: &str, query: &str, scenario: u32) -> Judged {
        let (file, sheet) = (
            calls::file(atoms, abducibles, rules),
            calls::sheet(atoms, query),
        );
        let (program, query) = read_papers(&file, &sheet).expect("accepted papers");
        Judged {
            judgement: Judgement::of(&program, &query, scenario),
            model: model(&program, scenario).bytes(),
            program,
            query,
            scenario,
        }
    }

    fn ring_fails(atoms: &str, abducibles: &str, rules: &str, scenario: u32) -> bool {
        judged(atoms, abducibles, rules, "", scenario).has_failing_ring()
    }

    #[test]
    fn a_ring_fails_where_it_has_no_way_in() {
        assert!(ring_fails("p", "", "p :- p", 0));
        assert!(ring_fails("p q", "", "p :- q; q :- p", 0));
        assert!(ring_fails("p q", "", "p :- q, undefined; q :- p", 0));
        assert!(!ring_fails("p q", "", "p :- q; q :- p; q :- undefined", 0));
        assert!(!ring_fails("p q", "", "p :- q; q :- p; q", 0));
        assert!(!ring_fails("p q", "", "p :- q", 0));
        assert!(!ring_fails("p", "", "p :- not p", 0));
        let with_way_in = "p :- q; q :- p; q :- a";
        assert!(!ring_fails("p q a", "a", with_way_in, 0));
        assert!(!ring_fails("p q a", "a", with_way_in, 1));
        assert!(ring_fails("p q a", "a", with_way_in, 2));
        // The conjugate makes both false without the ring.
        assert!(!ring_fails("p q", "", "p :- q; q :- p; -p", 0));
    }

    #[test]
    fn a_literal_is_false_by_its_conjugate_alone() {
        let is_it = |rules, of: fn(ObjectiveLiteral) -> bool| {
            judged("p q", "", rules, "", 0).is_false_by_conjugate_alone(of)
        };
        let of_any = |rules| is_it(rules, |_| true);
        assert!(of_any("p :- not p; -p"));
        assert!(of_any("p; -p"));
        assert!(of_any("p :- undefined; -p"));
        assert!(!of_any("p :- q; -p"));
        assert!(!of_any("p :- not p"));
        let is_atom = |head| !is_negation(head);
        let atom_alone = "p :- q; q :- not q; -p";
        assert!(is_it(atom_alone, is_atom) && !is_it(atom_alone, is_negation));
        let negation_alone = "-p :- q; q :- not q; p";
        assert!(is_it(negation_alone, is_negation) && !is_it(negation_alone, is_atom));
        assert!(is_it("p; -p", is_atom) && is_it("p; -p", is_negation));
    }

    #[test]
    fn the_features_of_a_contradiction() {
        let it = judged("a d", "a", "d :- a; -d; falsum :- d, -d", "d, not d", 1);
        let features = JUDGED.iter().filter(|(_, has)| has(&it));
        let names: Vec<&str> = features.map(|&(name, _)| name).collect();
        let expected = [
            "no explanation",
            "2 rounds",
            "a literal both",
            "falsum both",
            "a literal false by its conjugate alone",
            "an atom false by its negation alone",
            "a negated atom false by its atom alone",
            "a query that holds while falsum is both",
            "an abducible assumed",
        ];
        assert_eq!(names, expected);
        assert!(!it.is_contradicted(), "falsum is both");
    }

    #[test]
    fn what_undefined_does() {
        let features = |rules| names(WITH_UNDEFINED, &judged("p q", "", rules, "", 0));
        let (explains, does_not) = ("an explanation", "no explanation");
        let undefined = "a literal undefined that would be true without FFFF";
        let alone = "a literal undefined by FFFF alone";
        assert_eq!(features("p :- undefined"), [explains, undefined, alone]);
        assert_eq!(features("p :- undefined, not q"), [explains, undefined]);
        assert_eq!(features("p :- undefined, q; q :- not q"), [explains]);
        let is_true = "a literal true by another rule than that with FFFF";
        assert_eq!(features("p; p :- undefined"), [explains, is_true]);
        let is_false = "a literal false though a rule of it has FFFF";
        assert_eq!(features("p :- undefined, q"), [explains, is_false]);
        assert_eq!(features("p :- undefined, q; -p"), [explains]);
        let by_conjugate = "a literal false by its conjugate alone and a rule with FFFF";
        assert_eq!(features("p :- undefined; -p"), [explains, by_conjugate]);
        let both = "a literal both and a rule of it with FFFF";
        assert_eq!(features("p; -p; p :- undefined"), [does_not, both]);

        let falsum = "falsum undefined through FFFF alone";
        let holds = "a query that holds while falsum is so";
        assert_eq!(features("falsum :- undefined"), [does_not, falsum, holds]);
        let beside = "falsum :- undefined; falsum :- q";
        assert_eq!(features(beside), [does_not, falsum, holds]);
        let by_another = "q :- not q; falsum :- undefined; falsum :- q";
        assert_eq!(features(by_another), [does_not]);
        let failing = "falsum false though an integrity rule has FFFF";
        assert_eq!(features("falsum :- undefined, q"), [explains, failing]);
        let holding = "falsum true by another integrity rule";
        assert_eq!(features("falsum :- undefined; falsum"), [does_not, holding]);
    }

    #[test]
    fn what_a_byte_3_alone_bars() {
        let features = |query, rules, scenario| {
            let it = judged("a d e", "a", rules, query, scenario);
            let had = CONTRADICTED.iter().filter(|(_, has)| has(&it));
            let names: Vec<&str> = had.map(|&(name, _)| name).collect();
            it.is_contradicted().then_some(names)
        };
        let (alone, chained) = ("d :- a; -d; e", "d :- a; -d; e :- not d");
        let (objective, negated) = (CONTRADICTED[0].0, CONTRADICTED[1].0);
        let (others, empty) = (CONTRADICTED[2].0, CONTRADICTED[3].0);
        let (one, assumed) = ("one atom both", "an abducible assumed or ruled out");
        assert_eq!(features("d", alone, 1), Some(vec![objective, one, assumed]));
        assert_eq!(
            features("not d", alone, 1),
            Some(vec![negated, one, assumed])
        );
        assert_eq!(features("e", alone, 1), Some(vec![others, one, assumed]));
        assert_eq!(features("", alone, 1), Some(vec![empty, one, assumed]));
        let unpaired = "a literal both whose conjugate is not true";
        let last = "the last of several atoms both";
        assert_eq!(
            features("", chained, 1),
            Some(vec![empty, unpaired, last, assumed])
        );
        for barred_anyway in ["-e", "not a", "not e"] {
            assert_eq!(features(barred_anyway, alone, 1), None);
        }
        assert_eq!(features("", alone, 0), None);
        assert_eq!(features("", alone, 2), None);
    }
}

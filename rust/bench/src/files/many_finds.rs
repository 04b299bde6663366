//! A program with hundreds of smallest explanations: an alarm that any four of
//! twelve faults raise.
//!
//! Most scenarios explain the alarm and contain a find, but few contain many,
//! so that a search looks through much of its list for most of them.

use compare::programs::holds;
use plain::{Atom, BodyLiteral, Form, ObjectiveLiteral, Program, Query, Rule};

use super::Papers;

const FAULTS: u16 = 12;
const ENOUGH: u16 = 4;

pub fn papers() -> Papers {
    let mut rules = Vec::new();
    for fault in 0..FAULTS {
        for count in 1..=ENOUGH {
            rules.extend(rules_of(fault, count));
        }
    }
    let program = Program {
        atoms: FAULTS + FAULTS * ENOUGH,
        abducibles: (0..FAULTS).map(Atom).collect(),
        rules,
        integrity_bodies: vec![],
    };
    let query = Query {
        literals: vec![Form::Objective(counted(FAULTS - 1, ENOUGH)).literal()],
    };
    Papers::new("many finds", program, query)
}

/// So many of the faults up to this one are there if they are without it, or if
/// it is and one less without it.
fn rules_of(fault: u16, count: u16) -> Vec<Rule> {
    let without_it = |count| fault.checked_sub(1).map(|before| counted(before, count));
    let mut bodies = Vec::new();
    bodies.extend(without_it(count).map(|same| vec![holds(same)]));
    if count == 1 {
        bodies.push(vec![there(fault)]);
    } else {
        bodies.extend(without_it(count - 1).map(|less| vec![there(fault), holds(less)]));
    }
    let head = counted(fault, count);
    bodies.into_iter().map(|body| Rule { head, body }).collect()
}

/// The literal of a fault; every second is one where its abducible is ruled
/// out.
fn there(fault: u16) -> BodyLiteral {
    holds(if fault.is_multiple_of(2) {
        ObjectiveLiteral::of(Atom(fault))
    } else {
        ObjectiveLiteral::negation_of(Atom(fault))
    })
}

/// That so many of the faults up to this one are there. They come in the order
/// of the faults, and so do their rules.
fn counted(fault: u16, count: u16) -> ObjectiveLiteral {
    ObjectiveLiteral::of(Atom(FAULTS + fault * ENOUGH + count - 1))
}

#[cfg(test)]
mod tests {
    use super::*;
    use crate::finders::Linked;
    use crate::searching::whole;
    use plain::{digits, Digit};

    #[test]
    fn each_four_of_the_faults_are_found() {
        let papers = papers();
        let outcome = whole(&Linked, &papers);
        assert_eq!(outcome.found.len(), 12 * 11 * 10 * 9 / 24);
        assert!((200..=900).contains(&outcome.found.len()));
        assert!(outcome.has_ended);
        for scenario in outcome.found {
            let digits = digits(scenario, papers.program.abducibles.len());
            let are_there = |(fault, digit): (usize, &Digit)| match fault % 2 {
                0 => *digit == Digit::Assumed,
                _ => *digit == Digit::RuledOut,
            };
            let there = digits.iter().enumerate().filter(|&it| are_there(it));
            let open = digits.iter().filter(|&&digit| digit == Digit::Open);
            assert_eq!((there.count(), open.count()), (4, 8), "{scenario}");
        }
    }

    #[test]
    fn there_are_twelve_abducibles_and_a_rule_for_each_way_to_count() {
        let program = papers().program;
        assert_eq!(program.abducibles.len(), 12);
        assert_eq!((program.atoms, program.rules.len()), (60, 89));
    }
}

//! Falsity a second time, from the dual table.
//!
//! The model takes F(j+1) as the complement of the least set P(j+1). Document
//! 01 also words it from the dual, as a greatest set; that is done here, and
//! the tests compare the two.

use crate::dual::{Dual, Entry};
use crate::model::Interpretation;
use crate::numbering::{BodyLiteral, Form, ObjectiveLiteral};
use crate::program::Program;
use crate::scenario::{Valuation, Value};
use crate::sets::JudgedSet;

/// From the dual of the program, F(j+1) is the greatest set with each o in it
/// backed.
pub fn next_false_by_dual(
    program: &Program,
    dual: &Dual,
    valuation: &Valuation,
    now: &Interpretation,
) -> JudgedSet {
    let entries = entries_by_literal(program, dual);
    // Backed by its conjugate in T(j), by being a false abducible literal, or
    // by an 08 field.
    let is_backed = |literal: ObjectiveLiteral, set: &JudgedSet| {
        let conjugate = literal.conjugate(program.atoms);
        conjugate.is_some_and(|conjugate| now.true_set.contains(conjugate))
            || valuation.of(literal) == Some(Value::False)
            || entries[usize::from(literal.0)].is_some_and(|entry| backs(entry, &now.true_set, set))
    };
    // What a set does not back, a part of it does not back either; so what is
    // removed is in no set whose literals are all backed.
    let mut set = JudgedSet::empty(program.atoms).complement();
    loop {
        let mut has_shrunk = false;
        for literal in ObjectiveLiteral::judged(program.atoms) {
            if set.contains(literal) && !is_backed(literal, &set) {
                set.remove(literal);
                has_shrunk = true;
            }
        }
        if !has_shrunk {
            return set;
        }
    }
}

/// The 08 field of each judged literal that has one.
fn entries_by_literal<'d>(program: &Program, dual: &'d Dual) -> Vec<Option<&'d Entry>> {
    let mut entries: Vec<Option<&Entry>> = ObjectiveLiteral::judged(program.atoms)
        .map(|_| None)
        .collect();
    for entry in &dual.entries {
        entries[usize::from(entry.literal.0)] = Some(entry);
    }
    entries
}

/// Whether each of the folds of an 08 field has a listed literal that holds (x
/// from T(j), not(x) from the set itself). A listed u never holds.
fn backs(entry: &Entry, true_set: &JudgedSet, set: &JudgedSet) -> bool {
    let holds = |literal: &BodyLiteral| match literal {
        BodyLiteral::Literal(literal) => match literal.form() {
            Form::Objective(objective) => true_set.contains(objective),
            Form::Not(objective) => set.contains(objective),
        },
        BodyLiteral::Undefined => false,
    };
    let mut foldings = entry.foldings.iter();
    foldings.all(|folding| folding.conjugates.iter().any(holds))
}

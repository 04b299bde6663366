//! What the two papers say: a program and a query.

use crate::numbering::{Atom, BodyLiteral, Fold, Literal, ObjectiveLiteral};

/// The content of a file.
#[derive(Clone, Debug, PartialEq, Eq)]
pub struct Program {
    /// The atom count n.
    pub atoms: u16,
    /// The abducible atoms, strictly rising.
    pub abducibles: Vec<Atom>,
    /// The rules in file order.
    pub rules: Vec<Rule>,
    /// The bodies of the integrity rules in file order; their head is falsum.
    pub integrity_bodies: Vec<Vec<BodyLiteral>>,
}

impl Program {
    /// The fold number, head and body of each rule and integrity rule, by
    /// rising fold number.
    pub fn folds(&self) -> impl Iterator<Item = (Fold, ObjectiveLiteral, &[BodyLiteral])> {
        let falsum = ObjectiveLiteral::falsum(self.atoms);
        let rules = self.rules.iter().map(|rule| (rule.head, &rule.body[..]));
        let integrity_rules = self
            .integrity_bodies
            .iter()
            .map(move |body| (falsum, &body[..]));
        (0..)
            .zip(rules.chain(integrity_rules))
            .map(|(fold, (head, body))| (Fold(fold), head, body))
    }
}

/// A rule that is not an integrity rule. An empty body is true; u alone is no empty
/// body.
#[derive(Clone, Debug, PartialEq, Eq)]
pub struct Rule {
    pub head: ObjectiveLiteral,
    pub body: Vec<BodyLiteral>,
}

/// The content of a sheet. An empty query is true.
#[derive(Clone, Debug, PartialEq, Eq)]
pub struct Query {
    pub literals: Vec<Literal>,
}

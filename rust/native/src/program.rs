//! The rules of a program as numbers.

use plain::{BodyLiteral, Form, Literal};

/// The rules and integrity rules, in file order.
pub struct Program {
    /// How many judged literals there are; falsum is the last.
    pub judged: usize,
    /// The positive literal of each abducible; its negation is the next.
    pub abducibles: Vec<usize>,
    pub rules: Vec<Rule>,
}

pub struct Rule {
    pub head: usize,
    pub body: Body,
}

/// A body or a query: the literals that hold by their own words, and those o of
/// which not(o) does.
#[derive(Default)]
pub struct Body {
    pub objective: Vec<usize>,
    pub negated: Vec<usize>,
}

impl Body {
    pub fn of_query(literals: &[Literal]) -> Self {
        let mut body = Body::default();
        for &literal in literals {
            body.push(literal);
        }
        body
    }

    /// That of a rule, where u stands as this literal.
    fn of_rule(literals: &[BodyLiteral], undefined: usize) -> Self {
        let mut body = Body::default();
        for literal in literals {
            match *literal {
                BodyLiteral::Literal(literal) => body.push(literal),
                BodyLiteral::Undefined => body.objective.push(undefined),
            }
        }
        body
    }

    fn push(&mut self, literal: Literal) {
        match literal.form() {
            Form::Objective(o) => self.objective.push(o.0.into()),
            Form::Not(o) => self.negated.push(o.0.into()),
        }
    }

    /// The lanes of these in which it holds.
    #[inline]
    pub fn lanes(&self, lanes: u64, set: &[u64], negated: &[u64]) -> u64 {
        let mut lanes = lanes;
        for &o in &self.objective {
            lanes &= set[o];
        }
        for &o in &self.negated {
            lanes &= negated[o];
        }
        lanes
    }
}

impl Program {
    pub fn new(program: &plain::Program) -> Self {
        let judged = 2 * usize::from(program.atoms) + 1;
        let rules = program.folds().map(|(_, head, body)| Rule {
            head: head.0.into(),
            body: Body::of_rule(body, judged),
        });
        let abducibles = program.abducibles.iter();
        Program {
            judged,
            abducibles: abducibles.map(|atom| 2 * usize::from(atom.0)).collect(),
            rules: rules.collect(),
        }
    }

    pub fn falsum(&self) -> usize {
        self.judged - 1
    }

    /// What u is in bodies: a literal behind those that are judged, that is never
    /// true and always possible.
    pub fn undefined(&self) -> usize {
        self.judged
    }

    pub fn scenarios(&self) -> u32 {
        3_u32.pow(self.abducibles.len() as u32)
    }
}

//! The numberings of atoms, objective literals, literals and folds.
//!
//! They never stand for one another, so each has a type of its own. In all of
//! them `atoms` is the atom count n. What stands in a body is a literal or the
//! constant u, which has no place in any of them.

/// Atom a, from 0 to n-1.
#[derive(Clone, Copy, Debug, PartialEq, Eq, PartialOrd, Ord, Hash)]
pub struct Atom(pub u16);

impl Atom {
    pub fn is_listed(self, atoms: u16) -> bool {
        self.0 < atoms
    }
}

/// Objective literal 2a is atom a, 2a+1 is its explicit negation.
///
/// Falsum, objective literal 2n, stands in no file and is not listed. It has
/// no conjugate, no atom and no literal.
#[derive(Clone, Copy, Debug, PartialEq, Eq, PartialOrd, Ord, Hash)]
pub struct ObjectiveLiteral(pub u16);

impl ObjectiveLiteral {
    pub fn falsum(atoms: u16) -> Self {
        ObjectiveLiteral(2 * atoms)
    }

    /// The atom itself.
    pub fn of(atom: Atom) -> Self {
        ObjectiveLiteral(2 * atom.0)
    }

    /// The explicit negation of the atom.
    pub fn negation_of(atom: Atom) -> Self {
        ObjectiveLiteral(2 * atom.0 + 1)
    }

    /// The judged literals: every objective literal, falsum last. They are
    /// N = 2n+1.
    pub fn judged(atoms: u16) -> impl Iterator<Item = ObjectiveLiteral> {
        (0..=ObjectiveLiteral::falsum(atoms).0).map(ObjectiveLiteral)
    }

    /// An atom and its explicit negation are conjugates; falsum has none.
    pub fn conjugate(self, atoms: u16) -> Option<ObjectiveLiteral> {
        if self == ObjectiveLiteral::falsum(atoms) {
            None
        } else if self == ObjectiveLiteral::of(self.atom()) {
            Some(ObjectiveLiteral::negation_of(self.atom()))
        } else {
            Some(ObjectiveLiteral::of(self.atom()))
        }
    }

    pub fn is_listed(self, atoms: u16) -> bool {
        u32::from(self.0) < 2 * u32::from(atoms)
    }

    /// The atom that this is, or is the explicit negation of.
    pub fn atom(self) -> Atom {
        Atom(self.0 / 2)
    }
}

/// Literal 2o is objective literal o, 2o+1 is not(o).
#[derive(Clone, Copy, Debug, PartialEq, Eq, PartialOrd, Ord, Hash)]
pub struct Literal(pub u16);

/// A literal taken apart.
#[derive(Clone, Copy, Debug, PartialEq, Eq)]
pub enum Form {
    /// o.
    Objective(ObjectiveLiteral),
    /// not(o).
    Not(ObjectiveLiteral),
}

impl Form {
    /// The literal whose form this is.
    pub fn literal(self) -> Literal {
        match self {
            Form::Objective(literal) => Literal(2 * literal.0),
            Form::Not(literal) => Literal(2 * literal.0 + 1),
        }
    }
}

impl Literal {
    pub fn is_listed(self, atoms: u16) -> bool {
        u32::from(self.0) < 4 * u32::from(atoms)
    }

    pub fn form(self) -> Form {
        let literal = ObjectiveLiteral(self.0 / 2);
        if self.0.is_multiple_of(2) {
            Form::Objective(literal)
        } else {
            Form::Not(literal)
        }
    }

    /// The literal with not added, or removed where it is there.
    pub fn default_conjugate(self) -> Literal {
        if self.0.is_multiple_of(2) {
            Literal(self.0 + 1)
        } else {
            Literal(self.0 - 1)
        }
    }
}

/// What stands in a body: a literal, or the constant u of document 000 (Card 5 of
/// document 02). A query has literals alone.
#[derive(Clone, Copy, Debug, PartialEq, Eq, PartialOrd, Ord, Hash)]
pub enum BodyLiteral {
    Literal(Literal),
    /// u, which never holds and never fails.
    Undefined,
}

/// What u is written as. Since 4n is at most 1024, it is no literal's number.
pub const UNDEFINED: u16 = 0xFFFF;

impl BodyLiteral {
    /// Reading a body literal yields a number or the constant.
    pub fn read(number: u16) -> Self {
        if number == UNDEFINED {
            BodyLiteral::Undefined
        } else {
            BodyLiteral::Literal(Literal(number))
        }
    }

    /// What it is read from.
    pub fn number(self) -> u16 {
        match self {
            BodyLiteral::Literal(literal) => literal.0,
            BodyLiteral::Undefined => UNDEFINED,
        }
    }

    /// u is, whatever the atom count.
    pub fn is_listed(self, atoms: u16) -> bool {
        match self {
            BodyLiteral::Literal(literal) => literal.is_listed(atoms),
            BodyLiteral::Undefined => true,
        }
    }

    /// That of u is itself.
    pub fn default_conjugate(self) -> Self {
        match self {
            BodyLiteral::Literal(literal) => BodyLiteral::Literal(literal.default_conjugate()),
            BodyLiteral::Undefined => BodyLiteral::Undefined,
        }
    }
}

impl From<Literal> for BodyLiteral {
    fn from(literal: Literal) -> Self {
        BodyLiteral::Literal(literal)
    }
}

/// Fold k is rule k of the file, from 0 in file order; the integrity rules go
/// on from there.
#[derive(Clone, Copy, Debug, PartialEq, Eq, PartialOrd, Ord, Hash)]
pub struct Fold(pub u16);

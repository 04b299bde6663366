//! Sets of judged literals: T, P and F.

use crate::numbering::ObjectiveLiteral;

/// A set of judged literals of a file with some atom count.
#[derive(Clone, Debug, PartialEq, Eq)]
pub struct JudgedSet {
    /// Whether each judged literal, by its number, is in the set.
    members: Vec<bool>,
}

impl JudgedSet {
    pub fn empty(atoms: u16) -> Self {
        JudgedSet {
            members: ObjectiveLiteral::judged(atoms).map(|_| false).collect(),
        }
    }

    /// All judged literals outside this set.
    pub fn complement(&self) -> Self {
        JudgedSet {
            members: self.members.iter().map(|is_member| !is_member).collect(),
        }
    }

    pub fn contains(&self, literal: ObjectiveLiteral) -> bool {
        self.members[usize::from(literal.0)]
    }

    pub fn insert(&mut self, literal: ObjectiveLiteral) {
        self.members[usize::from(literal.0)] = true;
    }

    pub fn remove(&mut self, literal: ObjectiveLiteral) {
        self.members[usize::from(literal.0)] = false;
    }
}

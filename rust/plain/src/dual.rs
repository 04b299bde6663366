//! The dual table: Definition 3.1 of document 000, as fields.

use crate::numbering::{BodyLiteral, Fold, ObjectiveLiteral};
use crate::program::Program;
use crate::read::read_file;
use crate::refusal::WriteRefusal;
use crate::write::encode_dual;

/// The bytes of the longest dual.
pub const LONGEST_DUAL: usize = 52_488;

/// The content of a dual table.
#[derive(Clone, Debug, PartialEq, Eq)]
pub struct Dual {
    /// By rising objective literal, falsum last.
    pub entries: Vec<Entry>,
}

/// An 08 field and the 09 fields after it.
#[derive(Clone, Debug, PartialEq, Eq)]
pub struct Entry {
    pub literal: ObjectiveLiteral,
    /// One for each rule with the objective literal as its head, by rising
    /// fold number.
    pub foldings: Vec<Folding>,
}

/// A 09 field.
#[derive(Clone, Debug, PartialEq, Eq)]
pub struct Folding {
    pub fold: Fold,
    /// The default conjugates of the rule's body literals in order; u where the
    /// body has it.
    pub conjugates: Vec<BodyLiteral>,
}

/// Writes the dual of the file to the start of the buffer and gives its length.
/// The bytes beyond stay; where the dual is refused all bytes stay.
pub fn write_dual(file: &[u8], buffer: &mut [u8]) -> Result<usize, WriteRefusal> {
    let program = read_file(file).map_err(WriteRefusal::File)?;
    let bytes = encode_dual(&dual(&program));
    let Some(start) = buffer.get_mut(..bytes.len()) else {
        return Err(WriteRefusal::ShortDual);
    };
    start.copy_from_slice(&bytes);
    Ok(bytes.len())
}

/// The dual of a program that a file can hold.
pub fn dual(program: &Program) -> Dual {
    let falsum = ObjectiveLiteral::falsum(program.atoms);
    let mut entries: Vec<Entry> = (0..=falsum.0).map(ObjectiveLiteral).map(entry).collect();
    for (fold, head, body) in program.folds() {
        let conjugates = body.iter().map(|literal| literal.default_conjugate());
        entries[usize::from(head.0)].foldings.push(Folding {
            fold,
            conjugates: conjugates.collect(),
        });
    }
    let is_abducible = |literal: ObjectiveLiteral| {
        literal != falsum && program.abducibles.contains(&literal.atom())
    };
    entries.retain(|entry| !is_abducible(entry.literal) && !is_fact(entry));
    Dual { entries }
}

/// The entry of an objective literal without rules.
fn entry(literal: ObjectiveLiteral) -> Entry {
    Entry {
        literal,
        foldings: vec![],
    }
}

/// Whether the objective literal is the head of an empty-body rule.
fn is_fact(entry: &Entry) -> bool {
    let mut foldings = entry.foldings.iter();
    foldings.any(|folding| folding.conjugates.is_empty())
}

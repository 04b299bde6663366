//! What an explanation is, by the model's bytes and the numbers of the literals.

use plain::{Literal, Query};

/// Document 01's sentence, with no byte 3 barred.
pub fn explains_but_for_3(bytes: &[u8], query: &Query) -> bool {
    let mut literals = query.literals.iter();
    bytes.last() == Some(&2) && literals.all(|&literal| holds(bytes, literal))
}

/// Literal 2o is o, 2o+1 is not(o).
fn holds(bytes: &[u8], literal: Literal) -> bool {
    let byte = bytes[usize::from(literal.0 / 2)];
    let is_not = literal.0 % 2 == 1;
    byte == 3 || byte == if is_not { 2 } else { 1 }
}

/// Whether Card 3 alone bars it.
pub fn is_barred_by_3(bytes: &[u8], query: &Query) -> bool {
    explains_but_for_3(bytes, query) && bytes.contains(&3)
}

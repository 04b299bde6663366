//! Writing a file, a sheet and a dual table.
//!
//! What is outside the limits is written as it stands, for a reader to refuse.
//! Only a field too long for its two-byte length can't be written.

use std::iter::once;

use crate::dual::Dual;
use crate::field::{DualTag, Tag, EDITION};
use crate::numbering::BodyLiteral;
use crate::program::{Program, Query};

pub fn encode_file(program: &Program) -> Vec<u8> {
    let mut file = Vec::new();
    put_field(&mut file, Tag::Edition.byte(), &[EDITION]);
    put_numbers(&mut file, Tag::AtomCount.byte(), once(program.atoms));
    let abducibles = program.abducibles.iter().map(|atom| atom.0);
    put_numbers(&mut file, Tag::Abducibles.byte(), abducibles);
    for rule in &program.rules {
        let numbers = once(rule.head.0).chain(body_numbers(&rule.body));
        put_numbers(&mut file, Tag::Rule.byte(), numbers);
    }
    for body in &program.integrity_bodies {
        put_numbers(&mut file, Tag::IntegrityRule.byte(), body_numbers(body));
    }
    put_field(&mut file, Tag::End.byte(), &[]);
    file
}

pub fn encode_sheet(query: &Query) -> Vec<u8> {
    let mut sheet = Vec::new();
    let literals = query.literals.iter().map(|literal| literal.0);
    put_numbers(&mut sheet, Tag::Query.byte(), literals);
    put_field(&mut sheet, Tag::End.byte(), &[]);
    sheet
}

pub fn encode_dual(dual: &Dual) -> Vec<u8> {
    let mut bytes = Vec::new();
    for entry in &dual.entries {
        let folds = entry.foldings.iter().map(|folding| folding.fold.0);
        let numbers = once(entry.literal.0).chain(folds);
        put_numbers(&mut bytes, DualTag::Entry.byte(), numbers);
        for folding in &entry.foldings {
            let numbers = once(folding.fold.0).chain(body_numbers(&folding.conjugates));
            put_numbers(&mut bytes, DualTag::Folding.byte(), numbers);
        }
    }
    put_field(&mut bytes, DualTag::End.byte(), &[]);
    bytes
}

fn body_numbers(body: &[BodyLiteral]) -> impl Iterator<Item = u16> + '_ {
    body.iter().map(|literal| literal.number())
}

fn put_numbers(bytes: &mut Vec<u8>, tag: u8, numbers: impl Iterator<Item = u16>) {
    let content: Vec<u8> = numbers.flat_map(u16::to_be_bytes).collect();
    put_field(bytes, tag, &content);
}

fn put_field(bytes: &mut Vec<u8>, tag: u8, content: &[u8]) {
    let length = u16::try_from(content.len()).expect("a field's length has two bytes");
    bytes.push(tag);
    bytes.extend(length.to_be_bytes());
    bytes.extend(content);
}

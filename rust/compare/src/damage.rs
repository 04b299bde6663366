//! Papers damaged in one way at a time: in their bytes, their fields or their
//! numbers.

use plain::field::{Tag, HEADING};
use plain::{Atom, Program, UNDEFINED};
use random::Random;

use crate::fields::Fields;
use crate::places::{a_field, a_number_place, a_place, two_number_places};

/// What the numbers in the papers of a program are bounded by.
pub struct Bounds {
    pub atoms: u16,
    pub abducibles: Vec<Atom>,
}

impl Bounds {
    pub fn of(program: &Program) -> Self {
        Bounds {
            atoms: program.atoms,
            abducibles: program.abducibles.clone(),
        }
    }
}

/// One way to damage a paper that is not empty.
type Damage = fn(&mut Random, &Fields, &Bounds) -> Vec<u8>;

const DAMAGES: [Damage; 18] = [
    cut,
    change_byte,
    remove_byte,
    add_byte,
    add_tail,
    swap_fields,
    swap_neighbours,
    repeat_field,
    drop_field,
    move_field,
    change_tag,
    change_length,
    change_length_a_little,
    resize_content,
    change_number,
    put_undefined,
    copy_number,
    swap_numbers,
];

/// The paper with so many damages, one after the other.
pub fn damaged(random: &mut Random, paper: &[u8], bounds: &Bounds, times: usize) -> Vec<u8> {
    let mut paper = paper.to_vec();
    for _ in 0..times {
        paper = if paper.is_empty() {
            vec![a_tag(random)]
        } else {
            random.pick(&DAMAGES)(random, &Fields::of(&paper), bounds)
        };
    }
    paper
}

/// How often to damage: with more than once the order of the tests shows.
pub fn a_few(random: &mut Random) -> usize {
    random.pick(&[1, 1, 1, 2, 2, 3])
}

pub fn a_tag(random: &mut Random) -> u8 {
    const KNOWN: [Tag; 7] = [
        Tag::Edition,
        Tag::AtomCount,
        Tag::Abducibles,
        Tag::Rule,
        Tag::IntegrityRule,
        Tag::Query,
        Tag::End,
    ];
    if random.one_in(6) {
        random.byte()
    } else {
        random.pick(&KNOWN).byte()
    }
}

fn cut(random: &mut Random, fields: &Fields, _: &Bounds) -> Vec<u8> {
    fields.bytes[..a_place(random, fields)].to_vec()
}

fn change_byte(random: &mut Random, fields: &Fields, _: &Bounds) -> Vec<u8> {
    let mut bytes = fields.bytes.to_vec();
    let byte = &mut bytes[a_place(random, fields)];
    *byte = match random.below(5) {
        0 => random.byte(),
        1 => byte.wrapping_add(1),
        2 => byte.wrapping_sub(1),
        3 => *byte ^ (1 << random.below(8)),
        _ => a_tag(random),
    };
    bytes
}

fn remove_byte(random: &mut Random, fields: &Fields, _: &Bounds) -> Vec<u8> {
    let mut bytes = fields.bytes.to_vec();
    bytes.remove(a_place(random, fields));
    bytes
}

fn add_byte(random: &mut Random, fields: &Fields, _: &Bounds) -> Vec<u8> {
    let mut bytes = fields.bytes.to_vec();
    let byte = if random.one_in(2) {
        random.byte()
    } else {
        random.below(3) as u8
    };
    bytes.insert(a_place(random, fields), byte);
    bytes
}

fn add_tail(random: &mut Random, fields: &Fields, _: &Bounds) -> Vec<u8> {
    let mut bytes = fields.bytes.to_vec();
    bytes.push(a_tag(random));
    for _ in 0..random.below(5) {
        bytes.push(random.pick(&[0, 0, 1, 2, 0xFF]));
    }
    bytes
}

fn swap_fields(random: &mut Random, fields: &Fields, _: &Bounds) -> Vec<u8> {
    let mut parts = fields.parts();
    parts.swap(a_field(random, fields), a_field(random, fields));
    parts.concat()
}

fn swap_neighbours(random: &mut Random, fields: &Fields, _: &Bounds) -> Vec<u8> {
    let mut parts = fields.parts();
    let index = a_field(random, fields);
    parts.swap(index, index.saturating_sub(1));
    parts.concat()
}

fn repeat_field(random: &mut Random, fields: &Fields, _: &Bounds) -> Vec<u8> {
    let mut parts = fields.parts();
    let index = a_field(random, fields);
    let before_last = parts.len() - 1;
    let any = a_field(random, fields);
    let to = random.pick(&[index, before_last, any]);
    parts.insert(to, parts[index]);
    parts.concat()
}

fn drop_field(random: &mut Random, fields: &Fields, _: &Bounds) -> Vec<u8> {
    let mut parts = fields.parts();
    parts.remove(a_field(random, fields));
    parts.concat()
}

fn move_field(random: &mut Random, fields: &Fields, _: &Bounds) -> Vec<u8> {
    let mut parts = fields.parts();
    let part = parts.remove(a_field(random, fields));
    parts.insert(random.between(0, parts.len()), part);
    parts.concat()
}

fn change_tag(random: &mut Random, fields: &Fields, _: &Bounds) -> Vec<u8> {
    let mut bytes = fields.bytes.to_vec();
    bytes[fields.range(a_field(random, fields)).start] = a_tag(random);
    bytes
}

/// Gives a field another length, its content staying.
fn change_length(random: &mut Random, fields: &Fields, bounds: &Bounds) -> Vec<u8> {
    let length = a_length(random) as u16;
    declare_length(random, fields, bounds, |_| length)
}

/// Gives a field a length off by one or two, its content staying.
fn change_length_a_little(random: &mut Random, fields: &Fields, bounds: &Bounds) -> Vec<u8> {
    let difference = random.pick(&[-2, -1, 1, 2]);
    declare_length(random, fields, bounds, |length| {
        length.wrapping_add_signed(difference)
    })
}

fn declare_length(
    random: &mut Random,
    fields: &Fields,
    bounds: &Bounds,
    new_length: impl Fn(u16) -> u16,
) -> Vec<u8> {
    let range = fields.range(a_field(random, fields));
    if range.len() < HEADING {
        return change_byte(random, fields, bounds);
    }
    let mut bytes = fields.bytes.to_vec();
    let at = range.start + 1;
    let length = number_at(&bytes, at);
    put_number_at(&mut bytes, at, new_length(length));
    bytes
}

/// Makes the content of a field longer or shorter and its length to match.
fn resize_content(random: &mut Random, fields: &Fields, bounds: &Bounds) -> Vec<u8> {
    let index = a_field(random, fields);
    let content = &fields.bytes[fields.content_range(index)];
    let length = match random.below(3) {
        0 => content.len() + random.between(1, 2),
        1 => content.len().saturating_sub(random.between(1, 2)),
        _ => a_length(random).min(40),
    };
    let mut part = vec![fields.bytes[fields.range(index).start]];
    part.extend((length as u16).to_be_bytes());
    part.extend(&content[..length.min(content.len())]);
    while part.len() < HEADING + length {
        // Two of these are a number that is listed everywhere.
        part.push(0);
    }
    if random.one_in(2) && length >= 2 {
        let at = part.len() - 2;
        put_number_at(&mut part, at, a_number(random, bounds));
    }
    let mut parts = fields.parts();
    parts[index] = &part;
    parts.concat()
}

fn change_number(random: &mut Random, fields: &Fields, bounds: &Bounds) -> Vec<u8> {
    let number = a_number(random, bounds);
    put_number(random, fields, bounds, number)
}

/// Puts FFFF, which only a body can have, or its neighbour, which nothing can.
fn put_undefined(random: &mut Random, fields: &Fields, bounds: &Bounds) -> Vec<u8> {
    let number = random.pick(&[UNDEFINED, UNDEFINED - 1]);
    put_number(random, fields, bounds, number)
}

fn put_number(random: &mut Random, fields: &Fields, bounds: &Bounds, number: u16) -> Vec<u8> {
    let Some(at) = a_number_place(random, fields) else {
        return change_byte(random, fields, bounds);
    };
    let mut bytes = fields.bytes.to_vec();
    put_number_at(&mut bytes, at, number);
    bytes
}

/// Puts a number of a field in the place of another of the same field.
fn copy_number(random: &mut Random, fields: &Fields, bounds: &Bounds) -> Vec<u8> {
    let Some((from, to)) = two_number_places(random, fields) else {
        return change_number(random, fields, bounds);
    };
    let mut bytes = fields.bytes.to_vec();
    let number = number_at(&bytes, from);
    put_number_at(&mut bytes, to, number);
    bytes
}

fn swap_numbers(random: &mut Random, fields: &Fields, bounds: &Bounds) -> Vec<u8> {
    let Some((one, other)) = two_number_places(random, fields) else {
        return change_number(random, fields, bounds);
    };
    let mut bytes = fields.bytes.to_vec();
    bytes.swap(one, other);
    bytes.swap(one + 1, other + 1);
    bytes
}

/// A length about one that is the least or the most for some tag.
fn a_length(random: &mut Random) -> usize {
    match random.below(6) {
        0 => random.below(6),
        5 => random.pick(&[254, 255, 256, 257, 258, 0x100 + 32, 0x2000, 0xFFFF]),
        _ => random.between(30, 37),
    }
}

/// A number at or past some bound, or the head for an abducible.
fn a_number(random: &mut Random, bounds: &Bounds) -> u16 {
    if random.one_in(4) && !bounds.abducibles.is_empty() {
        let last = bounds.abducibles[bounds.abducibles.len() - 1];
        let any = random.pick(&bounds.abducibles);
        return 2 * random.pick(&[last, any]).0 + random.below(2) as u16;
    }
    let n = bounds.atoms;
    let bound = random.pick(&[0, n, 2 * n, 4 * n, 256, 512, 1024]);
    bound.wrapping_sub(2).wrapping_add(random.below(4) as u16)
}

pub(crate) fn number_at(bytes: &[u8], at: usize) -> u16 {
    u16::from_be_bytes([bytes[at], bytes[at + 1]])
}

fn put_number_at(bytes: &mut [u8], at: usize, number: u16) {
    bytes[at..at + 2].copy_from_slice(&number.to_be_bytes());
}

#[cfg(test)]
mod tests {
    use super::*;
    use random::seed::seed;

    #[test]
    fn any_bytes_can_be_damaged() {
        let mut random = Random::new(seed(4));
        let bounds = Bounds {
            atoms: 2,
            abducibles: vec![Atom(1)],
        };
        for length in 0..50 {
            for _ in 0..200 {
                let bytes: Vec<u8> = (0..length).map(|_| random.byte() % 4).collect();
                damaged(&mut random, &bytes, &bounds, 3);
            }
        }
    }
}

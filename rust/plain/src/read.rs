//! Reading the file and the sheet.
//!
//! Field reading goes left to right. For each field the tests are, in this
//! order: heading whole (1), tag (2), count (9), length (3), content whole
//! (1), content (4 to 8). `Reader` makes those up to the content, except for
//! the count, which only rules and integrity rules have.

use crate::field::{Tag, EDITION, HEADING, MOST_ATOMS, MOST_INTEGRITY_RULES, MOST_RULES};
use crate::numbering::{Atom, BodyLiteral, Literal, ObjectiveLiteral};
use crate::program::{Program, Query, Rule};
use crate::refusal::{Number, Paper, Refusal};

/// Reads both papers, the file first.
pub fn read_papers(file: &[u8], sheet: &[u8]) -> Result<(Program, Query), Refusal> {
    let program = read_file(file)?;
    let query = read_sheet(program.atoms, sheet)?;
    Ok((program, query))
}

/// The rest of the refused paper from the place of the refusal, or the empty
/// part at the sheet's end where neither paper is refused.
pub fn rest_of_paper<'p>(file: &'p [u8], sheet: &'p [u8]) -> &'p [u8] {
    match read_papers(file, sheet) {
        Ok(_) => &sheet[sheet.len()..],
        Err(refusal) => match refusal.paper {
            Paper::File => &file[refusal.place..],
            Paper::Sheet => &sheet[refusal.place..],
        },
    }
}

pub fn read_file(file: &[u8]) -> Result<Program, Refusal> {
    let mut reader = Reader::new(Paper::File, file);
    read_edition(&mut reader)?;
    let atoms = read_atom_count(&mut reader)?;
    let abducibles = read_abducibles(&mut reader, atoms)?;

    let mut rules = Vec::new();
    while reader.comes_next(Tag::Rule)? {
        let rule = read_rule(&mut reader, rules.len(), atoms, &abducibles)?;
        rules.push(rule);
    }
    let mut integrity_bodies = Vec::new();
    while reader.comes_next(Tag::IntegrityRule)? {
        let body = read_integrity_rule(&mut reader, integrity_bodies.len(), atoms)?;
        integrity_bodies.push(body);
    }
    read_end(&mut reader)?;

    Ok(Program {
        atoms,
        abducibles,
        rules,
        integrity_bodies,
    })
}

/// Reads the sheet to a file with `atoms` atoms.
pub fn read_sheet(atoms: u16, sheet: &[u8]) -> Result<Query, Refusal> {
    let mut reader = Reader::new(Paper::Sheet, sheet);
    let literals = read_query(&mut reader, atoms)?;
    read_end(&mut reader)?;
    Ok(Query { literals })
}

fn read_edition(reader: &mut Reader) -> Result<(), Refusal> {
    let field = reader.field(Tag::Edition)?;
    field.require(field.content == [EDITION], Number::Edition)
}

fn read_atom_count(reader: &mut Reader) -> Result<u16, Refusal> {
    let field = reader.field(Tag::AtomCount)?;
    let atoms = two_byte_number(field.content);
    field.require((1..=MOST_ATOMS).contains(&atoms), Number::AtomCount)?;
    Ok(atoms)
}

fn read_abducibles(reader: &mut Reader, atoms: u16) -> Result<Vec<Atom>, Refusal> {
    let field = reader.field(Tag::Abducibles)?;
    let mut abducibles: Vec<Atom> = Vec::new();
    for number in field.numbers() {
        let atom = Atom(number);
        field.require(atom.is_listed(atoms), Number::Unlisted)?;
        let is_above = abducibles.last().is_none_or(|&before| atom > before);
        field.require(is_above, Number::Disorder)?;
        abducibles.push(atom);
    }
    Ok(abducibles)
}

/// Reads a rule that has `before` rules before it.
fn read_rule(
    reader: &mut Reader,
    before: usize,
    atoms: u16,
    abducibles: &[Atom],
) -> Result<Rule, Refusal> {
    let heading = reader.heading_of(Tag::Rule)?;
    reader.require(before < MOST_RULES, Number::Overfull)?;
    let field = reader.content_of(Tag::Rule, heading)?;

    let (head, body) = field.content.split_at(2);
    let head = ObjectiveLiteral(two_byte_number(head));
    field.require(head.is_listed(atoms), Number::Unlisted)?;
    field.require(!abducibles.contains(&head.atom()), Number::FixedFault)?;
    let body = read_body(&field, body, atoms)?;
    Ok(Rule { head, body })
}

/// Reads an integrity rule that has `before` integrity rules before it, and
/// gives its body.
fn read_integrity_rule(
    reader: &mut Reader,
    before: usize,
    atoms: u16,
) -> Result<Vec<BodyLiteral>, Refusal> {
    let heading = reader.heading_of(Tag::IntegrityRule)?;
    reader.require(before < MOST_INTEGRITY_RULES, Number::Overfull)?;
    let field = reader.content_of(Tag::IntegrityRule, heading)?;
    read_body(&field, field.content, atoms)
}

fn read_query(reader: &mut Reader, atoms: u16) -> Result<Vec<Literal>, Refusal> {
    let field = reader.field(Tag::Query)?;
    let mut literals = Vec::new();
    for number in field.numbers() {
        let literal = Literal(number);
        field.require(literal.is_listed(atoms), Number::Unlisted)?;
        literals.push(literal);
    }
    Ok(literals)
}

fn read_end(reader: &mut Reader) -> Result<(), Refusal> {
    reader.field(Tag::End)?;
    reader.require(reader.is_at_end(), Number::Tail)
}

/// Reads the body in `part`, which belongs to the content of `field`.
fn read_body(field: &Field, part: &[u8], atoms: u16) -> Result<Vec<BodyLiteral>, Refusal> {
    let mut body = Vec::new();
    for number in two_byte_numbers(part) {
        let literal = BodyLiteral::read(number);
        field.require(literal.is_listed(atoms), Number::Unlisted)?;
        body.push(literal);
    }
    Ok(body)
}

/// A paper and how far it has been read.
struct Reader<'p> {
    paper: Paper,
    bytes: &'p [u8],
    /// The first byte not read yet: where the next field begins.
    place: usize,
}

struct Heading {
    tag: u8,
    length: usize,
}

/// A field whose tag and length are allowed and whose content is whole.
struct Field<'p> {
    paper: Paper,
    place: usize,
    content: &'p [u8],
}

impl<'p> Reader<'p> {
    fn new(paper: Paper, bytes: &'p [u8]) -> Self {
        Reader {
            paper,
            bytes,
            place: 0,
        }
    }

    fn is_at_end(&self) -> bool {
        self.place == self.bytes.len()
    }

    /// Whether the next field, which must have a whole heading, has this tag.
    fn comes_next(&self, tag: Tag) -> Result<bool, Refusal> {
        Ok(self.heading()?.tag == tag.byte())
    }

    /// Reads the next field, which must have this tag, and moves past it.
    fn field(&mut self, tag: Tag) -> Result<Field<'p>, Refusal> {
        let heading = self.heading_of(tag)?;
        self.content_of(tag, heading)
    }

    /// The heading of the next field, which must have this tag.
    fn heading_of(&self, tag: Tag) -> Result<Heading, Refusal> {
        let heading = self.heading()?;
        self.require(heading.tag == tag.byte(), Number::StrayField)?;
        Ok(heading)
    }

    /// The heading of the next field, whatever its tag. Does not move.
    fn heading(&self) -> Result<Heading, Refusal> {
        match self.bytes[self.place..] {
            [tag, high, low, ..] => Ok(Heading {
                tag,
                length: usize::from(u16::from_be_bytes([high, low])),
            }),
            _ => Err(self.refusal(Number::Cut)),
        }
    }

    /// Tests the length of the next field, takes its content and moves past
    /// the field.
    fn content_of(&mut self, tag: Tag, heading: Heading) -> Result<Field<'p>, Refusal> {
        self.require(tag.allows_length(heading.length), Number::Misfit)?;
        let start = self.place + HEADING;
        let end = start + heading.length;
        self.require(end <= self.bytes.len(), Number::Cut)?;
        let field = Field {
            paper: self.paper,
            place: self.place,
            content: &self.bytes[start..end],
        };
        self.place = end;
        Ok(field)
    }

    /// Refuses the next field unless `condition` holds.
    fn require(&self, condition: bool, number: Number) -> Result<(), Refusal> {
        if condition {
            Ok(())
        } else {
            Err(self.refusal(number))
        }
    }

    fn refusal(&self, number: Number) -> Refusal {
        Refusal {
            number,
            paper: self.paper,
            place: self.place,
        }
    }
}

impl Field<'_> {
    /// Refuses this field unless `condition` holds.
    fn require(&self, condition: bool, number: Number) -> Result<(), Refusal> {
        if condition {
            Ok(())
        } else {
            Err(Refusal {
                number,
                paper: self.paper,
                place: self.place,
            })
        }
    }

    fn numbers(&self) -> impl Iterator<Item = u16> + '_ {
        two_byte_numbers(self.content)
    }
}

/// The numbers in `bytes`, which the length test has made even.
fn two_byte_numbers(bytes: &[u8]) -> impl Iterator<Item = u16> + '_ {
    bytes.chunks_exact(2).map(two_byte_number)
}

/// The number that the two `bytes` are, high byte first.
fn two_byte_number(bytes: &[u8]) -> u16 {
    u16::from_be_bytes([bytes[0], bytes[1]])
}

//! Programs typed as Card 4 of document 02 has it: their lines in any order that
//! types them, and any blanks, or none, about their tokens.

use std::iter::repeat_n;

use plain::field::MOST_ATOMS;
use plain::{BodyLiteral, Form, Literal, ObjectiveLiteral, Program};
use random::Random;

use crate::programs::{bodies, without_undefined, Size};

/// A token, or what stands in the place of one.
#[derive(Clone, Copy, Debug, PartialEq, Eq)]
pub enum Typed {
    /// A p and its number, whether it is an atom's or not.
    P(u16),
    Word(&'static str),
}

pub const ABDUCIBLE: Typed = Typed::Word("abducible");
pub const FALSE: Typed = Typed::Word("false");
pub const IF: Typed = Typed::Word(":-");
pub const NOT: Typed = Typed::Word("not");
pub const MINUS: Typed = Typed::Word("-");
pub const COMMA: Typed = Typed::Word(",");
pub const STOP: Typed = Typed::Word(".");

/// The tokens of a line, its full stop last.
pub type Line = Vec<Typed>;

/// A program of this size, but with as many atoms as it types: those up to the
/// greatest that it names, or one. Now and then that is p255. FFFF can't be typed.
pub fn typable(random: &mut Random, size: &Size) -> Program {
    let mut program = without_undefined(random, size);
    if let Some(greatest) = greatest_named(&program) {
        program.atoms = greatest + 1;
        if random.one_in(8) {
            raise_atoms(&mut program, MOST_ATOMS.saturating_sub(greatest + 1));
        }
    } else {
        program.atoms = 1;
    }
    program
}

fn greatest_named(program: &Program) -> Option<u16> {
    let abducibles = program.abducibles.iter().map(|atom| atom.0);
    let heads = program.rules.iter().map(|rule| rule.head.atom().0);
    let literals = program.folds().flat_map(|(_, _, body)| body);
    let in_bodies = literals.map(|&literal| typed(literal).0 / 4);
    abducibles.chain(heads).chain(in_bodies).max()
}

/// Puts so many atoms, which it does not name, before those of the program.
fn raise_atoms(program: &mut Program, by: u16) {
    program.atoms += by;
    for atom in &mut program.abducibles {
        atom.0 += by;
    }
    for rule in &mut program.rules {
        rule.head.0 += 2 * by;
    }
    for literal in bodies(program).flatten() {
        *literal = Literal(typed(*literal).0 + 4 * by).into();
    }
}

/// The literal of a body that is typed.
fn typed(literal: BodyLiteral) -> Literal {
    match literal {
        BodyLiteral::Literal(literal) => literal,
        BodyLiteral::Undefined => panic!("FFFF can't be typed"),
    }
}

fn typed_body(body: &[BodyLiteral]) -> Vec<Literal> {
    body.iter().copied().map(typed).collect()
}

/// Lines that type the program. Its abducibles stand in any order, some more
/// than once, and the three kinds of lines one after the other or mixed.
pub fn lines(random: &mut Random, program: &Program) -> Vec<Line> {
    let mut abducibles = program.abducibles.clone();
    for &atom in &program.abducibles {
        abducibles.extend(repeat_n(atom, random.pick(&[0, 0, 0, 1, 2])));
    }
    random.shuffle(&mut abducibles);
    let declarations = abducibles.iter().map(|atom| declaration(atom.0));
    let rules = program.rules.iter();
    let rules = rules.map(|it| rule(it.head, &typed_body(&it.body)));
    let bodies = program.integrity_bodies.iter();
    let integrity_rules = bodies.map(|body| integrity_rule(&typed_body(body)));
    let kinds = [
        declarations.collect(),
        rules.collect(),
        integrity_rules.collect(),
    ];
    mixed(random, kinds)
}

/// The lines of all kinds, those of a kind in their order.
pub fn mixed(random: &mut Random, kinds: [Vec<Line>; 3]) -> Vec<Line> {
    let counts = kinds.iter().map(Vec::len).enumerate();
    let mut order: Vec<usize> = counts
        .flat_map(|(kind, count)| repeat_n(kind, count))
        .collect();
    match random.below(5) {
        0 => {}
        1 => order.reverse(),
        _ => random.shuffle(&mut order),
    }
    let mut kinds = kinds.map(Vec::into_iter);
    let lines = order.into_iter().filter_map(|kind| kinds[kind].next());
    lines.collect()
}

pub fn declaration(atom: u16) -> Line {
    vec![ABDUCIBLE, Typed::P(atom), STOP]
}

pub fn rule(head: ObjectiveLiteral, body: &[Literal]) -> Line {
    let mut line = vec![];
    put_objective(&mut line, head);
    put_body(&mut line, body);
    line
}

pub fn integrity_rule(body: &[Literal]) -> Line {
    let mut line = vec![FALSE];
    put_body(&mut line, body);
    line
}

fn put_body(line: &mut Line, body: &[Literal]) {
    for (place, &literal) in body.iter().enumerate() {
        line.push(if place == 0 { IF } else { COMMA });
        put_literal(line, literal);
    }
    line.push(STOP);
}

pub fn put_literal(line: &mut Line, literal: Literal) {
    match literal.form() {
        Form::Objective(objective) => put_objective(line, objective),
        Form::Not(objective) => {
            line.push(NOT);
            put_objective(line, objective);
        }
    }
}

fn put_objective(line: &mut Line, objective: ObjectiveLiteral) {
    if objective != ObjectiveLiteral::of(objective.atom()) {
        line.push(MINUS);
    }
    line.push(Typed::P(objective.atom().0));
}

/// What may stand about each token of a text: nothing, the same everywhere, or
/// one of several.
const BLANKS: [&[&str]; 6] = [
    &[""],
    &[" "],
    &["\r\n"],
    &["", "", "", " "],
    &["", " ", "\n", "\r\n"],
    &["", " ", "\r", "\n", " \r ", "\n\n  "],
];

/// The text of these tokens.
pub fn text(random: &mut Random, tokens: &[Typed]) -> Vec<u8> {
    let blanks = random.pick(&BLANKS);
    let mut text = random.pick(blanks).as_bytes().to_vec();
    for token in tokens {
        match token {
            Typed::P(number) => text.extend(format!("p{number}").bytes()),
            Typed::Word(word) => text.extend(word.bytes()),
        }
        text.extend(random.pick(blanks).bytes());
    }
    text
}

#[cfg(test)]
mod tests {
    use super::*;
    use crate::programs::body_of;
    use plain::{import, Atom, Rule};
    use random::seed::seed;
    use std::collections::BTreeSet;

    #[test]
    fn lines_are_those_of_card_4() {
        let objective = ObjectiveLiteral;
        let body = [Literal(6), Literal(1), Literal(3)];
        let mut random = Random::new(seed(21));
        let mut typed = |line: Line| {
            let text = text(&mut random, &line);
            let text = String::from_utf8(text).expect("a text");
            text.replace([' ', '\r', '\n'], "")
        };
        assert_eq!(typed(declaration(4)), "abduciblep4.");
        assert_eq!(typed(rule(objective(6), &body)), "p3:--p1,notp0,not-p0.");
        assert_eq!(typed(rule(objective(3), &[])), "-p1.");
        assert_eq!(typed(integrity_rule(&body[..1])), "false:--p1.");
        assert_eq!(typed(integrity_rule(&[])), "false.");
    }

    #[test]
    fn what_is_typed_is_imported() {
        let mut random = Random::new(seed(22));
        for _ in 0..300 {
            let size = Size::small(&mut random);
            let program = typable(&mut random, &size);
            let lines = lines(&mut random, &program);
            let text = text(&mut random, &lines.concat());
            assert_eq!(
                import(&text).as_ref(),
                Ok(&program),
                "{}",
                text.escape_ascii()
            );
        }
    }

    #[test]
    fn the_atoms_are_those_up_to_the_greatest_named() {
        let mut random = Random::new(seed(23));
        let mut size = Size {
            atoms: 9,
            abducibles: 0,
            rules: 0,
            integrity_rules: 0,
            least_literals: 0,
            most_literals: 0,
        };
        assert_eq!(typable(&mut random, &size).atoms, 1);
        size.abducibles = 9;
        let counts: BTreeSet<u16> = (0..200)
            .map(|_| typable(&mut random, &size).atoms)
            .collect();
        assert_eq!(counts, BTreeSet::from([9, 256]));
    }

    #[test]
    fn raised_atoms_are_other_atoms_in_the_same_places() {
        let mut program = Program {
            atoms: 2,
            abducibles: vec![Atom(1)],
            rules: vec![Rule {
                head: ObjectiveLiteral(1),
                body: body_of(vec![Literal(5), Literal(2)]),
            }],
            integrity_bodies: vec![body_of(vec![Literal(7)])],
        };
        raise_atoms(&mut program, 3);
        let mut random = Random::new(seed(28));
        let text = b"abducible p4. -p3 :- not p4, -p3. false :- not -p4.";
        assert_eq!(import(text), Ok(program.clone()));
        let lines = lines(&mut random, &program).concat();
        assert_eq!(import(&super::text(&mut random, &lines)), Ok(program));
    }
}

//! Random programs and queries, and floors of what is reached with them.

use plain::{Atom, BodyLiteral, Literal, ObjectiveLiteral, Program, Query, Rule};
use random::Random;

/// A program with so many abducibles, at most, and at least one atom besides.
/// It has random rules and, more often than not, a ring of rules. About one body
/// in five holds u.
pub fn program(random: &mut Random, most_abducibles: usize, most_others: usize) -> Program {
    let mut program = without_rules(random, most_abducibles, most_others);
    let heads = heads(&program);
    add_rules(random, &mut program, &heads);
    let integrity_rules = random.below(3);
    add_integrity_rules(random, &mut program, integrity_rules);
    program
}

/// Such a program of which more is explained, and by more: more often than not
/// nothing is both, since no atom and its negation both have rules, and one head has
/// rules of abducible atoms alone. It has integrity rules less often.
pub fn program_to_search(
    random: &mut Random,
    most_abducibles: usize,
    most_others: usize,
) -> Program {
    let mut program = without_rules(random, most_abducibles, most_others);
    let mut heads = heads(&program);
    if !random.one_in(3) {
        heads = heads.chunks(2).map(|pair| random.pick(pair)).collect();
    }
    add_rules(random, &mut program, &heads);
    if !program.abducibles.is_empty() && !random.one_in(4) {
        let head = random.pick(&heads);
        add_ways(random, &mut program, head);
    }
    let integrity_rules = random.below(3).min(random.below(3));
    add_integrity_rules(random, &mut program, integrity_rules);
    program
}

fn without_rules(random: &mut Random, most_abducibles: usize, most_others: usize) -> Program {
    let abducible_count = random.between(0, most_abducibles);
    let atoms = (abducible_count + random.between(1, most_others)) as u16;
    let mut left: Vec<Atom> = (0..atoms).map(Atom).collect();
    while left.len() > abducible_count {
        left.remove(random.below(left.len()));
    }
    Program {
        atoms,
        abducibles: left,
        rules: vec![],
        integrity_bodies: vec![],
    }
}

/// What may head a rule: each atom that is not abducible, with its negation next.
fn heads(program: &Program) -> Vec<ObjectiveLiteral> {
    (0..2 * program.atoms)
        .map(ObjectiveLiteral)
        .filter(|head| !program.abducibles.contains(&head.atom()))
        .collect()
}

fn add_rules(random: &mut Random, program: &mut Program, heads: &[ObjectiveLiteral]) {
    for _ in 0..random.below(3 * heads.len()) {
        let head = random.pick(heads);
        let literals = literals(random, program, 3);
        let body = body(random, literals);
        program.rules.push(Rule { head, body });
    }
    if !random.one_in(3) {
        add_ring(random, program, heads);
    }
}

/// Adds rules of the head with one or two literals, all of abducible atoms.
fn add_ways(random: &mut Random, program: &mut Program, head: ObjectiveLiteral) {
    for _ in 0..random.between(2, 4) {
        let literals = (0..random.between(1, 2))
            .map(|_| literal_of(random, &program.abducibles))
            .collect();
        let body = body(random, literals);
        program.rules.push(Rule { head, body });
    }
}

fn add_integrity_rules(random: &mut Random, program: &mut Program, count: usize) {
    for _ in 0..count {
        let literals = literals(random, program, 2);
        let body = body(random, literals);
        program.integrity_bodies.push(body);
    }
}

/// Adds rules each of whose heads stands in the body of the one before, and the
/// first head in that of the last. Some have one more literal.
fn add_ring(random: &mut Random, program: &mut Program, heads: &[ObjectiveLiteral]) {
    let length = random.between(1, 4);
    let ring: Vec<ObjectiveLiteral> = (0..length).map(|_| random.pick(heads)).collect();
    for (place, &head) in ring.iter().enumerate() {
        let next = ring[(place + 1) % length];
        let mut literals = literals(random, program, 1);
        literals.push(Literal(2 * next.0));
        let body = body(random, literals);
        program.rules.push(Rule { head, body });
    }
}

/// A query, more often than not for the head of a rule.
pub fn query(random: &mut Random, program: &Program) -> Query {
    let mut literals = literals(random, program, 1);
    if !program.rules.is_empty() && !random.one_in(4) {
        let rule = random.below(program.rules.len());
        let head = program.rules[rule].head;
        literals = vec![Literal(2 * head.0 + random.below(2) as u16)];
    }
    Query { literals }
}

/// Whether each count is above the floor.
pub fn are_above(floor: usize, counts: &[usize]) -> bool {
    counts.iter().all(|&count| count > floor)
}

/// A body of these literals and, about one in five times, u before, among or after
/// them.
fn body(random: &mut Random, literals: Vec<Literal>) -> Vec<BodyLiteral> {
    let mut body: Vec<BodyLiteral> = literals.into_iter().map(BodyLiteral::from).collect();
    if random.one_in(5) {
        body.insert(random.between(0, body.len()), BodyLiteral::Undefined);
    }
    body
}

/// At most so many literals, less often none. Every other one, about, is of an
/// abducible atom, where there are any.
fn literals(random: &mut Random, program: &Program, most: usize) -> Vec<Literal> {
    let least = if random.one_in(4) { 0 } else { most.min(1) };
    let all: Vec<Atom> = (0..program.atoms).map(Atom).collect();
    let mut literals = Vec::new();
    for _ in 0..random.between(least, most) {
        let is_any = program.abducibles.is_empty() || random.one_in(2);
        let atoms = if is_any { &all } else { &program.abducibles };
        literals.push(literal_of(random, atoms));
    }
    literals
}

/// Any literal of one of the atoms.
fn literal_of(random: &mut Random, atoms: &[Atom]) -> Literal {
    Literal(4 * random.pick(atoms).0 + random.below(4) as u16)
}

//! Programs of few atoms in which much follows: rings of rules, chains through
//! not, conjugates, and bodies that lead back to abducibles or have FFFF.

use plain::{Atom, BodyLiteral, Form, Literal, ObjectiveLiteral, Program, Query, Rule};
use random::Random;

use crate::programs::{add_undefined, body_of, fails, heads, holds, some_atoms};

/// What makes a program with so many abducibles and other atoms.
pub type Causes = fn(&mut Random, usize, usize) -> Program;

/// A program with so many abducibles and other atoms. Of the latter there is at
/// least one.
pub fn causes(random: &mut Random, abducibles: usize, others: usize) -> Program {
    program(random, abducibles, others, true)
}

/// The same with rules for but one of an atom and its negation: nothing in it is
/// both true and false, so more of it explains.
pub fn consistent_causes(random: &mut Random, abducibles: usize, others: usize) -> Program {
    program(random, abducibles, others, false)
}

fn program(random: &mut Random, abducibles: usize, others: usize, can_contradict: bool) -> Program {
    let atoms = (abducibles + others) as u16;
    let mut program = Program {
        atoms,
        abducibles: some_atoms(random, atoms, abducibles),
        rules: vec![],
        integrity_bodies: vec![],
    };
    let mut heads = heads(atoms, &program.abducibles);
    let most_rules = 2 * heads.len();
    if !can_contradict {
        heads = one_of_each_pair(random, &heads);
    }
    for _ in 0..random.below(most_rules + 1) {
        let head = random.pick(&heads);
        let body = body(random, &program, 3);
        program.rules.push(Rule { head, body });
    }
    if !random.one_in(3) {
        add_ring(random, &mut program, &heads);
    }
    if random.one_in(2) {
        add_chain(random, &mut program, &heads);
    }
    if can_contradict && random.one_in(2) {
        add_conjugates(random, &mut program, &heads);
    }
    random.shuffle(&mut program.rules);
    for _ in 0..random.pick(&[0, 0, 0, 1, 1, 2]) {
        let body = body(random, &program, 2);
        program.integrity_bodies.push(body);
    }
    // A third of them are left without, as in these more explains.
    if !random.one_in(3) {
        add_undefined(random, &mut program, 3);
    }
    program
}

/// Of an atom and its negation, which stand side by side, the one or the other.
fn one_of_each_pair(random: &mut Random, heads: &[ObjectiveLiteral]) -> Vec<ObjectiveLiteral> {
    let pairs = heads.chunks_exact(2);
    pairs.map(|pair| random.pick(pair)).collect()
}

/// A query, most often for heads of rules.
pub fn query_of_heads(random: &mut Random, program: &Program) -> Query {
    let literals = if program.rules.is_empty() || random.one_in(6) {
        literals(random, program, 2)
    } else {
        (0..random.pick(&[1, 1, 1, 2]))
            .map(|_| {
                let rule = random.below(program.rules.len());
                either(random, program.rules[rule].head)
            })
            .collect()
    };
    Query { literals }
}

fn body(random: &mut Random, program: &Program, most: usize) -> Vec<BodyLiteral> {
    body_of(literals(random, program, most))
}

/// At most so many literals, less often none. About every other one is of an
/// abducible atom, where there are any.
fn literals(random: &mut Random, program: &Program, most: usize) -> Vec<Literal> {
    let least = usize::from(!random.one_in(5));
    (0..random.between(least, most))
        .map(|_| {
            let atom = if program.abducibles.is_empty() || random.one_in(2) {
                Atom(random.below(program.atoms.into()) as u16)
            } else {
                random.pick(&program.abducibles)
            };
            Literal(4 * atom.0 + random.below(4) as u16)
        })
        .collect()
}

/// Adds rules each of whose heads stands in the body of the one before, and the
/// first head in that of the last. Some have a way in.
fn add_ring(random: &mut Random, program: &mut Program, heads: &[ObjectiveLiteral]) {
    let ring: Vec<ObjectiveLiteral> = (0..random.between(1, 4))
        .map(|_| random.pick(heads))
        .collect();
    let nexts = ring.iter().cycle().skip(1);
    for (&head, &next) in ring.iter().zip(nexts) {
        let mut body = if random.one_in(3) {
            body(random, program, 1)
        } else {
            vec![]
        };
        body.push(holds(next));
        program.rules.push(Rule { head, body });
    }
    if random.one_in(3) {
        let head = random.pick(&ring);
        let body = body(random, program, 2);
        program.rules.push(Rule { head, body });
    }
}

/// Adds rules each of whose heads holds where the one before does not, so that
/// it takes a round for each.
fn add_chain(random: &mut Random, program: &mut Program, heads: &[ObjectiveLiteral]) {
    let mut before = random.pick(heads);
    let body = body(random, program, 1);
    program.rules.push(Rule { head: before, body });
    for _ in 0..random.between(1, 8) {
        let head = random.pick(heads);
        program.rules.push(Rule {
            head,
            body: vec![fails(before)],
        });
        before = head;
    }
}

/// Adds a rule for each of two conjugates.
fn add_conjugates(random: &mut Random, program: &mut Program, heads: &[ObjectiveLiteral]) {
    let atom = random.pick(heads).atom();
    for head in [
        ObjectiveLiteral::of(atom),
        ObjectiveLiteral::negation_of(atom),
    ] {
        let body = body(random, program, 1);
        program.rules.push(Rule { head, body });
    }
}

fn either(random: &mut Random, objective: ObjectiveLiteral) -> Literal {
    let form = if random.one_in(2) {
        Form::Objective(objective)
    } else {
        Form::Not(objective)
    };
    form.literal()
}

#[cfg(test)]
mod tests {
    use super::*;
    use crate::programs::{has_undefined, mentions_undefined};
    use plain::{encode_file, encode_sheet, model, read_papers, scenario_count};
    use random::seed::seed;

    #[test]
    fn their_papers_are_accepted() {
        let mut random = Random::new(seed(6));
        for round in 0..4_000 {
            let abducibles = round / 2 % 17;
            let others = random.between(1, 5);
            let make = [causes, consistent_causes][round % 2];
            let program = make(&mut random, abducibles, others);
            assert_eq!(program.abducibles.len(), abducibles);
            let query = query_of_heads(&mut random, &program);
            let (file, sheet) = (encode_file(&program), encode_sheet(&query));
            assert_eq!(read_papers(&file, &sheet), Ok((program, query)));
        }
    }

    #[test]
    fn about_one_body_in_five_has_undefined_and_a_third_of_them_have_none() {
        let mut random = Random::new(seed(32));
        let [mut bodies, mut with_undefined, mut without] = [0; 3];
        for _ in 0..1_000 {
            let (abducibles, others) = (random.below(4), random.between(1, 5));
            let program = causes(&mut random, abducibles, others);
            let folds = program.folds();
            with_undefined += folds.filter(|(_, _, body)| has_undefined(body)).count();
            bodies += program.folds().count();
            without += usize::from(!mentions_undefined(&program));
        }
        let about_one_in_five = bodies / 6..bodies / 4;
        assert!(
            about_one_in_five.contains(&with_undefined),
            "{with_undefined} of {bodies}"
        );
        assert!((300..600).contains(&without), "{without} have none");
    }

    /// In how many of 1,000 programs something is both true and false.
    fn contradictory(make: Causes) -> usize {
        let mut random = Random::new(seed(16));
        let is_contradictory = |_: &usize| {
            let (abducibles, others) = (random.below(4), random.between(1, 5));
            let program = make(&mut random, abducibles, others);
            let mut scenarios = 0..scenario_count(&program);
            scenarios.any(|scenario| model(&program, scenario).bytes().contains(&3))
        };
        (0..1_000).filter(is_contradictory).count()
    }

    #[test]
    fn they_contradict_themselves_or_never_do() {
        assert_eq!(contradictory(consistent_causes), 0);
        let count = contradictory(causes);
        assert!(count > 300, "{count} contradict themselves");
    }
}

//! Random programs and queries of a chosen size.

use plain::field::{MOST_ABDUCIBLES, MOST_ATOMS, MOST_INTEGRITY_RULES, MOST_LITERALS, MOST_RULES};
use plain::{Atom, BodyLiteral, Form, Literal, ObjectiveLiteral, Program, Query, Rule};
use random::Random;

/// How large a program and its query are.
#[derive(Clone, Copy, Debug)]
pub struct Size {
    pub atoms: u16,
    pub abducibles: usize,
    pub rules: usize,
    pub integrity_rules: usize,
    /// The least literals in a body or query, and the most.
    pub least_literals: usize,
    pub most_literals: usize,
}

impl Size {
    /// That of the longest papers that are accepted.
    pub const LARGEST: Size = Size {
        atoms: MOST_ATOMS,
        abducibles: MOST_ABDUCIBLES,
        rules: MOST_RULES,
        integrity_rules: MOST_INTEGRITY_RULES,
        least_literals: MOST_LITERALS,
        most_literals: MOST_LITERALS,
    };

    /// That of the programs with the longest dual, whatever is in them.
    pub const LONGEST_DUAL: Size = Size {
        abducibles: 0,
        ..Size::LARGEST
    };

    /// Small as a rule, but now and then at a limit that keeps papers short.
    pub fn small(random: &mut Random) -> Size {
        let mut size = Size {
            atoms: random.between(1, 6) as u16,
            abducibles: random.below(4),
            rules: random.below(5),
            integrity_rules: random.below(3),
            least_literals: 0,
            most_literals: random.below(4),
        };
        if random.one_in(10) {
            size.atoms = random.between(1, MOST_ATOMS.into()) as u16;
        }
        // Where a bound would wrap in a byte.
        if random.one_in(10) {
            size.atoms = random.pick(&[63, 64, 65, 127, 128, 129]);
        }
        if random.one_in(10) {
            size.atoms = MOST_ATOMS - random.below(2) as u16;
        }
        if random.one_in(10) {
            size.atoms = size.atoms.max(20);
            size.abducibles = MOST_ABDUCIBLES - random.below(2);
        }
        if random.one_in(10) {
            size.most_literals = MOST_LITERALS - random.below(2);
        }
        size
    }

    /// As much of one thing, or of all, as a program may have, or about as
    /// much: some sizes are past a limit.
    pub fn around_limits(random: &mut Random) -> Size {
        let mut size = Size::small(random);
        // Else there may be no head left for a rule.
        size.atoms = size.atoms.max(5);
        size.most_literals = random.below(2);
        match random.below(20) {
            0 => size = Size::LARGEST,
            1 => size.atoms = around(random, MOST_ATOMS.into()) as u16,
            2 => {
                size.atoms = size.atoms.max(20);
                size.abducibles = around(random, MOST_ABDUCIBLES);
            }
            3 => size.most_literals = around(random, MOST_LITERALS),
            4..=7 => {
                size.rules = around(random, MOST_RULES);
                size.integrity_rules = around(random, MOST_INTEGRITY_RULES);
            }
            8..=13 => size.rules = around(random, MOST_RULES),
            _ => size.integrity_rules = around(random, MOST_INTEGRITY_RULES),
        }
        size
    }

    /// Small, but with many rules for each head, none of them empty.
    pub fn crowded(random: &mut Random) -> Size {
        let mut size = Size::small(random);
        size.rules = random.below(40);
        size.integrity_rules = random.below(10);
        size.least_literals = 1;
        size.most_literals = size.most_literals.max(1);
        size
    }

    /// One thing less than for the longest dual, all else as much.
    pub fn long_dual(random: &mut Random) -> Size {
        let mut size = Size::LONGEST_DUAL;
        match random.below(5) {
            0 => size.atoms = random.between(1, MOST_ATOMS.into()) as u16,
            1 => size.abducibles = random.between(1, MOST_ABDUCIBLES),
            2 => size.rules = random.below(MOST_RULES),
            3 => size.integrity_rules = random.below(MOST_INTEGRITY_RULES),
            _ => size.least_literals = 1,
        }
        size
    }

    pub fn is_within_limits(&self) -> bool {
        self.atoms <= MOST_ATOMS
            && self.abducibles <= MOST_ABDUCIBLES
            && self.rules <= MOST_RULES
            && self.integrity_rules <= MOST_INTEGRITY_RULES
            && self.most_literals <= MOST_LITERALS
    }
}

/// The limit itself most often, else one below, one above or two above.
fn around(random: &mut Random, limit: usize) -> usize {
    random.pick(&[limit, limit, limit, limit - 1, limit + 1, limit + 2])
}

/// A program of this size, save that it has fewer abducibles where it has not
/// the atoms for them, and no rules where no head is left for them. About one
/// body in five has FFFF, and may be longer for it where there is room.
pub fn program(random: &mut Random, size: &Size) -> Program {
    let mut program = without_undefined(random, size);
    add_undefined(random, &mut program, 5);
    program
}

/// The same without FFFF.
pub fn without_undefined(random: &mut Random, size: &Size) -> Program {
    let abducibles = some_atoms(random, size.atoms, size.abducibles);
    let heads = heads(size.atoms, &abducibles);
    let rules = if heads.is_empty() { 0 } else { size.rules };
    Program {
        atoms: size.atoms,
        abducibles,
        rules: (0..rules)
            .map(|_| Rule {
                head: random.pick(&heads),
                body: body_of(literals(random, size)),
            })
            .collect(),
        integrity_bodies: (0..size.integrity_rules)
            .map(|_| body_of(literals(random, size)))
            .collect(),
    }
}

/// The body of these literals.
pub fn body_of(literals: Vec<Literal>) -> Vec<BodyLiteral> {
    literals.into_iter().map(BodyLiteral::from).collect()
}

pub fn query(random: &mut Random, size: &Size) -> Query {
    Query {
        literals: literals(random, size),
    }
}

/// Empties some bodies, which makes facts of their heads.
pub fn add_facts(random: &mut Random, program: &mut Program) {
    for body in bodies(program) {
        if random.one_in(8) {
            body.clear();
        }
    }
}

/// Puts FFFF into one body in `times`, now and then more than once.
pub fn add_undefined(random: &mut Random, program: &mut Program, times: usize) {
    for body in bodies(program) {
        if random.one_in(times) {
            put_undefined(random, body);
            while random.one_in(4) {
                put_undefined(random, body);
            }
        }
    }
}

/// Puts FFFF at any place of a body: among its literals or for one of them, as it
/// must be where there is no more room.
fn put_undefined(random: &mut Random, body: &mut Vec<BodyLiteral>) {
    let is_full = body.len() >= MOST_LITERALS;
    if is_full || !body.is_empty() && random.one_in(2) {
        let place = random.below(body.len());
        body[place] = BodyLiteral::Undefined;
    } else {
        let place = random.between(0, body.len());
        body.insert(place, BodyLiteral::Undefined);
    }
}

/// All bodies, those of the integrity rules last.
pub fn bodies(program: &mut Program) -> impl Iterator<Item = &mut Vec<BodyLiteral>> {
    let of_rules = program.rules.iter_mut().map(|rule| &mut rule.body);
    of_rules.chain(&mut program.integrity_bodies)
}

/// Whether FFFF is in the body.
pub fn has_undefined(body: &[BodyLiteral]) -> bool {
    body.contains(&BodyLiteral::Undefined)
}

/// Whether FFFF is in any body.
pub fn mentions_undefined(program: &Program) -> bool {
    let mut folds = program.folds();
    folds.any(|(_, _, body)| has_undefined(body))
}

/// So many of the atoms, or all where there are fewer, strictly rising.
pub fn some_atoms(random: &mut Random, atoms: u16, count: usize) -> Vec<Atom> {
    let mut left: Vec<Atom> = (0..atoms).map(Atom).collect();
    while left.len() > count {
        left.remove(random.below(left.len()));
    }
    left
}

/// The objective literals that can head a rule.
pub fn heads(atoms: u16, abducibles: &[Atom]) -> Vec<ObjectiveLiteral> {
    (0..2 * atoms)
        .map(ObjectiveLiteral)
        .filter(|head| !abducibles.contains(&head.atom()))
        .collect()
}

/// The literal o in a body.
pub fn holds(objective: ObjectiveLiteral) -> BodyLiteral {
    Form::Objective(objective).literal().into()
}

/// The literal not(o) in a body.
pub fn fails(objective: ObjectiveLiteral) -> BodyLiteral {
    Form::Not(objective).literal().into()
}

fn literals(random: &mut Random, size: &Size) -> Vec<Literal> {
    let count = if random.one_in(3) {
        size.most_literals
    } else {
        random.between(size.least_literals, size.most_literals)
    };
    (0..count)
        .map(|_| Literal(random.below(4 * usize::from(size.atoms)) as u16))
        .collect()
}

#[cfg(test)]
mod tests {
    use super::*;
    use random::seed::seed;

    #[test]
    fn the_largest_program_makes_the_longest_file() {
        let mut random = Random::new(seed(2));
        let program = program(&mut random, &Size::LARGEST);
        let front = 4 + 5 + (3 + 2 * 16);
        let rules = 1024 * (3 + 2 * 17);
        let integrity_rules = 256 * (3 + 2 * 16);
        let end = 3;
        let file = plain::encode_file(&program);
        assert_eq!(file.len(), front + rules + integrity_rules + end);
        assert!(mentions_undefined(&program));
        assert_eq!(plain::read_file(&file), Ok(program));
    }

    #[test]
    fn a_program_has_the_longest_dual() {
        let mut random = Random::new(seed(5));
        let program = program(&mut random, &Size::LONGEST_DUAL);
        let dual = plain::encode_dual(&plain::dual(&program));
        assert_eq!(dual.len(), 52_488);
        assert!(mentions_undefined(&program));
    }

    #[test]
    fn about_one_body_in_five_has_undefined() {
        let mut random = Random::new(seed(29));
        let [mut all, mut with, mut alone, mut twice] = [0; 4];
        for _ in 0..2_000 {
            let size = Size::crowded(&mut random);
            assert!(!mentions_undefined(&without_undefined(&mut random, &size)));
            for (_, _, body) in program(&mut random, &size).folds() {
                let is_undefined = |literal: &&BodyLiteral| **literal == BodyLiteral::Undefined;
                let count = body.iter().filter(is_undefined).count();
                all += 1;
                with += usize::from(count > 0);
                alone += usize::from(count > 0 && body.len() == 1);
                twice += usize::from(count > 1);
            }
        }
        assert!((all / 6..all / 4).contains(&with), "{with} of {all}");
        let rare = all / 100;
        assert!(alone > rare && twice > rare, "{alone} and {twice} of {all}");
    }

    #[test]
    fn undefined_takes_a_place_where_there_is_no_room() {
        let mut random = Random::new(seed(30));
        for length in 0..=MOST_LITERALS {
            let mut body = vec![BodyLiteral::from(Literal(0)); length];
            for _ in 0..40 {
                put_undefined(&mut random, &mut body);
                assert!(has_undefined(&body));
                assert!((length..=MOST_LITERALS).contains(&body.len()));
            }
        }
    }

    #[test]
    fn where_all_atoms_are_abducible_there_are_no_rules() {
        let mut random = Random::new(seed(3));
        let size = Size {
            atoms: 2,
            abducibles: 3,
            rules: 1,
            integrity_rules: 0,
            least_literals: 0,
            most_literals: 0,
        };
        let program = program(&mut random, &size);
        assert_eq!(program.abducibles, [Atom(0), Atom(1)]);
        assert_eq!(program.rules, []);
    }
}

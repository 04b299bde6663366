//! A program in layers: each atom follows from atoms of the layer before,
//! through not as often as without, so that the rounds settle one layer after
//! the other. The rules stand in any order.

use compare::programs::{fails, holds};
use plain::field::MOST_ATOMS;
use plain::{Atom, BodyLiteral, ObjectiveLiteral, Program, Rule};
use random::Random;

use super::Papers;

const LAYERS: u16 = 16;
const WIDTH: u16 = MOST_ATOMS / LAYERS;
const RULES_OF_AN_ATOM: usize = 4;
const LITERALS: usize = 3;
const SEED: u64 = 1;

pub fn papers() -> Papers {
    let mut random = Random::new(SEED);
    let mut rules: Vec<Rule> = (0..WIDTH).step_by(2).map(fact).collect();
    for atom in WIDTH..MOST_ATOMS {
        for _ in 0..RULES_OF_AN_ATOM {
            rules.push(rule(&mut random, atom));
        }
    }
    random.shuffle(&mut rules);
    let program = Program {
        atoms: MOST_ATOMS,
        abducibles: vec![],
        rules,
        integrity_bodies: vec![],
    };
    Papers::without_query("layers", program)
}

fn fact(atom: u16) -> Rule {
    Rule {
        head: ObjectiveLiteral::of(Atom(atom)),
        body: vec![],
    }
}

fn rule(random: &mut Random, atom: u16) -> Rule {
    let body = (0..LITERALS).map(|_| literal_before(random, atom));
    Rule {
        body: body.collect(),
        ..fact(atom)
    }
}

/// A literal of the layer before that of the atom.
fn literal_before(random: &mut Random, atom: u16) -> BodyLiteral {
    let first = (atom / WIDTH - 1) * WIDTH;
    let chosen = first + random.below(WIDTH.into()) as u16;
    let objective = ObjectiveLiteral::of(Atom(chosen));
    if random.one_in(2) {
        fails(objective)
    } else {
        holds(objective)
    }
}

#[cfg(test)]
mod tests {
    use super::*;
    use plain::model;

    #[test]
    fn each_layer_takes_a_round_and_has_atoms_that_hold_and_that_fail() {
        let program = papers().program;
        assert_eq!(program.rules.len(), 8 + 15 * 16 * 4);
        let model = model(&program, 0);
        assert_eq!(model.rounds, u64::from(LAYERS));
        for layer in model.bytes()[..2 * usize::from(MOST_ATOMS)].chunks(2 * usize::from(WIDTH)) {
            let atoms = layer.iter().step_by(2);
            let holding = atoms.clone().filter(|&&byte| byte == 1).count();
            let failing = atoms.filter(|&&byte| byte == 2).count();
            assert_eq!(holding + failing, WIDTH.into(), "all is decided");
            assert!(holding > 0 && failing > 0, "{holding} hold");
        }
    }

    #[test]
    fn each_rule_is_over_the_layer_before() {
        for Rule { head, body } in papers().program.rules {
            let layer = head.atom().0 / WIDTH;
            for literal in body {
                let atom = ObjectiveLiteral(literal.number() / 2).atom();
                assert_eq!(atom.0 / WIDTH + 1, layer);
            }
        }
    }
}

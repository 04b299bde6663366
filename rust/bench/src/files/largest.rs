//! The largest file: as many atoms, rules, integrity rules and body literals as
//! there can be, the heads and literals at random. Its dual is the longest.

use plain::field::{MOST_ATOMS, MOST_INTEGRITY_RULES, MOST_LITERALS, MOST_RULES};
use plain::{BodyLiteral, Literal, ObjectiveLiteral, Program, Rule};
use random::Random;

use super::Papers;

const SEED: u64 = 1;

pub fn papers() -> Papers {
    let mut random = Random::new(SEED);
    let rules = (0..MOST_RULES).map(|_| Rule {
        head: ObjectiveLiteral(random.below(2 * usize::from(MOST_ATOMS)) as u16),
        body: body(&mut random),
    });
    let rules = rules.collect();
    let integrity_bodies = (0..MOST_INTEGRITY_RULES).map(|_| body(&mut random));
    let program = Program {
        atoms: MOST_ATOMS,
        abducibles: vec![],
        rules,
        integrity_bodies: integrity_bodies.collect(),
    };
    Papers::without_query("largest", program)
}

fn body(random: &mut Random) -> Vec<BodyLiteral> {
    let literals = 4 * usize::from(MOST_ATOMS);
    let any = |_| Literal(random.below(literals) as u16).into();
    (0..MOST_LITERALS).map(any).collect()
}

#[cfg(test)]
mod tests {
    use super::*;
    use plain::dual::LONGEST_DUAL;
    use plain::{dual, encode_dual};

    #[test]
    fn its_dual_is_the_longest() {
        let program = papers().program;
        assert_eq!(encode_dual(&dual(&program)).len(), LONGEST_DUAL);
    }
}

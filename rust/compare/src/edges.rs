//! Programs as large as a file can hold, in the worst orders for passes over
//! their rules.

use plain::field::{MOST_ABDUCIBLES, MOST_ATOMS, MOST_INTEGRITY_RULES, MOST_LITERALS, MOST_RULES};
use plain::{Atom, BodyLiteral, Literal, ObjectiveLiteral, Program, Rule};

/// How many objective literals there are without falsum.
const OBJECTIVE: u16 = 2 * MOST_ATOMS;

/// The program with these rules, padded to as many as there can be, and as many
/// integrity rules.
fn full(mut rules: Vec<Rule>, padding: Rule, integrity_body: Vec<BodyLiteral>) -> Program {
    assert!(rules.len() <= MOST_RULES);
    rules.resize(MOST_RULES, padding);
    Program {
        atoms: MOST_ATOMS,
        abducibles: vec![],
        rules,
        integrity_bodies: vec![integrity_body; MOST_INTEGRITY_RULES],
    }
}

/// A rule with one literal in its body, as often as there is room.
fn repeated(head: u16, literal: BodyLiteral) -> Rule {
    Rule {
        head: ObjectiveLiteral(head),
        body: vec![literal; MOST_LITERALS],
    }
}

fn fact(head: u16) -> Rule {
    Rule {
        head: ObjectiveLiteral(head),
        body: vec![],
    }
}

fn holds(objective: u16) -> BodyLiteral {
    Literal(2 * objective).into()
}

fn fails(objective: u16) -> BodyLiteral {
    Literal(2 * objective + 1).into()
}

/// Fifteen literals of one kind and a last one.
fn with_last(literal: BodyLiteral, last: BodyLiteral) -> Vec<BodyLiteral> {
    let mut body = vec![literal; MOST_LITERALS];
    body[MOST_LITERALS - 1] = last;
    body
}

/// Each objective literal holds where the one before fails: true in round 1,
/// false in 2 and so on; not the last makes falsum true in the last round.
pub fn alternating() -> Program {
    let chain = (1..OBJECTIVE).map(|head| repeated(head, fails(head - 1)));
    let mut rules: Vec<Rule> = [fact(0)].into_iter().chain(chain).collect();
    rules.extend(rules.clone());
    let last_fails = vec![fails(OBJECTIVE - 1); MOST_LITERALS];
    full(rules, fact(0), last_fails)
}

/// How the numbers of the heads go in the file.
pub enum Order {
    Rising,
    Falling,
}

/// Each objective literal holds where that of the next rule does, so that a
/// pass in the file's order gives one head. All are true in round 1 and, having
/// true conjugates, false in 2.
pub fn chain(order: Order) -> Program {
    let mut heads: Vec<u16> = (0..OBJECTIVE).collect();
    if let Order::Falling = order {
        heads.reverse();
    }
    let nexts = heads.iter().skip(1);
    let mut rules: Vec<Rule> = heads
        .iter()
        .zip(nexts)
        .map(|(&head, &next)| repeated(head, holds(next)))
        .collect();
    rules.extend(rules.clone());
    let last = heads[heads.len() - 1];
    full(rules, fact(last), vec![holds(heads[0]); MOST_LITERALS])
}

/// Each objective literal holds where the next does, and the last where the
/// first does: all fail in round 1.
pub fn ring() -> Program {
    let heads = 0..OBJECTIVE;
    let mut rules: Vec<Rule> = heads
        .map(|head| repeated(head, holds((head + 1) % OBJECTIVE)))
        .collect();
    rules.extend(rules.clone());
    full(rules, fact(0), vec![holds(0); MOST_LITERALS])
}

/// The literals of the atoms below 128 alternate, one a round; each round goes
/// through a chain of the other atoms again. All other rules have a literal
/// that fails at the end of their body.
pub fn chain_and_rounds() -> Program {
    let alternating = (1..MOST_ATOMS).map(|head| repeated(head, fails(head - 1)));
    let mut rules: Vec<Rule> = [fact(0)].into_iter().chain(alternating).collect();
    let last = MOST_ATOMS - 2;
    rules.extend((128..last).map(|atom| repeated(2 * atom, holds(2 * (atom + 1)))));
    rules.push(fact(2 * last));
    let body = with_last(holds(2 * last), holds(1));
    let padding = Rule {
        head: ObjectiveLiteral(2 * (MOST_ATOMS - 1)),
        body: body.clone(),
    };
    full(rules, padding, body)
}

/// Chains through not that begin anew with each of the 16 abducibles: their
/// lengths, and so the rounds, differ from scenario to scenario.
pub fn guarded() -> Program {
    let abducibles = MOST_ABDUCIBLES as u16;
    let first = 2 * abducibles;
    let heads = (first + 1..OBJECTIVE).rev();
    let mut rules: Vec<Rule> = heads.map(|head| repeated(head, fails(head - 1))).collect();
    for abducible in 0..abducibles {
        let head = first + 24 * abducible;
        rules.push(repeated(head, holds(2 * abducible)));
        let open = with_last(fails(2 * abducible), fails(2 * abducible + 1));
        rules.push(Rule {
            head: ObjectiveLiteral(head + 9),
            body: open,
        });
    }
    let padding = Rule {
        head: ObjectiveLiteral(OBJECTIVE - 1),
        body: with_last(fails(first + 3), holds(first + 200)),
    };
    Program {
        abducibles: (0..abducibles).map(Atom).collect(),
        ..full(rules, padding, vec![fails(OBJECTIVE - 2); MOST_LITERALS])
    }
}

/// Every objective literal and falsum have FFFF alone, as often as there is room:
/// all stay undefined.
pub fn undefined() -> Program {
    let heads = (0..OBJECTIVE).chain(0..OBJECTIVE);
    let rules = heads.map(|head| repeated(head, BodyLiteral::Undefined));
    let integrity_body = vec![BodyLiteral::Undefined; MOST_LITERALS];
    full(rules.collect(), fact(0), integrity_body)
}

/// Each objective literal follows from that of the next rule, and the last one
/// from FFFF alone; each of the 16 abducibles guards one of them. What stands
/// before one that is ruled out is false, the others undefined.
pub fn undefined_chain() -> Program {
    let abducibles = MOST_ABDUCIBLES as u16;
    let first = 2 * abducibles;
    let last = OBJECTIVE - 1;
    let mut rules: Vec<Rule> = (first..last)
        .map(|head| repeated(head, holds(head + 1)))
        .collect();
    for abducible in 0..abducibles {
        let guarded = &mut rules[usize::from(30 * abducible)];
        guarded.body = with_last(guarded.body[0], holds(2 * abducible));
    }
    rules.extend(rules.clone());
    let padding = repeated(last, BodyLiteral::Undefined);
    let integrity_body = with_last(BodyLiteral::Undefined, holds(first));
    Program {
        abducibles: (0..abducibles).map(Atom).collect(),
        ..full(rules, padding, integrity_body)
    }
}

#[cfg(test)]
mod tests {
    use super::*;
    use crate::programs::{program, Size};
    use plain::dual::LONGEST_DUAL;
    use plain::{dual, encode_dual, encode_file, model, read_file};
    use random::seed::seed;
    use random::Random;

    #[test]
    fn a_file_holds_each_and_no_more() {
        for program in [
            alternating(),
            chain(Order::Rising),
            chain(Order::Falling),
            ring(),
            chain_and_rounds(),
            guarded(),
            undefined(),
            undefined_chain(),
        ] {
            assert_eq!(program.atoms, MOST_ATOMS);
            assert_eq!(program.rules.len(), MOST_RULES);
            assert_eq!(program.integrity_bodies.len(), MOST_INTEGRITY_RULES);
            for (_, _, body) in program.folds() {
                assert!([0, MOST_LITERALS].contains(&body.len()));
            }
            assert_eq!(read_file(&encode_file(&program)), Ok(program));
        }
    }

    #[test]
    fn with_undefined_there_is_the_longest_dual_and_the_longest_file() {
        assert_eq!(encode_dual(&dual(&undefined())).len(), LONGEST_DUAL);
        let largest = program(&mut Random::new(seed(31)), &Size::LARGEST);
        let length = encode_file(&undefined_chain()).len();
        assert_eq!(length, encode_file(&largest).len());
    }

    #[test]
    fn a_chain_from_undefined_fails_up_to_what_is_ruled_out() {
        assert_eq!(model(&undefined(), 0).bytes(), [0; 513]);
        let bytes = model(&undefined_chain(), 2 * 3_u32.pow(7)).bytes();
        let guarded = 32 + 30 * 7;
        let last = bytes.len() - 1;
        assert!(bytes[32..=guarded].iter().all(|&byte| byte == 2));
        assert!(bytes[guarded + 1..last].iter().all(|&byte| byte == 0));
        assert_eq!(bytes[last], 2);
    }
}

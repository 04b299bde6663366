//! Programs as large as a file can hold.

use calls::lent::list_pattern;
use plain::{Atom, BodyLiteral, Literal, ObjectiveLiteral, Program, Query, Rule, State};
use random::seed::seed;
use random::Random;

use crate::holding::fresh;
use crate::lent::{continued, judged};

const OBJECTIVE: u16 = 512;
const RULES: usize = 1_024;
const INTEGRITY_RULES: usize = 256;
const BODY: usize = 16;

fn full(rules: Vec<Rule>, integrity_body: Vec<BodyLiteral>) -> Program {
    assert_eq!(rules.len(), RULES);
    assert_eq!(integrity_body.len(), BODY);
    Program {
        atoms: 256,
        abducibles: vec![],
        rules,
        integrity_bodies: vec![integrity_body; INTEGRITY_RULES],
    }
}

fn in_body(literal: u16) -> BodyLiteral {
    BodyLiteral::Literal(Literal(literal))
}

/// A rule with one literal in its body, as often as there is room.
fn repeated(head: u16, literal: u16) -> Rule {
    Rule {
        head: ObjectiveLiteral(head),
        body: vec![in_body(literal); BODY],
    }
}

fn fact(head: u16) -> Rule {
    Rule {
        head: ObjectiveLiteral(head),
        body: vec![],
    }
}

const NO_QUERY: Query = Query { literals: vec![] };

#[test]
fn as_many_rounds_as_judged_literals() {
    // Each objective literal fails where the one before holds: true in round 1,
    // false in 2 and so on; not the last makes falsum true in round 513.
    let chain = (1..OBJECTIVE).map(|head| repeated(head, 2 * (head - 1) + 1));
    let mut rules: Vec<Rule> = [fact(0)].into_iter().chain(chain).collect();
    rules.extend(rules.clone());
    let last_not = vec![in_body(2 * (OBJECTIVE - 1) + 1); BODY];
    let program = full(rules, last_not);
    let (judgement, model) = judged(&program, &NO_QUERY, 0);
    assert_eq!(judgement.rounds, 513);
    assert!(!judgement.explains);
    let alternating: Vec<u8> = [1, 2].repeat(256).into_iter().chain([1]).collect();
    assert_eq!(model, alternating);
}

#[test]
fn a_chain_of_rules_from_the_last_to_the_first() {
    // Each objective literal holds where the next does, and the last rule is
    // the first to give its head.
    let mut rules: Vec<Rule> = (0..OBJECTIVE - 1)
        .map(|head| repeated(head, 2 * (head + 1)))
        .collect();
    rules.extend(rules.clone());
    rules.extend([fact(OBJECTIVE - 1), fact(OBJECTIVE - 1)]);
    let program = full(rules, vec![in_body(0); BODY]);
    let (judgement, model) = judged(&program, &NO_QUERY, 0);
    assert_eq!(judgement.rounds, 2);
    assert_eq!(model, [3; 513]);
}

#[test]
fn a_chain_and_many_rounds_at_once() {
    // The atoms below 128 alternate as above, the others hold in a chain that
    // each round goes through again. All else is a rule with the failing
    // literal last.
    let mut rules: Vec<Rule> = (1..128)
        .map(|atom| repeated(2 * atom, 4 * (atom - 1) + 1))
        .collect();
    rules.push(fact(0));
    rules.extend((128..255).map(|atom| repeated(2 * atom, 4 * (atom + 1))));
    rules.push(fact(2 * 255));
    let mut fails_last = vec![in_body(4 * 255); BODY - 1];
    fails_last.push(in_body(2));
    while rules.len() < RULES {
        rules.push(Rule {
            head: ObjectiveLiteral(3),
            body: fails_last.clone(),
        });
    }
    let program = full(rules, fails_last);
    let (judgement, model) = judged(&program, &NO_QUERY, 0);
    assert_eq!(judgement.rounds, 128);
    assert!(judgement.explains);
    assert_eq!(model[..4], [1, 2, 2, 2]);
    assert_eq!(model[2 * 127..2 * 129], [2, 2, 1, 2]);
    assert_eq!(model[2 * 255..], [1, 2, 2]);
}

#[test]
fn many_scenarios_of_a_random_program() {
    let mut random = Random::new(seed(17));
    let mut body = |least: usize| -> Vec<BodyLiteral> {
        (0..random.between(least, BODY))
            .map(|_| in_body(random.below(1_024) as u16))
            .collect()
    };
    let program = Program {
        atoms: 256,
        abducibles: (0..16).map(Atom).collect(),
        rules: (0..RULES)
            .map(|rule| Rule {
                head: ObjectiveLiteral(32 + (rule % 480) as u16),
                body: body(0),
            })
            .collect(),
        integrity_bodies: (0..INTEGRITY_RULES).map(|_| body(BODY)).collect(),
    };
    let mut list = list_pattern(3);
    let continued = continued(&program, &NO_QUERY, &mut list, fresh(&program), 500);
    assert_eq!(continued.tried, 500);
    assert_eq!(continued.state, State::Going);
    assert!(continued.rounds > 500);
}

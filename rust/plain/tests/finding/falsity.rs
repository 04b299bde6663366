//! Falsity as the complement of P and from the dual, on random programs with
//! rings, explicit negation and the constant u.

use plain::{
    dual, model, next_false_by_dual, scenario_count, BodyLiteral, Dual, Form, Interpretation,
    JudgedSet, ObjectiveLiteral, Program, Valuation, Value,
};
use random::seed::seed;
use random::Random;

use crate::programs::program;

const PROGRAMS: usize = 4_000;

/// What the random programs reached.
#[derive(Debug, Default)]
struct Reached {
    models: usize,
    /// By byte, without falsum and with abducible literals.
    bytes: [usize; 4],
    falsum: [usize; 4],
    most_rounds: u64,
    /// Rounds in which a least set of backed literals would not do.
    ring_rounds: usize,
    /// Rounds in which falsity would be another if a listed u held.
    undefined_rounds: usize,
}

/// The dual from which falsity would be read if a listed u held: without the folds
/// that list it.
fn if_undefined_held(dual: &Dual) -> Dual {
    let mut dual = dual.clone();
    for entry in &mut dual.entries {
        let foldings = &mut entry.foldings;
        foldings.retain(|folding| !folding.conjugates.contains(&BodyLiteral::Undefined));
    }
    dual
}

/// The mistake to bar: falsity from a least set, where a ring never fails.
fn least_backed(
    program: &Program,
    dual: &Dual,
    valuation: &Valuation,
    true_set: &JudgedSet,
) -> JudgedSet {
    let mut set = JudgedSet::empty(program.atoms);
    let is_backed = |literal: ObjectiveLiteral, set: &JudgedSet| {
        let holds = |literal: &BodyLiteral| match literal {
            BodyLiteral::Literal(literal) => match literal.form() {
                Form::Objective(objective) => true_set.contains(objective),
                Form::Not(objective) => set.contains(objective),
            },
            BodyLiteral::Undefined => false,
        };
        let conjugate = literal.conjugate(program.atoms);
        let mut entries = dual.entries.iter();
        let entry = entries.find(|entry| entry.literal == literal);
        conjugate.is_some_and(|conjugate| true_set.contains(conjugate))
            || valuation.of(literal) == Some(Value::False)
            || entry.is_some_and(|entry| {
                let mut foldings = entry.foldings.iter();
                foldings.all(|folding| folding.conjugates.iter().any(holds))
            })
    };
    while let Some(literal) = ObjectiveLiteral::judged(program.atoms)
        .find(|&literal| !set.contains(literal) && is_backed(literal, &set))
    {
        set.insert(literal);
    }
    set
}

/// Goes through the rounds of the scenario and compares in each.
fn compare(program: &Program, dual: &Dual, scenario: u32, reached: &mut Reached) {
    let valuation = Valuation::new(program, scenario);
    let if_undefined_held = if_undefined_held(dual);
    let mut now = Interpretation::start(program.atoms);
    let mut rounds = 0;
    loop {
        let successor = now.successor(program, &valuation);
        let by_dual = next_false_by_dual(program, dual, &valuation, &now);
        assert_eq!(successor.false_set, by_dual, "{program:?} {scenario}");
        let least = least_backed(program, dual, &valuation, &now.true_set);
        reached.ring_rounds += usize::from(least != by_dual);
        let holding = next_false_by_dual(program, &if_undefined_held, &valuation, &now);
        reached.undefined_rounds += usize::from(holding != by_dual);
        if successor == now {
            break;
        }
        now = successor;
        rounds += 1;
    }
    let judged = 2 * u64::from(program.atoms) + 1;
    assert!(rounds <= 2 * judged);
    let model = model(program, scenario);
    assert_eq!(model.interpretation, now);
    assert_eq!(model.rounds, rounds);

    let bytes = model.bytes();
    let (falsum, others) = bytes.split_last().unwrap();
    reached.models += 1;
    reached.falsum[usize::from(*falsum)] += 1;
    for &byte in others {
        reached.bytes[usize::from(byte)] += 1;
    }
    reached.most_rounds = reached.most_rounds.max(rounds);
}

#[test]
fn both_falsities_agree_on_random_programs() {
    let mut random = Random::new(seed(7));
    let mut reached = Reached::default();
    for _ in 0..PROGRAMS {
        let program = program(&mut random, 3, 5);
        let dual = dual(&program);
        for scenario in 0..scenario_count(&program) {
            compare(&program, &dual, scenario, &mut reached);
        }
    }
    let enough = PROGRAMS / 10;
    assert!(reached.models > PROGRAMS, "{reached:?}");
    assert!(
        reached.bytes.iter().all(|&count| count > enough),
        "{reached:?}"
    );
    assert!(
        reached.falsum.iter().all(|&count| count > enough),
        "{reached:?}"
    );
    assert!(reached.ring_rounds > enough, "{reached:?}");
    assert!(reached.undefined_rounds > enough, "{reached:?}");
    assert!(reached.most_rounds >= 5, "{reached:?}");
}

//! The least and greatest sets of document 01 found among all sets, on random
//! programs with few atoms.

use plain::model::{next_possible, next_true};
use plain::{
    dual, next_false_by_dual, scenario_count, BodyLiteral, Dual, Form, Interpretation, JudgedSet,
    ObjectiveLiteral, Program, Valuation, Value,
};
use random::seed::seed;
use random::Random;

use crate::programs::program;

const PROGRAMS: usize = 600;

/// One round: what T(j+1), P(j+1) and F(j+1) come from.
struct Round<'r> {
    program: &'r Program,
    dual: &'r Dual,
    valuation: &'r Valuation,
    now: &'r Interpretation,
}

fn judged(program: &Program) -> Vec<ObjectiveLiteral> {
    ObjectiveLiteral::judged(program.atoms).collect()
}

/// All sets of judged literals.
fn all_sets(program: &Program) -> Vec<JudgedSet> {
    let judged = judged(program);
    (0..1_u32 << judged.len())
        .map(|choice| {
            let mut set = JudgedSet::empty(program.atoms);
            for (place, &literal) in judged.iter().enumerate() {
                if choice >> place & 1 == 1 {
                    set.insert(literal);
                }
            }
            set
        })
        .collect()
}

impl Round<'_> {
    fn has_conjugate_in_true(&self, literal: ObjectiveLiteral) -> bool {
        let conjugate = literal.conjugate(self.program.atoms);
        conjugate.is_some_and(|conjugate| self.now.true_set.contains(conjugate))
    }

    /// Whether the set holds all that document 01 says that T(j+1) holds.
    fn is_closed_for_true(&self, set: &JudgedSet) -> bool {
        let holds = |literal: &BodyLiteral| match literal {
            BodyLiteral::Literal(literal) => match literal.form() {
                Form::Objective(objective) => set.contains(objective),
                Form::Not(objective) => self.now.false_set.contains(objective),
            },
            BodyLiteral::Undefined => false,
        };
        let given = judged(self.program)
            .into_iter()
            .filter(|&literal| self.valuation.of(literal) == Some(Value::True));
        let heads = self
            .program
            .folds()
            .filter(|(_, _, body)| body.iter().all(holds));
        let mut due = given.chain(heads.map(|(_, head, _)| head));
        due.all(|literal| set.contains(literal))
    }

    /// The same of P(j+1).
    fn is_closed_for_possible(&self, set: &JudgedSet) -> bool {
        let holds = |literal: &BodyLiteral| match literal {
            BodyLiteral::Literal(literal) => match literal.form() {
                Form::Objective(objective) => set.contains(objective),
                Form::Not(objective) => !self.now.true_set.contains(objective),
            },
            BodyLiteral::Undefined => true,
        };
        let values = [Some(Value::True), Some(Value::Undefined)];
        let given = judged(self.program)
            .into_iter()
            .filter(|&literal| values.contains(&self.valuation.of(literal)));
        let heads = self
            .program
            .folds()
            .filter(|(_, _, body)| body.iter().all(holds));
        let mut due = given
            .chain(heads.map(|(_, head, _)| head))
            .filter(|&literal| !self.has_conjugate_in_true(literal));
        due.all(|literal| set.contains(literal))
    }

    /// Whether each literal in the set is backed.
    fn is_backed(&self, set: &JudgedSet) -> bool {
        let holds = |literal: &BodyLiteral| match literal {
            BodyLiteral::Literal(literal) => match literal.form() {
                Form::Objective(objective) => self.now.true_set.contains(objective),
                Form::Not(objective) => set.contains(objective),
            },
            BodyLiteral::Undefined => false,
        };
        let mut members = judged(self.program)
            .into_iter()
            .filter(|&literal| set.contains(literal));
        members.all(|literal| {
            let mut entries = self.dual.entries.iter();
            self.has_conjugate_in_true(literal)
                || self.valuation.of(literal) == Some(Value::False)
                || entries.any(|entry| {
                    let mut foldings = entry.foldings.iter();
                    entry.literal == literal
                        && foldings.all(|folding| folding.conjugates.iter().any(holds))
                })
        })
    }

    /// The set holding what all of these sets hold.
    fn common(&self, sets: &[&JudgedSet]) -> JudgedSet {
        let mut common = JudgedSet::empty(self.program.atoms);
        for literal in judged(self.program) {
            if sets.iter().all(|set| set.contains(literal)) {
                common.insert(literal);
            }
        }
        common
    }

    /// Compares the three sets with those among all sets.
    fn check(&self, all: &[JudgedSet]) {
        let Round {
            program,
            valuation,
            now,
            ..
        } = *self;
        let closed = |is_closed: &dyn Fn(&JudgedSet) -> bool| {
            let closed: Vec<&JudgedSet> = all.iter().filter(|&set| is_closed(set)).collect();
            let least = self.common(&closed);
            assert!(is_closed(&least));
            least
        };
        let least_true = closed(&|set| self.is_closed_for_true(set));
        assert_eq!(next_true(program, valuation, now), least_true);
        let least_possible = closed(&|set| self.is_closed_for_possible(set));
        assert_eq!(next_possible(program, valuation, now), least_possible);

        let mut outside: Vec<JudgedSet> = all.to_vec();
        outside.retain(|set| self.is_backed(set));
        let outside: Vec<JudgedSet> = outside.iter().map(JudgedSet::complement).collect();
        let greatest = self
            .common(&outside.iter().collect::<Vec<_>>())
            .complement();
        let by_dual = next_false_by_dual(program, self.dual, valuation, now);
        assert_eq!(by_dual, greatest);
    }
}

#[test]
fn the_sets_of_each_round_are_least_and_greatest() {
    let mut random = Random::new(seed(11));
    let mut rounds = 0;
    for _ in 0..PROGRAMS {
        let program = program(&mut random, 1, 2);
        let all = all_sets(&program);
        let dual = dual(&program);
        for scenario in 0..scenario_count(&program) {
            let valuation = Valuation::new(&program, scenario);
            let mut now = Interpretation::start(program.atoms);
            loop {
                let round = Round {
                    program: &program,
                    dual: &dual,
                    valuation: &valuation,
                    now: &now,
                };
                round.check(&all);
                rounds += 1;
                let successor = now.successor(&program, &valuation);
                if successor == now {
                    break;
                }
                now = successor;
            }
        }
    }
    assert!(rounds > 2 * PROGRAMS, "{rounds} rounds");
}

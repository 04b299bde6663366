//! The files that are measured: causes, effects that follow from them, and a
//! query for some of these.
//!
//! Each effect follows from causes and from effects before it, so that much can
//! be derived; some effects stand in rings, some rules are for the explicit
//! negation of an effect, and integrity rules bar causes that exclude each
//! other. All of it comes from a seed.

use compare::programs::{fails, holds};
use plain::{Atom, BodyLiteral, Form, ObjectiveLiteral, Program, Query, Rule};
use random::Random;

use super::Papers;

/// What a file is made from.
#[derive(Clone, Copy)]
pub struct Shape {
    pub name: &'static str,
    /// The first atoms are causes, of which the first are abducible.
    pub causes: u16,
    pub abducibles: u16,
    /// The other atoms.
    pub effects: u16,
    pub rules: usize,
    pub integrity_rules: usize,
    pub seed: u64,
    /// The effect that the query asks for, and the one that must fail.
    pub seen: u16,
    pub unseen: u16,
}

pub const SMALL: Shape = Shape {
    name: "small",
    causes: 6,
    abducibles: 6,
    effects: 10,
    rules: 24,
    integrity_rules: 3,
    seed: 21,
    seen: 9,
    unseen: 6,
};

pub const MIDDLE: Shape = Shape {
    name: "middle",
    causes: 13,
    abducibles: 10,
    effects: 40,
    rules: 120,
    integrity_rules: 12,
    seed: 10,
    seen: 38,
    unseen: 30,
};

pub const LARGE: Shape = Shape {
    name: "large",
    causes: 8,
    abducibles: 8,
    effects: 240,
    rules: 1_024,
    integrity_rules: 24,
    seed: 6,
    seen: 239,
    unseen: 237,
};

/// With so many abducibles that a search is long. The causes change with them,
/// and so do the rules, but not what there is of them.
pub const SMALL_12: Shape = Shape {
    name: "small 12",
    causes: 12,
    abducibles: 12,
    ..SMALL
};

pub const MIDDLE_12: Shape = Shape {
    name: "middle 12",
    abducibles: 12,
    ..MIDDLE
};

impl Shape {
    pub fn papers(&self) -> Papers {
        let seen = Form::Objective(effect(self, self.seen));
        let unseen = Form::Not(effect(self, self.unseen));
        let query = Query {
            literals: vec![seen.literal(), unseen.literal()],
        };
        Papers::new(self.name, program(self), query)
    }
}

fn program(shape: &Shape) -> Program {
    let mut random = Random::new(shape.seed);
    let mut rules = rings(&mut random, shape);
    while rules.len() < shape.rules {
        rules.push(rule(&mut random, shape));
    }
    random.shuffle(&mut rules);
    Program {
        atoms: shape.causes + shape.effects,
        abducibles: (0..shape.abducibles).map(Atom).collect(),
        rules,
        integrity_bodies: (0..shape.integrity_rules)
            .map(|_| integrity_body(&mut random, shape))
            .collect(),
    }
}

/// Rings of three effects, one for each twelve rules. Each has a way in from
/// the other rules of its effects, if there are any.
fn rings(random: &mut Random, shape: &Shape) -> Vec<Rule> {
    let mut rules = Vec::new();
    for _ in 0..shape.rules / 12 {
        let first = random.below(usize::from(shape.effects) - 2) as u16;
        for place in 0..3 {
            let next = effect(shape, first + (place + 1) % 3);
            rules.push(Rule {
                head: effect(shape, first + place),
                body: vec![holds(next)],
            });
        }
    }
    rules
}

/// A rule for an effect, or now and then for its explicit negation, with one to
/// four literals in its body.
fn rule(random: &mut Random, shape: &Shape) -> Rule {
    let number = random.below(shape.effects.into()) as u16;
    let mut head = effect(shape, number);
    if random.one_in(12) {
        head.0 += 1;
    }
    let body = (0..random.pick(&[1, 2, 2, 2, 3, 3, 4]))
        .map(|_| literal(random, shape, number))
        .collect();
    Rule { head, body }
}

/// A literal of a cause, or of an effect before this one; every fourth is with
/// not, and every sixth of an explicit negation.
fn literal(random: &mut Random, shape: &Shape, before: u16) -> BodyLiteral {
    let mut objective = if before == 0 || random.one_in(3) {
        cause(random, shape)
    } else {
        effect(shape, random.below(before.into()) as u16)
    };
    if random.one_in(6) {
        objective.0 += 1;
    }
    if random.one_in(4) {
        fails(objective)
    } else {
        holds(objective)
    }
}

/// Two causes that exclude each other where an effect is seen.
fn integrity_body(random: &mut Random, shape: &Shape) -> Vec<BodyLiteral> {
    let effect = effect(shape, random.below(shape.effects.into()) as u16);
    let causes = [cause(random, shape), cause(random, shape)];
    vec![holds(causes[0]), holds(causes[1]), holds(effect)]
}

fn cause(random: &mut Random, shape: &Shape) -> ObjectiveLiteral {
    ObjectiveLiteral::of(Atom(random.below(shape.causes.into()) as u16))
}

fn effect(shape: &Shape, number: u16) -> ObjectiveLiteral {
    ObjectiveLiteral::of(Atom(shape.causes + number))
}

#[cfg(test)]
mod tests {
    use super::*;
    use compare::judged::Judged;
    use plain::{explanations, minimal_explanations, model, read_papers, Held, Judgement};

    const SHAPES: [Shape; 5] = [SMALL, MIDDLE, LARGE, SMALL_12, MIDDLE_12];

    /// Some scenarios of a file, judged.
    fn some_judged(papers: &Papers) -> Vec<Judged> {
        let (program, query) = read_papers(&papers.file, &papers.sheet).expect("accepted");
        // No power of 3 divides the step, so that all digits change.
        let step = papers.scenarios as usize / 243 + 1;
        let scenarios = (0..papers.scenarios).step_by(step);
        scenarios
            .map(|scenario| Judged {
                judgement: Judgement::of(&program, &query, scenario),
                model: model(&program, scenario).bytes(),
                program: program.clone(),
                query: query.clone(),
                scenario,
            })
            .collect()
    }

    #[test]
    fn the_files_are_as_large_as_they_say() {
        let sizes = SHAPES.map(|shape| {
            let Program {
                rules, abducibles, ..
            } = shape.papers().program;
            assert!(rules.iter().all(|rule| (1..=4).contains(&rule.body.len())));
            (rules.len(), abducibles.len())
        });
        let expected = [(24, 6), (120, 10), (1_024, 8), (24, 12), (120, 12)];
        assert_eq!(sizes, expected);
    }

    #[test]
    fn rings_and_explicit_negation_matter_in_each_file() {
        for shape in SHAPES {
            let papers = shape.papers();
            let judged = some_judged(&papers);
            let ring = |it: &&Judged| it.has_failing_ring();
            let negation = |it: &&Judged| {
                let effects = &it.model[2 * usize::from(shape.causes)..];
                effects.chunks(2).any(|pair| pair.get(1) == Some(&1))
            };
            let rings = judged.iter().filter(ring).count();
            let negations = judged.iter().filter(negation).count();
            assert!(rings > 5, "{}: {rings} rings fail", shape.name);
            assert!(negations > 5, "{}: {negations} hold", shape.name);
        }
    }

    #[test]
    fn the_small_query_has_some_explanations_but_few() {
        let papers = SMALL.papers();
        let (program, query) = read_papers(&papers.file, &papers.sheet).expect("accepted");
        let all = explanations(&program, &query, Held::NONE);
        let minimal = minimal_explanations(&program, &query, Held::NONE);
        assert_eq!((all.len(), minimal.len()), (40, 6));
    }
}

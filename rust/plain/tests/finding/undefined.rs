//! Clauses nobody can settle: the constant u, Card 5 of document 02.

use calls::lent::list_pattern;
use plain::{
    desk, encode_file, explanations, minimal_explanations, model, scenario_count, BodyLiteral,
    Continued, Form, Held, Model, ObjectiveLiteral, Program, Query, Rule, State,
};
use random::seed::seed;
use random::Random;

use crate::hand::bytes;
use crate::holding::{at, fresh};
use crate::lent::{continued, judged};
use crate::programs;
use crate::text::{program, query};

const NO_QUERY: Query = Query { literals: vec![] };

const PROGRAMS: usize = 2_000;

/// The model's bytes of the program without abducibles.
fn model_of(atoms: &str, rules: &str) -> Vec<u8> {
    judged(&program(atoms, "", rules), &NO_QUERY, 0).1
}

#[test]
fn a_head_whose_body_is_the_constant_is_undefined() {
    assert_eq!(model_of("p", "p :- undefined"), [0, 2, 2]);
    assert_eq!(model_of("p", "-p :- undefined"), [2, 0, 2]);
    assert_eq!(model_of("p", "p :- undefined, undefined"), [0, 2, 2]);
    // What is read from it, by not or without, is undefined too.
    let read = "p :- undefined; q :- p; r :- not p; falsum :- q, r";
    assert_eq!(model_of("p q r", read), [0, 2, 0, 2, 0, 2, 0]);
}

#[test]
fn the_constant_and_its_own_negation_have_the_same_model() {
    let of = |rules| model(&program("p", "", rules), 0);
    let by_constant = of("p :- undefined");
    assert_eq!(by_constant, of("p :- not p"));
    assert_eq!(by_constant.rounds, 1);
}

#[test]
fn a_false_literal_beside_the_constant_makes_the_head_false() {
    // q has no rule.
    for body in ["undefined, q", "q, undefined", "undefined, q, undefined"] {
        let rules = format!("p :- {body}");
        assert_eq!(model_of("p q", &rules), [2; 5], "{body}");
    }
    assert_eq!(model_of("q p", "q; p :- undefined, not q")[2], 2);
    // Any other leaves it undefined.
    assert_eq!(model_of("q p", "q; p :- undefined, q")[2], 0);
    assert_eq!(model_of("q p", "p :- not q, undefined")[2], 0);
    assert_eq!(model_of("q p", "q :- not q; p :- undefined, q")[2], 0);
}

#[test]
fn the_constant_bars_no_other_rule() {
    assert_eq!(model_of("p", "p :- undefined; p"), [1, 2, 2]);
    assert_eq!(model_of("p", "p; p :- undefined"), [1, 2, 2]);
    assert_eq!(model_of("p q", "p :- undefined; p :- q")[0], 0);
}

#[test]
fn where_all_rests_on_the_constant_there_is_no_round() {
    let rules = "p :- undefined; -p :- undefined; falsum :- undefined";
    let model = model(&program("p", "", rules), 0);
    assert_eq!(model.bytes(), [0, 0, 0]);
    assert_eq!(model.rounds, 0);
}

#[test]
fn an_explicit_negation_makes_the_head_false() {
    assert_eq!(model_of("p", "p :- undefined; -p"), [2, 1, 2]);
    // What is only undefined does not.
    let both = "p :- undefined; -p :- undefined";
    assert_eq!(model_of("p", both), [0, 0, 2]);
}

#[test]
fn a_ring_with_the_constant_fails_unless_there_is_a_way_in() {
    let ring = "p :- q, undefined; q :- p";
    assert_eq!(model_of("p q", ring), [2; 5]);
    // From a fact the constant lets nothing true pass.
    let way_in = format!("{ring}; q");
    assert_eq!(model_of("p q", &way_in), [0, 2, 1, 2, 2]);
}

/// Searches with room for all, and checks that exactly these are found.
fn finds(rules: &str, text: &str, found: &[u32]) {
    let atoms = "p a";
    let (program, query) = (program(atoms, "a", rules), query(atoms, text));
    let minimal = minimal_explanations(&program, &query, Held::NONE);
    assert_eq!(minimal, found, "{rules}");
    let mut list = list_pattern(3);
    let given = continued(&program, &query, &mut list, fresh(&program), u32::MAX);
    let expected = Continued {
        record: at(3, found.len() as u32),
        tried: 3,
        rounds: (0..3)
            .map(|scenario| model(&program, scenario).rounds)
            .sum(),
        state: State::Ended,
    };
    assert_eq!(given, expected, "{rules}");
    assert_eq!(list[..found.len()], *found, "{rules}");
}

#[test]
fn nothing_is_an_explanation_where_falsum_rests_on_the_constant() {
    let rules = "p :- a; falsum :- undefined";
    let program = program("p a", "a", rules);
    for scenario in 0..3 {
        let (judgement, model) = judged(&program, &NO_QUERY, scenario);
        assert_eq!(model.last(), Some(&0), "{scenario}");
        assert!(!judgement.explains, "{scenario}");
    }
    assert_eq!(explanations(&program, &NO_QUERY, Held::NONE), []);
    for text in ["", "p", "a", "-a", "not p"] {
        finds(rules, text, &[]);
    }
    let (file, sheet) = (encode_file(&program), bytes(&["06 0000 7F 0000"]));
    let expected = "atoms 2 abducibles 1 scenarios 3\nended tried 3 rounds 3\n";
    assert_eq!(desk(Some(&file), Some(&sheet)), expected);
}

#[test]
fn falsum_is_false_where_another_literal_of_its_rule_is() {
    // Only with a ruled out is it.
    finds("falsum :- a, undefined", "", &[2]);
    finds("falsum :- undefined, not a", "", &[1]);
    finds("falsum :- undefined, p", "", &[0]);
    finds("falsum :- undefined, p; falsum :- undefined", "", &[]);
}

#[test]
fn what_rests_on_the_constant_is_never_explained() {
    for rules in ["p :- undefined", "p :- a, undefined"] {
        finds(rules, "p", &[]);
    }
    finds("p :- undefined", "not p", &[]);
    finds("p :- undefined", "not -p", &[0]);
    finds("p :- a, undefined", "not p", &[2]);
    finds("p :- a, undefined; p :- not a", "p", &[2]);
}

/// The program with a further atom in place of u: x, whose one rule is x :- not x.
/// Its number, falsum's before, is no other's. Each u becomes x or not(x).
fn with_atom_for_undefined(random: &mut Random, program: &Program) -> Program {
    let atom = ObjectiveLiteral::falsum(program.atoms);
    let forms = [Form::Objective(atom), Form::Not(atom)];
    let mut program = program.clone();
    program.atoms += 1;
    let in_rules = program.rules.iter_mut().map(|rule| &mut rule.body);
    for body in in_rules.chain(&mut program.integrity_bodies) {
        for literal in body {
            if *literal == BodyLiteral::Undefined {
                *literal = random.pick(&forms).literal().into();
            }
        }
    }
    program.rules.push(Rule {
        head: atom,
        body: vec![Form::Not(atom).literal().into()],
    });
    program
}

/// The bytes of all but x and -x, which are undefined and false.
fn bytes_without_atom(model: &Model) -> Vec<u8> {
    let mut bytes = model.bytes();
    let falsum = bytes.pop();
    let negation = bytes.pop();
    let atom = bytes.pop();
    assert_eq!((atom, negation), (Some(0), Some(2)));
    bytes.extend(falsum);
    bytes
}

#[test]
fn the_constant_is_as_an_atom_that_rests_on_its_own_negation() {
    let mut random = Random::new(seed(51));
    let (mut bodies, mut with_undefined) = (0, 0);
    for _ in 0..PROGRAMS {
        let program = programs::program(&mut random, 2, 4);
        for (_, _, body) in program.folds() {
            bodies += 1;
            with_undefined += usize::from(body.contains(&BodyLiteral::Undefined));
        }
        let other = with_atom_for_undefined(&mut random, &program);
        for scenario in 0..scenario_count(&program) {
            let model = model(&program, scenario);
            let of_other = plain::model(&other, scenario);
            assert_eq!(model.bytes(), bytes_without_atom(&of_other), "{program:?}");
            // -x is false in the first round, in which there may be nothing else.
            assert_eq!(model.rounds.max(1), of_other.rounds, "{program:?}");
        }
    }
    assert!(bodies > PROGRAMS, "{bodies}");
    let about_one_in_five = 4 * with_undefined..6 * with_undefined;
    assert!(about_one_in_five.contains(&bodies), "{with_undefined}");
}

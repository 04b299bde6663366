//! Texts with as much of something as there may be, or more, and with rules that
//! abducibles head: what the file's own numbers refuse.

use plain::field::{MOST_ABDUCIBLES, MOST_INTEGRITY_RULES, MOST_LITERALS, MOST_RULES};
use plain::{Literal, ObjectiveLiteral};
use random::Random;

use crate::typing::{
    declaration, integrity_rule, mixed, put_literal, rule, Line, Typed, ABDUCIBLE, COMMA, FALSE,
    IF, MINUS, STOP,
};

/// One way to add to lines that are well formed.
type Excess = fn(&mut Random, &mut Vec<Line>);

const EXCESSES: [Excess; 6] = [
    lengthen_rule,
    lengthen_integrity_rule,
    add_abducibles,
    declare_head,
    declare_head,
    head_declared,
];

/// Adds to the lines in so many ways. With more than one the order of the tests
/// shows.
pub fn exceed(random: &mut Random, lines: &mut Vec<Line>, times: usize) {
    for _ in 0..times {
        random.pick(&EXCESSES)(random, lines);
    }
}

/// Gives a rule a body of about as many literals as there may be, or more.
fn lengthen_rule(random: &mut Random, lines: &mut Vec<Line>) {
    let at = one_of(random, lines, |line| head_of(line).is_some()).unwrap_or_else(|| {
        let head = ObjectiveLiteral(random.below(512) as u16);
        insert(random, lines, rule(head, &[]))
    });
    lengthen(random, &mut lines[at]);
}

/// The same for an integrity rule.
fn lengthen_integrity_rule(random: &mut Random, lines: &mut Vec<Line>) {
    let at = one_of(random, lines, |line| line.first() == Some(&FALSE))
        .unwrap_or_else(|| insert(random, lines, integrity_rule(&[])));
    lengthen(random, &mut lines[at]);
}

fn lengthen(random: &mut Random, line: &mut Line) {
    let count = match random.below(12) {
        0 => MOST_LITERALS,
        1 | 2 => MOST_LITERALS + 2 + random.below(3),
        3 => random.between(255, 256 + MOST_LITERALS),
        _ => MOST_LITERALS + 1,
    };
    with_literals(random, line, count);
}

/// Lengthens the body of a line to so many literals.
pub fn with_literals(random: &mut Random, line: &mut Line, count: usize) {
    line.pop();
    let has_body = line.contains(&IF);
    let commas = line.iter().filter(|&&token| token == COMMA).count();
    let before = if has_body { 1 + commas } else { 0 };
    for place in before..count {
        line.push(if place == 0 { IF } else { COMMA });
        put_literal(line, Literal(random.below(24) as u16));
    }
    line.push(STOP);
}

/// Declares abducibles until there are about as many different ones as there may
/// be, or more, and some of them again.
fn add_abducibles(random: &mut Random, lines: &mut Vec<Line>) {
    let most = MOST_ABDUCIBLES;
    let count = random.pick(&[most, most + 1, most + 1, most + 1, most + 2]);
    let mut declared: Vec<u16> = lines.iter().filter_map(declared).collect();
    declared.sort_unstable();
    declared.dedup();
    while declared.len() < count {
        let atom = random.below(256) as u16;
        if !declared.contains(&atom) {
            declared.push(atom);
            insert(random, lines, declaration(atom));
        }
        if random.one_in(4) {
            let again = random.pick(&declared);
            insert(random, lines, declaration(again));
        }
    }
}

/// Declares the atom of a head, where there is one.
fn declare_head(random: &mut Random, lines: &mut Vec<Line>) {
    let heads: Vec<u16> = lines.iter().filter_map(head_of).collect();
    if !heads.is_empty() {
        let atom = random.pick(&heads);
        insert(random, lines, declaration(atom));
    }
}

/// Adds a rule that an abducible or its negation heads, where one is declared.
fn head_declared(random: &mut Random, lines: &mut Vec<Line>) {
    let declared: Vec<u16> = lines.iter().filter_map(declared).collect();
    if !declared.is_empty() {
        let atom = random.pick(&declared);
        let head = ObjectiveLiteral(2 * atom + random.below(2) as u16);
        let body = vec![Literal(0); random.below(3)];
        insert(random, lines, rule(head, &body));
    }
}

/// The atom that the line declares.
fn declared(line: &Line) -> Option<u16> {
    match line[..] {
        [ABDUCIBLE, Typed::P(atom), ..] => Some(atom),
        _ => None,
    }
}

/// The atom of the head, where the line is a rule.
fn head_of(line: &Line) -> Option<u16> {
    match line[..] {
        [Typed::P(atom), ..] | [MINUS, Typed::P(atom), ..] => Some(atom),
        _ => None,
    }
}

/// Any of these lines, where there is one.
fn one_of(random: &mut Random, lines: &[Line], is_one: impl Fn(&Line) -> bool) -> Option<usize> {
    let places = 0..lines.len();
    let these: Vec<usize> = places.filter(|&at| is_one(&lines[at])).collect();
    (!these.is_empty()).then(|| random.pick(&these))
}

/// Puts the line anywhere among the others, and tells where.
fn insert(random: &mut Random, lines: &mut Vec<Line>, line: Line) -> usize {
    let at = random.between(0, lines.len());
    lines.insert(at, line);
    at
}

/// So many atoms head the rules of a crowded text; others are declared.
const HEADS: usize = 10;

/// A text with as many rules or integrity rules as there may be or with one more,
/// or so with both. Every other time there is more wrong with the one past the
/// limit.
pub fn crowded(random: &mut Random) -> Vec<Line> {
    let [mut declarations, mut rules, mut integrity_rules] = [vec![], vec![], vec![]];
    for _ in 0..random.below(3) {
        declarations.push(declaration(no_head(random)));
    }
    let which = random.below(3);
    if which != 0 {
        rules = many_rules(random, &mut declarations);
    }
    if which != 1 {
        integrity_rules = many_integrity_rules(random);
    }
    mixed(random, [declarations, rules, integrity_rules])
}

fn many_rules(random: &mut Random, declarations: &mut Vec<Line>) -> Vec<Line> {
    let mut rules: Vec<Line> = (0..MOST_RULES).map(|_| a_fact(random)).collect();
    if random.one_in(3) {
        return rules;
    }
    let mut past = a_fact(random);
    if random.one_in(3) {
        // No rule before it has this head.
        let atom = no_head(random);
        past = rule(ObjectiveLiteral(2 * atom + random.below(2) as u16), &[]);
        declarations.push(declaration(atom));
    }
    if random.one_in(3) {
        lengthen(random, &mut past);
    }
    rules.push(past);
    rules
}

fn many_integrity_rules(random: &mut Random) -> Vec<Line> {
    let mut rules = vec![integrity_rule(&[]); MOST_INTEGRITY_RULES];
    if random.one_in(3) {
        return rules;
    }
    let mut past = integrity_rule(&[]);
    if random.one_in(2) {
        lengthen(random, &mut past);
    }
    rules.push(past);
    rules
}

fn a_fact(random: &mut Random) -> Line {
    let head = random.below(2 * HEADS);
    rule(ObjectiveLiteral(head as u16), &[])
}

/// An atom that heads none of those rules that there may be.
fn no_head(random: &mut Random) -> u16 {
    random.between(HEADS, 255) as u16
}

/// The literals of bodies that are about as long as two bytes can count literals
/// or bytes, or longer.
pub const LONG_BODIES: [usize; 7] = [32_767, 32_768, 32_775, 40_000, 65_535, 65_536, 65_544];

#[cfg(test)]
mod tests {
    use super::*;
    use crate::typing;
    use plain::{import, Number};
    use random::seed::seed;

    #[test]
    fn what_exceeds_is_refused_by_the_numbers_of_the_file() {
        let mut random = Random::new(seed(24));
        let mut refused = 0;
        for _ in 0..500 {
            let mut lines = vec![];
            exceed(&mut random, &mut lines, 2);
            let text = typing::text(&mut random, &lines.concat());
            if let Err(refusal) = import(&text) {
                let own = [Number::Misfit, Number::FixedFault];
                assert!(own.contains(&refusal.number), "{refusal}");
                refused += 1;
            }
        }
        assert!(refused > 200, "{refused}");
    }

    #[test]
    fn what_is_crowded_is_accepted_or_refused_by_9() {
        let mut random = Random::new(seed(25));
        let mut accepted = 0;
        for _ in 0..50 {
            let lines = crowded(&mut random);
            let text = typing::text(&mut random, &lines.concat());
            match import(&text) {
                Ok(_) => accepted += 1,
                Err(refusal) => assert_eq!(refusal.number, Number::Overfull, "{refusal}"),
            }
        }
        assert!((1..50).contains(&accepted), "{accepted}");
    }

    #[test]
    fn a_body_is_as_long_as_asked_for() {
        let mut random = Random::new(seed(26));
        for mut line in [
            rule(ObjectiveLiteral(1), &[Literal(3)]),
            integrity_rule(&[]),
        ] {
            for count in [16, 17, 300] {
                with_literals(&mut random, &mut line, count);
                let tokens = line.iter();
                let parts = tokens.filter(|token| [IF, COMMA].contains(token));
                assert_eq!(parts.count(), count);
                assert_eq!(line.last(), Some(&STOP));
            }
        }
    }
}

//! Programs whose one scenario takes as long as any that was found: in each of
//! 1,020 rounds a chain that has come one link further is gone through again.
//!
//! The chain goes through all atoms but one and back through their explicit
//! negations. A link is true where the one before is true and the conjugate of
//! that one false; as nothing but a true link makes its conjugate false, and
//! only a round later, each link takes two rounds.

use compare::programs::{fails, holds};
use plain::field::{MOST_ATOMS, MOST_INTEGRITY_RULES, MOST_LITERALS, MOST_RULES};
use plain::{Atom, BodyLiteral, ObjectiveLiteral, Program, Rule};

use super::Papers;

/// The atom that is not in the chain.
const SPARE: Atom = Atom(MOST_ATOMS - 1);

/// The links, the first of which is a fact. The atoms fall, so that a pass over
/// the dual, which has them rising, goes against the chain.
fn links() -> Vec<ObjectiveLiteral> {
    let there = (0..SPARE.0).rev().map(Atom).map(ObjectiveLiteral::of);
    let back = (0..SPARE.0).map(Atom).map(ObjectiveLiteral::negation_of);
    there.chain(back).collect()
}

/// The rule of each link but the first, with what its body begins with. They
/// stand against the chain, so that a pass in the file's order gives one link.
fn against_the_chain(links: &[ObjectiveLiteral], begin: &[BodyLiteral]) -> Vec<Rule> {
    let pairs = links.windows(2).rev();
    pairs
        .map(|pair| {
            let conjugate = pair[0].conjugate(MOST_ATOMS).expect("no link is falsum");
            let follows = [fails(conjugate), holds(pair[0])];
            Rule {
                head: pair[1],
                body: [begin, &follows].concat(),
            }
        })
        .collect()
}

fn fact(head: ObjectiveLiteral) -> Rule {
    Rule { head, body: vec![] }
}

/// The chain in a file as large as there can be. Only the last literals of a
/// body matter, and no rule that is not of the chain ever holds, so that
/// neither a body nor a pass is soon done with.
pub fn full() -> Papers {
    let links = links();
    let mut body = vec![holds(links[0]); MOST_LITERALS];
    let mut rules = against_the_chain(&links, &body[2..]);
    rules.push(fact(links[0]));
    body[MOST_LITERALS - 1] = holds(ObjectiveLiteral::negation_of(SPARE));
    let padding = Rule {
        head: ObjectiveLiteral::of(SPARE),
        body: body.clone(),
    };
    rules.resize(MOST_RULES, padding);
    let program = Program {
        atoms: MOST_ATOMS,
        abducibles: vec![],
        rules,
        integrity_bodies: vec![body; MOST_INTEGRITY_RULES],
    };
    Papers::without_query("there and back, full", program)
}

/// The chain alone, save that each link makes the one before true as well: all
/// of it is one ring, so that no order of the rules is the one to go by.
pub fn in_rings() -> Papers {
    let links = links();
    let mut rules = against_the_chain(&links, &[]);
    rules.push(fact(links[0]));
    rules.extend(links.windows(2).rev().map(|pair| Rule {
        head: pair[0],
        body: vec![holds(pair[1])],
    }));
    let program = Program {
        atoms: MOST_ATOMS,
        abducibles: vec![],
        rules,
        integrity_bodies: vec![],
    };
    Papers::without_query("there and back, in rings", program)
}

#[cfg(test)]
mod tests {
    use super::*;
    use crate::finders::{Buffers, Finder, Linked};

    /// Each of 255 atoms is made true and false, and so is its negation.
    const ROUNDS: u64 = 4 * 255;

    fn rounds(papers: &Papers) -> u64 {
        let words = Linked.judge(papers, 0, &mut Buffers::new());
        let [number, _, _, _, rounds, ..] = words;
        assert_eq!(number, 0, "the papers are accepted");
        rounds
    }

    #[test]
    fn the_full_file_has_as_much_as_there_can_be() {
        let papers = full();
        assert_eq!(papers.program.rules.len(), MOST_RULES);
        assert_eq!(papers.program.integrity_bodies.len(), MOST_INTEGRITY_RULES);
        let bodies = papers.program.folds().map(|(_, _, body)| body.len());
        assert_eq!(
            bodies.filter(|&literals| literals < MOST_LITERALS).count(),
            1
        );
        assert_eq!(rounds(&papers), ROUNDS);
    }

    #[test]
    fn rings_leave_the_rounds_as_they_are() {
        let papers = in_rings();
        assert_eq!(papers.program.rules.len(), 509 + 1 + 509);
        assert_eq!(rounds(&papers), ROUNDS);
    }

    #[test]
    fn each_rule_of_the_chain_needs_the_one_behind_it() {
        let links = links();
        let rules = against_the_chain(&links, &[]);
        let behind = rules.iter().skip(1).map(|rule| rule.head);
        let needed = rules.iter().map(|rule| rule.body[1]);
        let heads = behind.chain([links[0]]).map(holds);
        assert!(needed.eq(heads));
    }
}

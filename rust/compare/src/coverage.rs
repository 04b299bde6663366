//! Which answers came how often, and which must come for a comparison to be
//! worth something.

use std::fmt;

use plain::field::{
    Tag, MOST_ABDUCIBLES, MOST_ATOMS, MOST_INTEGRITY_RULES, MOST_LITERALS, MOST_RULES,
};
use plain::{Number, Paper, Program, Query, Refusal};

use crate::tally::{Counted, LEAST};

const PAPERS: [Paper; 2] = [Paper::File, Paper::Sheet];

const NUMBERS: [Number; 10] = [
    Number::Cut,
    Number::StrayField,
    Number::Misfit,
    Number::Edition,
    Number::AtomCount,
    Number::Unlisted,
    Number::Disorder,
    Number::FixedFault,
    Number::Overfull,
    Number::Tail,
];

/// What stands at the place of a refusal.
#[derive(Clone, Copy, Debug, PartialEq, Eq)]
enum Found {
    Known(Tag),
    Other,
    End,
}

const FOUND: [Found; 9] = [
    Found::Known(Tag::Edition),
    Found::Known(Tag::AtomCount),
    Found::Known(Tag::Abducibles),
    Found::Known(Tag::Rule),
    Found::Known(Tag::IntegrityRule),
    Found::Known(Tag::Query),
    Found::Known(Tag::End),
    Found::Other,
    Found::End,
];

impl Found {
    fn at_start_of(rest: &[u8]) -> Found {
        let Some(&byte) = rest.first() else {
            return Found::End;
        };
        let is_it = |found: &&Found| matches!(found, Found::Known(tag) if tag.byte() == byte);
        FOUND.iter().find(is_it).copied().unwrap_or(Found::Other)
    }
}

/// Whether document 01 lets this refusal come with this at its place.
fn can_occur(paper: Paper, number: Number, found: Found) -> bool {
    let is_one_of = |tags: &[Tag]| tags.iter().any(|&tag| found == Found::Known(tag));
    match (paper, number) {
        // A missing field, or any heading that is not whole.
        (_, Number::Cut) => true,
        (_, Number::StrayField | Number::Tail) => found != Found::End,
        (Paper::File, Number::Misfit) => is_one_of(&[
            Tag::Edition,
            Tag::AtomCount,
            Tag::Abducibles,
            Tag::Rule,
            Tag::IntegrityRule,
            Tag::End,
        ]),
        (Paper::File, Number::Edition) => is_one_of(&[Tag::Edition]),
        (Paper::File, Number::AtomCount) => is_one_of(&[Tag::AtomCount]),
        (Paper::File, Number::Unlisted) => {
            is_one_of(&[Tag::Abducibles, Tag::Rule, Tag::IntegrityRule])
        }
        (Paper::File, Number::Disorder) => is_one_of(&[Tag::Abducibles]),
        (Paper::File, Number::FixedFault) => is_one_of(&[Tag::Rule]),
        (Paper::File, Number::Overfull) => is_one_of(&[Tag::Rule, Tag::IntegrityRule]),
        (Paper::Sheet, Number::Misfit) => is_one_of(&[Tag::Query, Tag::End]),
        (Paper::Sheet, Number::Unlisted) => is_one_of(&[Tag::Query]),
        (Paper::Sheet, _) => false,
        // Those of a text.
        (_, Number::StrayCharacter | Number::BrokenLine) => false,
    }
}

type Holds = fn(&Program, &Query) -> bool;

/// What an accepted pair of papers can have as many of as is allowed.
const LIMITS: [(&str, Holds); 7] = [
    ("256 atoms", |program, _| program.atoms == MOST_ATOMS),
    ("16 abducibles", |program, _| {
        program.abducibles.len() == MOST_ABDUCIBLES
    }),
    ("1,024 rules", |program, _| {
        program.rules.len() == MOST_RULES
    }),
    ("256 integrity rules", |program, _| {
        program.integrity_bodies.len() == MOST_INTEGRITY_RULES
    }),
    ("a rule of 16 literals", |program, _| {
        program.rules.iter().any(|rule| is_full(&rule.body))
    }),
    ("an integrity rule of 16 literals", |program, _| {
        program.integrity_bodies.iter().any(|body| is_full(body))
    }),
    ("a query of 16 literals", |_, query| {
        is_full(&query.literals)
    }),
];

fn is_full<L>(literals: &[L]) -> bool {
    literals.len() == MOST_LITERALS
}

/// How often each answer came.
#[derive(Default)]
pub struct Coverage {
    accepted: u64,
    at_limit: [u64; LIMITS.len()],
    /// By paper, number and what is at the place.
    refused: [[[u64; FOUND.len()]; NUMBERS.len()]; PAPERS.len()],
}

impl Coverage {
    pub fn count_accepted(&mut self, program: &Program, query: &Query) {
        self.accepted += 1;
        for (count, (_, is_at_limit)) in self.at_limit.iter_mut().zip(LIMITS) {
            *count += u64::from(is_at_limit(program, query));
        }
    }

    /// Counts a refusal with the rest of the refused paper.
    pub fn count_refused(&mut self, refusal: &Refusal, rest: &[u8]) {
        let found = Found::at_start_of(rest);
        let paper = position(&PAPERS, &refusal.paper);
        let number = position(&NUMBERS, &refusal.number);
        self.refused[paper][number][position(&FOUND, &found)] += 1;
    }
}

impl Counted for Coverage {
    fn complaints(&self) -> Vec<String> {
        let mut complaints = Vec::new();
        let mut expect = |what: String, count: u64, can_occur: bool| {
            if can_occur && count < LEAST {
                complaints.push(format!("only {count} times: {what}"));
            }
            if !can_occur && count > 0 {
                complaints.push(format!("{count} times, though it can't be: {what}"));
            }
        };
        expect("both papers accepted".to_string(), self.accepted, true);
        for (&count, (name, _)) in self.at_limit.iter().zip(LIMITS) {
            expect(format!("accepted with {name}"), count, true);
        }
        for (paper, by_number) in PAPERS.into_iter().zip(&self.refused) {
            for (number, by_found) in NUMBERS.into_iter().zip(by_number) {
                for (found, &count) in FOUND.into_iter().zip(by_found) {
                    let what = format!("{paper} refused {number:?} at {found:?}");
                    expect(what, count, can_occur(paper, number, found));
                }
            }
        }
        complaints
    }
}

fn position<T: PartialEq>(items: &[T], item: &T) -> usize {
    let position = items.iter().position(|other| other == item);
    position.expect("all there are of them")
}

impl fmt::Display for Coverage {
    fn fmt(&self, f: &mut fmt::Formatter) -> fmt::Result {
        writeln!(f, "accepted {}", self.accepted)?;
        for (count, (name, _)) in self.at_limit.iter().zip(LIMITS) {
            writeln!(f, "    with {name}: {count}")?;
        }
        write!(f, "refused, by what is at the place\n{:14}", "")?;
        for found in FOUND {
            let heading = match found {
                Found::Known(tag) => format!("{:02X}", tag.byte()),
                Found::Other => "other".to_string(),
                Found::End => "end".to_string(),
            };
            write!(f, "{heading:>8}")?;
        }
        writeln!(f, "{:>8}", "all")?;
        for (paper, by_number) in PAPERS.into_iter().zip(&self.refused) {
            for (number, by_found) in NUMBERS.into_iter().zip(by_number) {
                let all: u64 = by_found.iter().sum();
                if all == 0 && !FOUND.iter().any(|&found| can_occur(paper, number, found)) {
                    continue;
                }
                write!(f, "    {:10}", format!("{paper} {}", number as u8))?;
                for (found, &count) in FOUND.into_iter().zip(by_found) {
                    if count == 0 && !can_occur(paper, number, found) {
                        write!(f, "{:>8}", "-")?;
                    } else {
                        write!(f, "{count:>8}")?;
                    }
                }
                writeln!(f, "{all:>8}")?;
            }
        }
        Ok(())
    }
}

#[cfg(test)]
mod tests {
    use super::*;

    #[test]
    fn the_place_is_known_by_its_first_byte() {
        assert_eq!(Found::at_start_of(&[]), Found::End);
        assert_eq!(Found::at_start_of(&[0x7F, 1]), Found::Known(Tag::End));
        assert_eq!(Found::at_start_of(&[4]), Found::Known(Tag::Rule));
        assert_eq!(Found::at_start_of(&[7, 4]), Found::Other);
    }

    #[test]
    fn what_never_came_is_complained_of() {
        let accepted = 1;
        let limits = 7;
        let file = 9 + 8 + 6 + 1 + 1 + 3 + 1 + 1 + 2 + 8;
        let sheet = 9 + 8 + 2 + 1 + 8;
        let complaints = Coverage::default().complaints();
        assert_eq!(complaints.len(), accepted + limits + file + sheet);
    }

    #[test]
    fn what_can_not_come_is_complained_of() {
        let mut coverage = Coverage::default();
        let refusal = Refusal {
            number: Number::Edition,
            paper: Paper::Sheet,
            place: 0,
        };
        coverage.count_refused(&refusal, &[1]);
        let complaints = coverage.complaints();
        assert!(complaints.iter().any(|text| text.contains("can't be")));
    }
}

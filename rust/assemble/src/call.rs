//! A call: the rules, the symptoms asked about, and their two papers.
//!
//! The rule file is the one that the finder imports the rules as, typed by
//! [`crate::typed`]: there is no other writer of it.

use finder::{import_text, LONGEST_FILE};

pub const MOST_ATOMS: usize = 256;
pub const MOST_FAULTS: usize = 16;
pub const MOST_RULES: usize = 1_024;
pub const MOST_INTEGRITY_RULES: usize = 256;
/// Of a body or a query.
pub const MOST_LITERALS: usize = 16;

/// An atom or its explicit negation.
#[derive(Clone, Copy, Debug, PartialEq, Eq)]
pub struct Objective {
    pub atom: u16,
    pub is_negation: bool,
}

impl Objective {
    /// 2a is atom a, 2a+1 its explicit negation.
    fn number(self) -> u16 {
        2 * self.atom + u16::from(self.is_negation)
    }
}

/// An objective literal, with or without not.
#[derive(Clone, Copy, Debug, PartialEq, Eq)]
pub struct Literal {
    pub has_not: bool,
    pub objective: Objective,
}

impl Literal {
    /// 2o is objective literal o, 2o+1 is not(o).
    fn number(self) -> u16 {
        2 * self.objective.number() + u16::from(self.has_not)
    }
}

#[derive(Clone, Debug, PartialEq, Eq)]
pub struct Rule {
    pub head: Objective,
    pub body: Vec<Literal>,
}

/// What a text says. It is within the limits of document 01, and each of its
/// atoms is a fault or stands in a rule or an integrity rule.
#[derive(Clone, Debug, Default, PartialEq, Eq)]
pub struct Call {
    /// The names of the atoms, by number.
    pub names: Vec<String>,
    /// The abducible atoms, rising.
    pub faults: Vec<u16>,
    pub rules: Vec<Rule>,
    /// The bodies of the integrity rules.
    pub integrity_bodies: Vec<Vec<Literal>>,
    pub query: Vec<Literal>,
}

impl Call {
    /// The rule file: what the typed rules are imported as.
    ///
    /// # Panics
    ///
    /// Where the call is past a limit, or a fault heads a rule.
    pub fn causes(&self) -> Vec<u8> {
        let mut file = vec![0; LONGEST_FILE];
        let imported = import_text(self.typed().as_bytes(), &mut file);
        let length = imported.unwrap_or_else(|refusal| panic!("{refusal}"));
        file.truncate(length);
        file
    }

    /// The query sheet.
    pub fn sheet(&self) -> Vec<u8> {
        let mut sheet = vec![];
        put_field(&mut sheet, 0x06, &numbers(&self.query));
        put_field(&mut sheet, 0x7F, &[]);
        sheet
    }
}

fn numbers(literals: &[Literal]) -> Vec<u16> {
    literals.iter().map(|literal| literal.number()).collect()
}

fn put_field(paper: &mut Vec<u8>, tag: u8, numbers: &[u16]) {
    paper.push(tag);
    paper.extend((2 * numbers.len() as u16).to_be_bytes());
    paper.extend(numbers.iter().flat_map(|number| number.to_be_bytes()));
}

#[cfg(test)]
mod tests {
    use super::*;
    use crate::parse;

    #[test]
    fn text_is_numbered_as_document_01_does() {
        let text = "faults: a. atoms: b, c.
            c :- not b.
            falsum :- -a.
            b :- a, not -c.
            -b.
            falsum.
            query: -a, not c.";
        let call = parse(text).expect("a text without a mistake");
        // The integrity rules come last.
        let expected = [
            &[0x01, 0, 1, 1][..],
            &[0x02, 0, 2, 0, 3],
            &[0x03, 0, 2, 0, 0],
            &[0x04, 0, 4, 0, 4, 0, 5],
            &[0x04, 0, 6, 0, 2, 0, 0, 0, 11],
            &[0x04, 0, 2, 0, 3],
            &[0x05, 0, 2, 0, 2],
            &[0x05, 0, 0],
            &[0x7F, 0, 0],
        ];
        assert_eq!(call.causes(), expected.concat());
        assert_eq!(call.sheet(), [0x06, 0, 4, 0, 2, 0, 9, 0x7F, 0, 0]);
    }

    #[test]
    fn the_example_of_the_desk_program() {
        let call = parse("atoms: p. faults: a. p :- a. query: p.");
        let call = call.expect("a text without a mistake");
        let expected = [
            &[0x01, 0, 1, 1, 0x02, 0, 2, 0, 2, 0x03, 0, 2, 0, 1][..],
            &[0x04, 0, 4, 0, 0, 0, 4, 0x7F, 0, 0],
        ];
        assert_eq!(call.causes(), expected.concat());
        assert_eq!(call.sheet(), [0x06, 0, 2, 0, 0, 0x7F, 0, 0]);
    }

    #[test]
    fn the_largest_call_has_the_longest_file() {
        let literal = Literal {
            has_not: true,
            objective: Objective {
                atom: MOST_ATOMS as u16 - 1,
                is_negation: true,
            },
        };
        let rule = Rule {
            head: literal.objective,
            body: vec![literal; MOST_LITERALS],
        };
        let call = Call {
            faults: (0..MOST_FAULTS as u16).collect(),
            integrity_bodies: vec![rule.body.clone(); MOST_INTEGRITY_RULES],
            rules: vec![rule; MOST_RULES],
            ..Call::default()
        };
        let causes = call.causes();
        assert_eq!(causes.len(), LONGEST_FILE);
        assert_eq!(causes[4..9], [0x02, 0, 2, 1, 0]);
    }
}

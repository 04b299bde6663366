//! The rules of a call typed as Card 4 of document 02 has it, by number.

use std::fmt;

use crate::call::{Call, Literal, Objective, Rule};

impl Call {
    /// A line for each fault, then for each rule, then for each integrity rule.
    /// The query is not among them.
    pub fn typed(&self) -> String {
        let mut text = String::new();
        for fault in &self.faults {
            text += &format!("abducible p{fault}.\n");
        }
        for Rule { head, body } in &self.rules {
            text += &line(&head.to_string(), body);
        }
        for body in &self.integrity_bodies {
            text += &line("false", body);
        }
        text
    }

    /// Whether the atom is in one of these lines.
    pub fn is_typed(&self, atom: u16) -> bool {
        let mut heads = self.rules.iter().map(|rule| rule.head.atom);
        let bodies = self.rules.iter().map(|rule| &rule.body);
        let mut literals = bodies.chain(&self.integrity_bodies).flatten();
        self.faults.contains(&atom)
            || heads.any(|head| head == atom)
            || literals.any(|literal| literal.objective.atom == atom)
    }
}

fn line(head: &str, body: &[Literal]) -> String {
    if body.is_empty() {
        return format!("{head}.\n");
    }
    let literals: Vec<String> = body.iter().map(Literal::to_string).collect();
    format!("{head} :- {}.\n", literals.join(", "))
}

impl fmt::Display for Objective {
    fn fmt(&self, f: &mut fmt::Formatter) -> fmt::Result {
        let sign = if self.is_negation { "-" } else { "" };
        write!(f, "{sign}p{}", self.atom)
    }
}

impl fmt::Display for Literal {
    fn fmt(&self, f: &mut fmt::Formatter) -> fmt::Result {
        let not = if self.has_not { "not " } else { "" };
        write!(f, "{not}{}", self.objective)
    }
}

#[cfg(test)]
mod tests {
    use crate::parse;

    #[test]
    fn each_line_stands_for_itself() {
        let text = "atoms: p. faults: a. atoms: q. faults: b.
            falsum :- p, -q.
            p :- q, not a, -b, not -b.
            falsum. -q.
            query: p.";
        let call = parse(text).expect("a text without a mistake");
        let expected = "abducible p1.
abducible p3.
p0 :- p2, not p1, -p3, not -p3.
-p2.
false :- p0, -p2.
false.
";
        assert_eq!(call.typed(), expected);
    }
}

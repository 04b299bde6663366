//! Reading a text.

use std::vec;

use crate::call::{
    Call, Literal, Objective, Rule, MOST_ATOMS, MOST_FAULTS, MOST_INTEGRITY_RULES, MOST_LITERALS,
    MOST_RULES,
};
use crate::mistake::Mistake;
use crate::tokens::{tokens, Token};

/// Words that are no names.
const KEPT: [&str; 5] = ["faults", "atoms", "query", "falsum", "not"];

/// Reads a text. Its atoms are numbered in the order in which it names them
/// under `faults` and `atoms`. Each is a fault or stands in a rule: the rule file
/// counts its atoms up to the last that is named there.
pub fn parse(text: &str) -> Result<Call, Mistake> {
    let mut parser = Parser {
        tokens: tokens(text)?.into_iter(),
        begun: 1,
        call: Call::default(),
        named: vec![],
        has_query: false,
    };
    while let Some(first) = parser.tokens.next() {
        parser.begun = first.line;
        parser.statement(first)?;
    }
    let at_end = |what: &str| Mistake {
        line: text.lines().count().max(1),
        what: what.to_string(),
    };
    if parser.call.names.is_empty() {
        return Err(at_end("no atom is named"));
    }
    if !parser.has_query {
        return Err(at_end("there is no query"));
    }
    for (atom, &line) in (0..).zip(&parser.named) {
        if !parser.call.is_typed(atom) {
            let name = &parser.call.names[usize::from(atom)];
            let what = format!("`{name}` stands in no rule");
            return Err(Mistake { line, what });
        }
    }
    Ok(parser.call)
}

struct Parser<'t> {
    /// Those not read yet.
    tokens: vec::IntoIter<Token<'t>>,
    /// The first line of the statement that is read.
    begun: usize,
    call: Call,
    /// The line in which each atom is named, by its number.
    named: Vec<usize>,
    has_query: bool,
}

impl<'t> Parser<'t> {
    fn statement(&mut self, first: Token<'t>) -> Result<(), Mistake> {
        match first.text {
            "faults" => self.names(true),
            "atoms" => self.names(false),
            "query" => self.query(first),
            "falsum" => self.integrity_rule(first),
            _ => self.rule(first),
        }
    }

    fn names(&mut self, are_faults: bool) -> Result<(), Mistake> {
        self.colon()?;
        self.each(|parser, token| {
            let name = name(token)?;
            let call = &mut parser.call;
            if call.names.iter().any(|other| other == name) {
                return Err(token.mistake(format!("`{name}` is named a second time")));
            }
            token.room(call.names.len(), MOST_ATOMS, "atoms")?;
            if are_faults {
                token.room(call.faults.len(), MOST_FAULTS, "faults")?;
                call.faults.push(call.names.len() as u16);
            }
            call.names.push(name.to_string());
            parser.named.push(token.line);
            Ok(())
        })
    }

    fn query(&mut self, first: Token) -> Result<(), Mistake> {
        if self.has_query {
            return Err(first.mistake("there is a query already"));
        }
        self.colon()?;
        self.call.query = self.literals()?;
        self.has_query = true;
        Ok(())
    }

    fn integrity_rule(&mut self, first: Token) -> Result<(), Mistake> {
        let before = self.call.integrity_bodies.len();
        first.room(before, MOST_INTEGRITY_RULES, "integrity rules")?;
        let body = self.body()?;
        self.call.integrity_bodies.push(body);
        Ok(())
    }

    fn rule(&mut self, first: Token<'t>) -> Result<(), Mistake> {
        first.room(self.call.rules.len(), MOST_RULES, "rules")?;
        let head = self.objective(first)?;
        if self.call.faults.contains(&head.atom) {
            let name = &self.call.names[usize::from(head.atom)];
            return Err(first.mistake(format!("`{name}` is a fault and can't head a rule")));
        }
        let body = self.body()?;
        self.call.rules.push(Rule { head, body });
        Ok(())
    }

    /// What follows a head.
    fn body(&mut self) -> Result<Vec<Literal>, Mistake> {
        let token = self.next()?;
        match token.text {
            "." => Ok(vec![]),
            ":-" => {
                let body = self.literals()?;
                if body.is_empty() {
                    return Err(token.mistake("nothing follows `:-`"));
                }
                Ok(body)
            }
            _ => Err(token.unexpected("`:-` or `.`")),
        }
    }

    fn literals(&mut self) -> Result<Vec<Literal>, Mistake> {
        let mut literals = vec![];
        self.each(|parser, first| {
            first.room(literals.len(), MOST_LITERALS, "literals here")?;
            literals.push(parser.literal(first)?);
            Ok(())
        })?;
        Ok(literals)
    }

    fn literal(&mut self, first: Token<'t>) -> Result<Literal, Mistake> {
        let has_not = first.text == "not";
        let first = if has_not { self.next()? } else { first };
        Ok(Literal {
            has_not,
            objective: self.objective(first)?,
        })
    }

    fn objective(&mut self, first: Token<'t>) -> Result<Objective, Mistake> {
        let is_negation = first.text == "-";
        let token = if is_negation { self.next()? } else { first };
        let name = name(token)?;
        let mut names = self.call.names.iter();
        let Some(atom) = names.position(|other| other == name) else {
            let what = format!("`{name}` is not named above under `faults` or `atoms`");
            return Err(token.mistake(what));
        };
        Ok(Objective {
            atom: atom as u16,
            is_negation,
        })
    }

    /// Reads items parted by commas, each from its first token on, and the full
    /// stop after them. There may be none.
    fn each(
        &mut self,
        mut item: impl FnMut(&mut Self, Token<'t>) -> Result<(), Mistake>,
    ) -> Result<(), Mistake> {
        let mut first = self.next()?;
        if first.text == "." {
            return Ok(());
        }
        loop {
            item(self, first)?;
            let after = self.next()?;
            match after.text {
                "," => first = self.next()?,
                "." => return Ok(()),
                _ => return Err(after.unexpected("`,` or `.`")),
            }
        }
    }

    fn colon(&mut self) -> Result<(), Mistake> {
        let token = self.next()?;
        match token.text {
            ":" => Ok(()),
            _ => Err(token.unexpected("`:`")),
        }
    }

    fn next(&mut self) -> Result<Token<'t>, Mistake> {
        self.tokens.next().ok_or_else(|| Mistake {
            line: self.begun,
            what: "what begins here has no `.` at its end".to_string(),
        })
    }
}

fn name<'t>(token: Token<'t>) -> Result<&'t str, Mistake> {
    if token.is_word() && !KEPT.contains(&token.text) {
        Ok(token.text)
    } else {
        Err(token.unexpected("a name"))
    }
}

#[cfg(test)]
mod tests {
    use super::*;

    fn is_mistaken(text: &str, line: usize, what: &str) {
        let what = what.to_string();
        assert_eq!(parse(text), Err(Mistake { line, what }), "{text}");
    }

    /// A mistake in the third line of a text.
    fn is_mistaken_in_line_3(statement: &str, what: &str) {
        let text = format!("faults: a, b.\natoms: p, q.\n{statement}\nquery: p.\n");
        is_mistaken(&text, 3, what);
    }

    /// So many items, each with its number between these.
    fn items(count: usize, before: &str, after: &str) -> String {
        let items = (0..count).map(|number| format!("{before}{number}{after}"));
        items.collect()
    }

    #[test]
    fn a_text_says_what_stands_in_it() {
        let text = "# A comment
            atoms: p.       # p is 0.
            faults: a, b*.
            atoms: q,
                   Größe_2.
            p :- q, not -q,
                 not a.     # A rule may go over lines.
            -q. query: p, -b*. Größe_2.
            falsum :- p,-p. faults: .";
        let call = parse(text).expect("a text without a mistake");
        let objective = |atom, is_negation| Objective { atom, is_negation };
        let literal = |has_not, atom, is_negation| Literal {
            has_not,
            objective: objective(atom, is_negation),
        };
        let holds = |atom| literal(false, atom, false);
        let expected = Call {
            names: ["p", "a", "b*", "q", "Größe_2"].map(String::from).to_vec(),
            faults: vec![1, 2],
            rules: vec![
                Rule {
                    head: objective(0, false),
                    body: vec![holds(3), literal(true, 3, true), literal(true, 1, false)],
                },
                Rule {
                    head: objective(3, true),
                    body: vec![],
                },
                Rule {
                    head: objective(4, false),
                    body: vec![],
                },
            ],
            integrity_bodies: vec![vec![holds(0), literal(false, 0, true)]],
            query: vec![holds(0), literal(false, 2, true)],
        };
        assert_eq!(call, expected);
    }

    #[test]
    fn a_query_may_be_empty() {
        let call = parse("faults: a. query: .").expect("a text without a mistake");
        assert_eq!(call.query, []);
    }

    #[test]
    fn an_unknown_form_is_told_with_its_line() {
        for (statement, what) in [
            ("p - q.", "`:-` or `.` should stand here, not `-`"),
            ("p :- q a.", "`,` or `.` should stand here, not `a`"),
            ("p :- q,.", "a name should stand here, not `.`"),
            ("p :- , q.", "a name should stand here, not `,`"),
            ("p :- .", "nothing follows `:-`"),
            ("p :- not not q.", "a name should stand here, not `not`"),
            ("p :- -not q.", "a name should stand here, not `not`"),
            ("p :- --q.", "a name should stand here, not `-`"),
            ("p :- falsum.", "a name should stand here, not `falsum`"),
            ("not p :- q.", "a name should stand here, not `not`"),
            ("-falsum :- q.", "a name should stand here, not `falsum`"),
            (":- p, q.", "a name should stand here, not `:-`"),
            ("falsum: p.", "`:-` or `.` should stand here, not `:`"),
            ("atoms p.", "`:` should stand here, not `p`"),
            ("query :- p.", "`:` should stand here, not `:-`"),
            ("atoms: -r.", "a name should stand here, not `-`"),
            ("atoms: query.", "a name should stand here, not `query`"),
            ("p :- q; q.", "`;` means nothing here"),
        ] {
            is_mistaken_in_line_3(statement, what);
        }
        // A full stop is missed where the next statement begins.
        let what = "`,` or `.` should stand here, not `q`";
        is_mistaken("atoms: p, q.\nq :- p\nq.", 3, what);
    }

    #[test]
    fn a_name_is_named_once_and_above() {
        let unnamed = "`qq` is not named above under `faults` or `atoms`";
        is_mistaken_in_line_3("qq.", unnamed);
        is_mistaken_in_line_3("p :- q, not -qq. atoms: qq.", unnamed);
        is_mistaken_in_line_3("query: qq.", unnamed);
        is_mistaken_in_line_3("atoms: r, p.", "`p` is named a second time");
        is_mistaken_in_line_3("faults: p.", "`p` is named a second time");
        is_mistaken_in_line_3("atoms: r, r.", "`r` is named a second time");
    }

    #[test]
    fn an_atom_stands_in_a_rule() {
        let unused = "`q` stands in no rule";
        is_mistaken("atoms: p,\n q.\np.\nquery: q.\n", 2, unused);
        is_mistaken("query: .\natoms: r.\natoms: p, q.\np.\nr.", 3, unused);
        for rule in ["q.", "-q.", "p :- not -q.", "falsum :- q."] {
            let text = format!("faults: a.\natoms: p, q.\np.\n{rule}\nquery: .\n");
            assert!(parse(&text).is_ok(), "{text}");
        }
    }

    #[test]
    fn a_fault_heads_no_rule() {
        is_mistaken_in_line_3("a :- p.", "`a` is a fault and can't head a rule");
        is_mistaken_in_line_3("p. -b.", "`b` is a fault and can't head a rule");
    }

    #[test]
    fn there_is_one_query_and_an_atom() {
        is_mistaken("", 1, "no atom is named");
        is_mistaken("faults: .\nquery: .\n", 2, "no atom is named");
        is_mistaken("atoms: p.\n\np.\n", 3, "there is no query");
        let text = "atoms: p.\nquery: p.\nquery: p.\n";
        is_mistaken(text, 3, "there is a query already");
    }

    #[test]
    fn what_does_not_end_is_told_where_it_begins() {
        let unended = "what begins here has no `.` at its end";
        is_mistaken("atoms: p.\np.\nquery:\n  p\n\n", 3, unended);
        for text in [
            "p", "p :-", "p :- p,", "p :- not", "p :- -", "query", "atoms:",
        ] {
            is_mistaken(&format!("atoms: p.\n{text}\n"), 2, unended);
        }
    }

    #[test]
    fn the_most_there_may_be() {
        let atoms = |count| {
            let facts = items(count, "p", ".\n");
            format!("{}query: .\n{facts}", items(count, "atoms: p", ".\n"))
        };
        assert_eq!(parse(&atoms(256)).map(|call| call.names.len()), Ok(256));
        is_mistaken(&atoms(257), 257, "more than 256 atoms");

        let faults = |count| format!("{}query: .", items(count, "faults: a", ".\n"));
        assert_eq!(parse(&faults(16)).map(|call| call.faults.len()), Ok(16));
        is_mistaken(&faults(17), 17, "more than 16 faults");

        let rules = |count| format!("atoms: p. query: .\n{}", "p.\n".repeat(count));
        assert_eq!(parse(&rules(1_024)).map(|call| call.rules.len()), Ok(1_024));
        is_mistaken(&rules(1_025), 1_026, "more than 1024 rules");

        let rules = |count| format!("atoms: p. query: .\n{}", "falsum :- p.\n".repeat(count));
        let count = parse(&rules(256)).map(|call| call.integrity_bodies.len());
        assert_eq!(count, Ok(256));
        is_mistaken(&rules(257), 258, "more than 256 integrity rules");

        let literals = |count| vec!["not p"; count].join(",\n");
        for start in ["p :- ", "falsum :- ", "query: "] {
            let text = |count| format!("atoms: p.\n{start}{}.\n", literals(count));
            is_mistaken(&text(17), 18, "more than 16 literals here");
        }
        let text = format!("atoms: p. p :- {0}. query: {0}.", literals(16));
        assert_eq!(parse(&text).map(|call| call.query.len()), Ok(16));
    }
}

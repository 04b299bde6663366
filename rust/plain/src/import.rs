//! Rules typed as text: Card 4 of document 02.
//!
//! The text is split into tokens and these are read line by line, so that 17
//! and 18 are decided over the whole text. What the lines say is then tested as
//! a reader tests the file, field by field in file order, wherever the lines
//! stand: the abducibles (3), the rules (9, 3, 8), the integrity rules (9, 3).
//! The other numbers of the file can't arise. The buffer comes last (11).

use std::collections::BTreeSet;

use crate::field::{MOST_ABDUCIBLES, MOST_INTEGRITY_RULES, MOST_LITERALS, MOST_RULES};
use crate::numbering::{Atom, BodyLiteral, Form, Literal, ObjectiveLiteral};
use crate::program::{Program, Rule};
use crate::refusal::{ImportRefusal, Number, TextRefusal};
use crate::tokens::{split, Placed, Token, Tokens};
use crate::write::encode_file;

/// Writes the file of the text to the start of the buffer and gives its length.
/// The bytes beyond stay; where importing is refused all bytes stay.
pub fn import_text(text: &[u8], file: &mut [u8]) -> Result<usize, ImportRefusal> {
    let program = import(text).map_err(ImportRefusal::Text)?;
    let bytes = encode_file(&program);
    let Some(start) = file.get_mut(..bytes.len()) else {
        return Err(ImportRefusal::ShortFile);
    };
    start.copy_from_slice(&bytes);
    Ok(bytes.len())
}

/// The program that is typed: exactly its rules, in their order, and its
/// integrity rules in theirs.
pub fn import(text: &[u8]) -> Result<Program, TextRefusal> {
    let tokens = split(text);
    let lines = lines(text, &tokens)?;

    let atoms = atom_count(&tokens);
    let abducibles = abducibles(&lines)?;
    let rules = rules(&lines, &abducibles)?;
    let integrity_bodies = integrity_bodies(&lines)?;

    Ok(Program {
        atoms,
        abducibles,
        rules,
        integrity_bodies,
    })
}

/// 17 at the first character that starts no permitted token, 18 at the first
/// token the line form doesn't allow, or at the end inside a line; the earlier
/// place decides.
///
/// Where there is a stray character only the tokens before it are read. They may
/// stop inside a line; but then the end of the text is the later place.
fn lines(text: &[u8], tokens: &Tokens) -> Result<Vec<Line>, TextRefusal> {
    let lines = read_lines(&tokens.placed, text.len());
    let Some(stray) = tokens.stray else {
        return lines;
    };
    match lines {
        Err(refusal) if refusal.place < stray => Err(refusal),
        _ => Err(TextRefusal {
            number: Number::StrayCharacter,
            place: stray,
        }),
    }
}

/// One more than the greatest atom named, or 1.
fn atom_count(tokens: &Tokens) -> u16 {
    let named = tokens
        .placed
        .iter()
        .filter_map(|placed| match placed.token {
            Token::Atom(atom) => Some(atom),
            _ => None,
        });
    named.max().map_or(1, |greatest| greatest.0 + 1)
}

/// Field 03. Abducibles are written rising, and naming one twice is the same as
/// once. The line naming the seventeenth different one is refused.
fn abducibles(lines: &[Line]) -> Result<Vec<Atom>, TextRefusal> {
    let mut abducibles = BTreeSet::new();
    for line in lines {
        if let Content::Abducible(atom) = line.content {
            abducibles.insert(atom);
            line.require(abducibles.len() <= MOST_ABDUCIBLES, Number::Misfit)?;
        }
    }
    Ok(abducibles.into_iter().collect())
}

/// Each field 04: its count, its length, its head.
fn rules(lines: &[Line], abducibles: &[Atom]) -> Result<Vec<Rule>, TextRefusal> {
    let mut rules = Vec::new();
    for line in lines {
        if let Content::Rule(rule) = &line.content {
            line.require(rules.len() < MOST_RULES, Number::Overfull)?;
            line.require(rule.body.len() <= MOST_LITERALS, Number::Misfit)?;
            let is_fixed = abducibles.contains(&rule.head.atom());
            line.require(!is_fixed, Number::FixedFault)?;
            rules.push(rule.clone());
        }
    }
    Ok(rules)
}

/// Each field 05: its count, its length.
fn integrity_bodies(lines: &[Line]) -> Result<Vec<Vec<BodyLiteral>>, TextRefusal> {
    let mut bodies = Vec::new();
    for line in lines {
        if let Content::IntegrityRule(body) = &line.content {
            line.require(bodies.len() < MOST_INTEGRITY_RULES, Number::Overfull)?;
            line.require(body.len() <= MOST_LITERALS, Number::Misfit)?;
            bodies.push(body.clone());
        }
    }
    Ok(bodies)
}

struct Line {
    /// Its first token.
    place: usize,
    content: Content,
}

/// What a line says.
enum Content {
    /// `abducible p4.` declares one.
    Abducible(Atom),
    /// `p3 :- -p1, not p0.` is a rule, `p2.` is a fact.
    Rule(Rule),
    /// `false :- p1.` is an integrity rule, `false.` is one with no literals.
    IntegrityRule(Vec<BodyLiteral>),
}

impl Line {
    /// Refuses this line unless `condition` holds.
    fn require(&self, condition: bool, number: Number) -> Result<(), TextRefusal> {
        if condition {
            Ok(())
        } else {
            Err(TextRefusal {
                number,
                place: self.place,
            })
        }
    }
}

/// Reads the tokens, line by line, of a text with this length.
fn read_lines(tokens: &[Placed], text_length: usize) -> Result<Vec<Line>, TextRefusal> {
    let mut reader = Reader {
        tokens,
        text_length,
    };
    let mut lines = Vec::new();
    while !reader.tokens.is_empty() {
        let place = reader.place();
        let content = reader.line()?;
        lines.push(Line { place, content });
    }
    Ok(lines)
}

struct Reader<'t> {
    /// The tokens not read yet.
    tokens: &'t [Placed],
    text_length: usize,
}

impl Reader<'_> {
    /// Every line ends with a full stop. After `abducible` stands a bare atom.
    fn line(&mut self) -> Result<Content, TextRefusal> {
        let content = if self.takes(Token::Abducible) {
            Content::Abducible(self.atom()?)
        } else if self.takes(Token::False) {
            Content::IntegrityRule(self.body()?)
        } else {
            let head = self.objective_literal()?;
            let body = self.body()?;
            Content::Rule(Rule { head, body })
        };
        if !self.takes(Token::FullStop) {
            return Err(self.refusal());
        }
        Ok(content)
    }

    /// None where there is no `:-`. After `:-` stands at least one literal; u can't
    /// be typed.
    fn body(&mut self) -> Result<Vec<BodyLiteral>, TextRefusal> {
        let mut body = Vec::new();
        if self.takes(Token::If) {
            body.push(self.literal()?.into());
            while self.takes(Token::Comma) {
                body.push(self.literal()?.into());
            }
        }
        Ok(body)
    }

    /// An objective literal, or `not` and one.
    fn literal(&mut self) -> Result<Literal, TextRefusal> {
        let form = if self.takes(Token::Not) {
            Form::Not(self.objective_literal()?)
        } else {
            Form::Objective(self.objective_literal()?)
        };
        Ok(form.literal())
    }

    /// An atom, or `-` and one.
    fn objective_literal(&mut self) -> Result<ObjectiveLiteral, TextRefusal> {
        if self.takes(Token::Minus) {
            Ok(ObjectiveLiteral::negation_of(self.atom()?))
        } else {
            Ok(ObjectiveLiteral::of(self.atom()?))
        }
    }

    fn atom(&mut self) -> Result<Atom, TextRefusal> {
        match self.next() {
            Some(Token::Atom(atom)) => {
                self.move_on();
                Ok(atom)
            }
            _ => Err(self.refusal()),
        }
    }

    /// Whether this token is next. Moves past it then.
    fn takes(&mut self, token: Token) -> bool {
        let is_next = self.next() == Some(token);
        if is_next {
            self.move_on();
        }
        is_next
    }

    /// The next token; none at the end. Does not move.
    fn next(&self) -> Option<Token> {
        self.tokens.first().map(|placed| placed.token)
    }

    fn move_on(&mut self) {
        self.tokens = &self.tokens[1..];
    }

    /// Where the next token stands; the text's length at the end.
    fn place(&self) -> usize {
        let next = self.tokens.first();
        next.map_or(self.text_length, |placed| placed.place)
    }

    /// The line form doesn't allow the next token, or the end.
    fn refusal(&self) -> TextRefusal {
        TextRefusal {
            number: Number::BrokenLine,
            place: self.place(),
        }
    }
}

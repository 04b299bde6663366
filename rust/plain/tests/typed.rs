//! Texts that are typed by rule: random programs with random blanks, and every
//! row of a few tokens, against all that the line forms of Card 4 allow.

use std::collections::BTreeSet;

use plain::{
    encode_file, import, import_text, read_file, Atom, BodyLiteral, Literal, Number,
    ObjectiveLiteral, Program, Rule, TextRefusal,
};
use random::seed::seed;
use random::Random;

const PROGRAMS: usize = 3_000;

/// A program whose atom count is one more than the greatest atom named, or 1.
fn program(random: &mut Random) -> Program {
    let most_atoms = random.pick(&[1, 3, 20, 256]);
    let mut atoms: Vec<u16> = (0..most_atoms).collect();
    random.shuffle(&mut atoms);
    let mut abducibles = atoms[..random.below(17).min(atoms.len())].to_vec();
    let heads = &atoms[abducibles.len()..];
    let mut rules = Vec::new();
    if !heads.is_empty() {
        for _ in 0..random.below(6) {
            rules.push(Rule {
                head: ObjectiveLiteral(2 * random.pick(heads) + random.below(2) as u16),
                body: body(random, &atoms),
            });
        }
    }
    let bodies = (0..random.below(4)).map(|_| body(random, &atoms));
    let integrity_bodies: Vec<Vec<BodyLiteral>> = bodies.collect();

    let in_heads = rules.iter().map(|rule| rule.head.0 / 2);
    let in_rules = rules.iter().flat_map(|rule| &rule.body);
    let in_bodies = in_rules.chain(integrity_bodies.iter().flatten());
    let named = in_heads.chain(in_bodies.map(|literal| literal.number() / 4));
    let greatest = named.chain(abducibles.iter().copied()).max();
    abducibles.sort_unstable();
    Program {
        atoms: greatest.map_or(1, |greatest| greatest + 1),
        abducibles: abducibles.into_iter().map(Atom).collect(),
        rules,
        integrity_bodies,
    }
}

/// u can't be typed.
fn body(random: &mut Random, atoms: &[u16]) -> Vec<BodyLiteral> {
    let count = random.pick(&[0, 1, 2, 16]);
    let literal = |_| Literal(4 * random.pick(atoms) + random.below(4) as u16);
    (0..count).map(literal).map(BodyLiteral::from).collect()
}

/// The tokens of a line with this head.
fn line(head: Vec<String>, body: &[BodyLiteral]) -> Vec<String> {
    let mut tokens = head;
    for (place, literal) in body.iter().enumerate() {
        tokens.push(if place == 0 { ":-" } else { "," }.to_string());
        let number = literal.number();
        if number % 2 == 1 {
            tokens.push("not".to_string());
        }
        tokens.extend(objective_literal(number / 2));
    }
    tokens.push(".".to_string());
    tokens
}

fn objective_literal(number: u16) -> Vec<String> {
    let atom = format!("p{}", number / 2);
    if number % 2 == 1 {
        vec!["-".to_string(), atom]
    } else {
        vec![atom]
    }
}

/// The lines of the program as tokens. The abducibles stand in any order, some
/// twice; they, the rules and the integrity rules stand among one another.
fn lines(random: &mut Random, program: &Program) -> Vec<Vec<String>> {
    let mut abducibles = program.abducibles.clone();
    abducibles.extend(program.abducibles.iter().filter(|_| random.one_in(4)));
    random.shuffle(&mut abducibles);
    let declared = abducibles.iter().map(|atom| {
        let head = vec!["abducible".to_string(), format!("p{}", atom.0)];
        line(head, &[])
    });
    let rules = program.rules.iter();
    let rules = rules.map(|rule| line(objective_literal(rule.head.0), &rule.body));
    let falsum = || vec!["false".to_string()];
    let bodies = program.integrity_bodies.iter();
    let integrity_rules = bodies.map(|body| line(falsum(), body));

    let mut kinds = [
        declared.collect(),
        rules.collect(),
        integrity_rules.collect(),
    ];
    let mut lines = Vec::new();
    while kinds.iter().any(|kind: &Vec<_>| !kind.is_empty()) {
        let kind = &mut kinds[random.below(3)];
        if !kind.is_empty() {
            lines.push(kind.remove(0));
        }
    }
    lines
}

/// The tokens with random blanks before and after each.
fn with_blanks<'t>(random: &mut Random, tokens: impl Iterator<Item = &'t String>) -> String {
    let blanks = ["", "", " ", "\r\n", "\n", " \r "];
    let mut text = random.pick(&blanks).to_string();
    for token in tokens {
        text += token;
        text += random.pick(&blanks);
    }
    text
}

#[test]
fn the_file_is_read_back_as_exactly_the_rules_typed() {
    let mut random = Random::new(seed(41));
    let (mut most_abducibles, mut most_literals) = (0, 0);
    for _ in 0..PROGRAMS {
        let program = program(&mut random);
        let lines = lines(&mut random, &program);
        let text = with_blanks(&mut random, lines.iter().flatten());
        assert_eq!(import(text.as_bytes()).as_ref(), Ok(&program), "{text:?}");

        let mut file = vec![0xA5; encode_file(&program).len() + random.below(3)];
        let length = import_text(text.as_bytes(), &mut file).expect("a text that is accepted");
        assert_eq!(
            read_file(&file[..length]).as_ref(),
            Ok(&program),
            "{text:?}"
        );
        assert!(file[length..].iter().all(|&byte| byte == 0xA5));
        most_abducibles += usize::from(program.abducibles.len() == 16);
        most_literals += usize::from(program.rules.iter().any(|rule| rule.body.len() == 16));
    }
    assert!(most_abducibles > PROGRAMS / 100, "{most_abducibles}");
    assert!(most_literals > PROGRAMS / 20, "{most_literals}");
}

type Row = Vec<&'static str>;

const TOKENS: [&str; 8] = ["p0", "-", "not", ":-", ",", ".", "abducible", "false"];
/// The tokens of the longest rows.
const ROW: usize = 5;
/// A row that is part of a text is part of one that has two tokens more, at most:
/// an atom and the full stop.
const TEXT: usize = ROW + 2;

fn joined(parts: &[&[&'static str]]) -> Row {
    parts.concat()
}

/// Every line of at most [`TEXT`] tokens. One with three literals has 8.
fn all_lines() -> Vec<Row> {
    let heads: [&[&str]; 3] = [&["p0"], &["-", "p0"], &["false"]];
    let literals: [&[&str]; 4] = [&["p0"], &["-", "p0"], &["not", "p0"], &["not", "-", "p0"]];
    let mut lines = vec![vec!["abducible", "p0", "."]];
    for head in heads {
        lines.push(joined(&[head, &["."]]));
        for first in literals {
            lines.push(joined(&[head, &[":-"], first, &["."]]));
            for second in literals {
                lines.push(joined(&[head, &[":-"], first, &[","], second, &["."]]));
            }
        }
    }
    lines.retain(|line| line.len() <= TEXT);
    lines
}

/// Every text of at most [`TEXT`] tokens.
fn all_texts() -> BTreeSet<Row> {
    let lines = all_lines();
    let mut texts = BTreeSet::new();
    let mut added: Vec<Row> = vec![vec![]];
    while let Some(text) = added.pop() {
        let longer = lines.iter().map(|line| joined(&[&text, line]));
        added.extend(longer.filter(|text| text.len() <= TEXT));
        texts.insert(text);
    }
    texts
}

/// Every row of at most [`ROW`] tokens.
fn all_rows() -> Vec<Row> {
    let mut rows: Vec<Row> = vec![vec![]];
    let mut last = 0;
    for _ in 0..ROW {
        let longest = rows[last..].to_vec();
        last = rows.len();
        for row in longest {
            rows.extend(TOKENS.map(|token| joined(&[&row, &[token]])));
        }
    }
    rows
}

/// The 17 or 18 of a text, if it has one.
fn refusal(text: &str) -> Option<TextRefusal> {
    let refusal = import(text.as_bytes()).err()?;
    let is_of_text = [Number::StrayCharacter, Number::BrokenLine].contains(&refusal.number);
    is_of_text.then_some(refusal)
}

#[test]
fn the_line_forms_allow_what_a_text_can_begin_with() {
    let texts = all_texts();
    let starts = texts
        .iter()
        .flat_map(|text| (0..=text.len()).map(|end| text[..end].to_vec()));
    let starts: BTreeSet<Row> = starts.collect();
    let (mut accepted, mut inside, mut refused) = (0, 0, 0);
    for row in all_rows() {
        let is_start = |&end: &usize| starts.contains(&row[..end]);
        let allowed = (0..=row.len()).rev().find(is_start).unwrap();
        let broken = TextRefusal {
            number: Number::BrokenLine,
            place: row[..allowed].concat().len(),
        };
        let expected = (!texts.contains(&row)).then_some(broken);
        assert_eq!(refusal(&row.concat()), expected, "{row:?}");
        match expected {
            None => accepted += 1,
            Some(_) if allowed == row.len() => inside += 1,
            Some(_) => refused += 1,
        }

        // A stray character before any token or at the end: the earlier decides.
        for place in 0..=row.len() {
            let (before, after) = row.split_at(place);
            let stray = TextRefusal {
                number: Number::StrayCharacter,
                place: before.concat().len(),
            };
            let expected = if allowed < place { broken } else { stray };
            let text = [&before.concat(), "?", &after.concat()].concat();
            assert_eq!(refusal(&text), Some(expected), "{text:?}");
        }
    }
    assert_eq!(
        accepted + inside + refused,
        1 + 8 + 64 + 512 + 4_096 + 32_768
    );
    assert!(accepted > 20 && inside > 100, "{accepted} {inside}");
}

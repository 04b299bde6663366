//! What an .antt file defines: what it declares at its left edge, in a module, or
//! in a record or a data type. What a proof declares for itself, indented in it,
//! is not found.

use crate::definitions::Definition;

const MODIFIERS: [&str; 3] = ["pub", "abbrev", "unfoldable"];

struct Line<'t> {
    indent: usize,
    text: &'t str,
}

pub fn definitions(text: &str) -> Vec<Definition> {
    let mut definitions = Vec::new();
    items(&lines(text), None, &mut definitions);
    definitions
}

/// Those that are neither empty nor a comment.
fn lines(text: &str) -> Vec<Line<'_>> {
    let lines = text.lines().map(|line| Line {
        indent: line.len() - line.trim_start().len(),
        text: line.trim(),
    });
    let says = |line: &Line| !line.text.is_empty() && !line.text.starts_with("--");
    lines.filter(says).collect()
}

/// Each line with those that are indented below it is an item.
fn items(lines: &[Line], owner: Option<&str>, definitions: &mut Vec<Definition>) {
    let mut rest = lines;
    while let Some((first, more)) = rest.split_first() {
        let size = more.iter().take_while(|line| line.indent > first.indent);
        let (one, next) = rest.split_at(1 + size.count());
        item(one, owner, definitions);
        rest = next;
    }
}

fn item(lines: &[Line], owner: Option<&str>, definitions: &mut Vec<Definition>) {
    let words = lines.iter().flat_map(|line| line.text.split(' '));
    let mut words = words.skip_while(|word| MODIFIERS.contains(word));
    let mut define = |name: &str| {
        definitions.push(Definition {
            name: name.to_string(),
            owner: owner.map(str::to_string),
        });
    };
    match words.next() {
        Some("module") => items(body(lines), None, definitions),
        Some("record" | "data") => {
            let Some(name) = words.next() else { return };
            define(name);
            items(body(lines), Some(name), definitions);
        }
        Some("use" | "unfolding" | "mod") | None => {}
        Some(first) => {
            // `a b : T` declares both; `a b = t` nothing.
            let words: Vec<&str> = [first].into_iter().chain(words).collect();
            let colon = words.iter().position(|&word| word == ":");
            let declared = &words[..colon.unwrap_or(0)];
            let declared = declared.iter().filter(|word| !is_implicit(word));
            if declared.clone().all(|word| is_name(word)) {
                declared.for_each(|name| define(name));
            }
        }
    }
}

fn is_implicit(word: &str) -> bool {
    word.starts_with('{') && word.ends_with('}')
}

fn is_name(word: &str) -> bool {
    !word.contains(['=', '(', ')', '{', '}', '|', '[', '→'])
}

/// What stands below a heading, which may go over lines and ends with `where`.
fn body<'l, 't>(lines: &'l [Line<'t>]) -> &'l [Line<'t>] {
    let heading = lines.iter().position(|line| line.text.ends_with("where"));
    heading.map_or(&[], |last| &lines[last + 1..])
}

#[cfg(test)]
mod tests {
    use super::*;

    const TEXT: &str = "\
-- comment : of a file
use lib.ListN.{length}
pub data Told (A : Type 0) : Type 0 where
  tells : A → Told A
  stands tries : Told A

unfoldable pub numberTold : {A : Type 0} → Told A → ℕ
numberTold (tells a) = 0
pub record Ready (file : List ℕ)
    (rules : List ℕ) : Type 0 where
  -- comment : of a field
  pub few : length file ≤ 16
    × more : less
abbrev two = 2
module _ (a : ℕ) where
  pub told-of {ℓ} : a ≡ a
  told-of = let inner : ℕ = 1 in refl
    where
    local : ℕ
  module Deeper where
    pub deep : ℕ
last : ℕ
";

    #[test]
    fn what_is_declared_is_found_with_its_owner() {
        let found = definitions(TEXT);
        let pairs: Vec<(&str, Option<&str>)> = found
            .iter()
            .map(|found| (found.name.as_str(), found.owner.as_deref()))
            .collect();
        let told = Some("Told");
        let expected = [
            ("Told", None),
            ("tells", told),
            ("stands", told),
            ("tries", told),
            ("numberTold", None),
            ("Ready", None),
            ("few", Some("Ready")),
            ("told-of", None),
            ("deep", None),
            ("last", None),
        ];
        assert_eq!(pairs, expected);
    }
}

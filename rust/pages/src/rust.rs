//! What a file of Rust, or an .rt file, defines. Both are formatted, so an item
//! begins a line and so does each part of a struct or an enum.

use crate::definitions::Definition;

const MODIFIERS: [&str; 5] = ["pub", "pub(crate)", "unsafe", "extern", "\"C\""];

const WITHOUT_PARTS: [&str; 6] = ["fn", "trait", "type", "mod", "const", "static"];
const WITH_PARTS: [&str; 2] = ["struct", "enum"];

pub fn definitions(text: &str) -> Vec<Definition> {
    let mut definitions = Vec::new();
    let mut define = |name: &str, owner: Option<&str>| {
        definitions.push(Definition {
            name: name.to_string(),
            owner: owner.map(str::to_string),
        });
    };
    // The struct or enum whose parts come, and how far it is indented.
    let mut owner: Option<(&str, usize)> = None;
    for line in text.lines() {
        let indent = line.len() - line.trim_start().len();
        let line = line.trim();
        if line.starts_with(['#', '/']) || line.is_empty() {
            continue;
        }
        owner = owner.filter(|&(_, outer)| indent > outer);
        let words = line.split(' ').skip_while(|word| MODIFIERS.contains(word));
        let words: Vec<&str> = words.collect();
        if let Some((name, _)) = owner {
            parts(&words).for_each(|part| define(part, Some(name)));
        } else if let Some((keyword, name)) = item(&words) {
            define(name, None);
            let has_parts = WITH_PARTS.contains(&keyword) && line.ends_with('{');
            owner = has_parts.then_some((name, indent));
        }
    }
    definitions
}

/// The keyword and the name of an item that begins so.
fn item<'l>(words: &[&'l str]) -> Option<(&'l str, &'l str)> {
    let words = match words {
        ["const", function @ ..] if function.first() == Some(&"fn") => function,
        _ => words,
    };
    let [keyword, name, ..] = *words else {
        return None;
    };
    let is_item = WITHOUT_PARTS.contains(&keyword) || WITH_PARTS.contains(&keyword);
    is_item.then(|| (keyword, identifier(name)))
}

/// The first word of a line in a struct or an enum is a field or a variant, and a
/// variant has its fields in the same line.
fn parts<'l>(words: &'l [&'l str]) -> impl Iterator<Item = &'l str> {
    let fields = words.iter().skip(1).filter(|word| word.ends_with(':'));
    let first = words.first().into_iter();
    let names = first.chain(fields).map(|word| identifier(word));
    names.filter(|name| !name.is_empty())
}

fn identifier(word: &str) -> &str {
    let end = word.find(|letter: char| !letter.is_alphanumeric() && letter != '_');
    &word[..end.unwrap_or(word.len())]
}

#[cfg(test)]
mod tests {
    use super::*;

    const TEXT: &str = "\
// fn in_a_comment(
ghost use mathlib.Core.Path.{_≡_};
use papers::Refusal;
pub struct Atom(pub u16);
pub enum Judged {
    // comment
    Verdict { explains: bool, rounds: u64 },
    ShortDual,
    Refused(Refusal),
}
pub(crate) struct Model {
    pub t: [u64; 513],
}
pub fn judge<'a>(file: &'a [u8]) -> Judged
    ensures { λ r. ⌜ r ≡ r ⌝ }
{
    let local = 1;
}
#[no_mangle]
pub extern \"C\" fn finder_rest(
const fn at_once() {
}
mod tests {
    const MOST: usize = 1;
    fn inner() {}
}
";

    #[test]
    fn what_is_defined_is_found_with_its_owner() {
        let found = definitions(TEXT);
        let pairs: Vec<(&str, Option<&str>)> = found
            .iter()
            .map(|found| (found.name.as_str(), found.owner.as_deref()))
            .collect();
        let judged = Some("Judged");
        let expected = [
            ("Atom", None),
            ("Judged", None),
            ("Verdict", judged),
            ("explains", judged),
            ("rounds", judged),
            ("ShortDual", judged),
            ("Refused", judged),
            ("Model", None),
            ("t", Some("Model")),
            ("judge", None),
            ("finder_rest", None),
            ("at_once", None),
            ("tests", None),
            ("MOST", None),
            ("inner", None),
        ];
        assert_eq!(pairs, expected);
    }
}

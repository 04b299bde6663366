//! The kinds of code spans, by how they are written.

#[derive(Clone, Copy, Debug, PartialEq, Eq)]
pub enum Kind {
    /// With a `/` or a `.` in it.
    Path,
    /// A path to a must-fail edit, without its extension.
    Edit,
    /// Of the kit.
    Command,
    /// An item or a type as the code has it.
    Item,
    /// With a space in it.
    Expression,
    /// `some_crate::name` or `some_crate::module::name`.
    Qualified,
    /// Any other name. `..` in it stands for any letters.
    Name,
}

const ITEMS: [&str; 4] = ["[", "fn ", "struct ", "enum "];

pub fn kind(span: &str) -> Kind {
    let without_dots = span.replace("..", "");
    if span.starts_with("rt ") {
        Kind::Command
    } else if ITEMS.iter().any(|start| span.starts_with(start)) {
        Kind::Item
    } else if span.contains([' ', '≡']) {
        Kind::Expression
    } else if span.contains("must-fail/") && !span.ends_with('/') {
        Kind::Edit
    } else if without_dots.contains(['/', '.']) {
        Kind::Path
    } else if span.contains("::") {
        Kind::Qualified
    } else {
        Kind::Name
    }
}

/// Whether a name on a page is this name.
pub fn is_named(on_page: &str, name: &str) -> bool {
    match on_page.split_once("..") {
        Some((start, end)) => {
            let rest = name.strip_prefix(start);
            rest.is_some_and(|rest| rest.len() > end.len() && rest.ends_with(end))
        }
        None => on_page == name,
    }
}

/// A decimal number, or one after 0x.
pub fn is_number(word: &str) -> bool {
    let (digits, radix) = word
        .strip_prefix("0x")
        .map_or((word, 10), |rest| (rest, 16));
    !digits.is_empty() && digits.chars().all(|digit| digit.is_digit(radix))
}

#[cfg(test)]
mod tests {
    use super::*;

    #[test]
    fn each_kind_is_told_by_how_it_is_written() {
        let kinds = [
            ("papers/src/lib.rt", Kind::Path),
            ("crates/", Kind::Path),
            ("finder.h", Kind::Path),
            ("judging/must-fail/short_dual_told_as_12", Kind::Edit),
            ("judging/must-fail/", Kind::Path),
            ("rt ci", Kind::Command),
            ("struct Model", Kind::Item),
            ("[u64; 513]", Kind::Item),
            ("readRun 0x04", Kind::Expression),
            ("dualAfter ..", Kind::Expression),
            ("a ≡ b", Kind::Expression),
            ("lanes::words::lent_known", Kind::Qualified),
            ("least-parts", Kind::Name),
            ("must-fail", Kind::Name),
            ("..-fixed", Kind::Name),
        ];
        for (span, expected) in kinds {
            assert_eq!(kind(span), expected, "{span}");
        }
    }

    #[test]
    fn dots_stand_for_one_letter_or_more() {
        assert!(is_named("true-least", "true-least"));
        assert!(!is_named("true-least", "true-leas"));
        assert!(is_named("true-..", "true-least"));
        assert!(!is_named("true-..", "true-"));
        assert!(!is_named("true-..", "untrue-least"));
        assert!(is_named("..-fixed", "file-fixed"));
        assert!(!is_named("..-fixed", "file-fixed-so"));
    }

    #[test]
    fn numbers_are_decimal_or_after_0x() {
        assert!(["0", "513", "0x04", "0xfF"]
            .iter()
            .all(|word| is_number(word)));
        assert!(!["", "0x", "5a", "0xg", "x4"]
            .iter()
            .any(|word| is_number(word)));
    }
}

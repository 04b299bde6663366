//! A page in blocks: each row of a table, each heading and each paragraph. A block
//! is code spans with the words and marks between them.

#[derive(Clone, Debug, PartialEq, Eq)]
pub enum Piece {
    /// A code span, and the line of the page that it begins in.
    Span(String, usize),
    /// A backtick that has no other, and its line.
    Unpaired(usize),
    Words(String),
    Mark(char),
}

const MARKS: [char; 7] = [',', ';', ':', '.', '(', ')', '|'];

pub fn blocks(page: &str) -> Vec<Vec<Piece>> {
    let mut blocks = Vec::new();
    let mut paragraph = String::new();
    let mut first_line = 1;
    let lines = page.lines().chain([""]);
    for (line, number) in lines.zip(1..) {
        let stands_alone = line.starts_with(['|', '#']);
        if line.is_empty() || stands_alone {
            blocks.push(pieces(&paragraph, first_line));
            paragraph.clear();
        }
        if stands_alone {
            blocks.push(pieces(line, number));
        } else {
            if paragraph.is_empty() {
                first_line = number;
            }
            paragraph.push_str(line);
            paragraph.push('\n');
        }
    }
    blocks.retain(|block| !block.is_empty());
    blocks
}

fn pieces(text: &str, first_line: usize) -> Vec<Piece> {
    let mut pieces = Vec::new();
    let mut line = first_line;
    let mut parts = text.split('`').enumerate().peekable();
    while let Some((place, part)) = parts.next() {
        if place % 2 == 0 {
            between(part, &mut pieces);
        } else if parts.peek().is_some() {
            pieces.push(Piece::Span(part.replace('\n', " "), line));
        } else {
            pieces.push(Piece::Unpaired(line));
            between(part, &mut pieces);
        }
        line += part.matches('\n').count();
    }
    pieces
}

/// The words and marks of a text without code spans.
fn between(text: &str, pieces: &mut Vec<Piece>) {
    for part in text.split_inclusive(MARKS) {
        let words = part.trim_end_matches(MARKS);
        let trimmed = words.split_whitespace().collect::<Vec<_>>().join(" ");
        if !trimmed.is_empty() {
            pieces.push(Piece::Words(trimmed));
        }
        pieces.extend(part[words.len()..].chars().map(Piece::Mark));
    }
}

#[cfg(test)]
mod tests {
    use super::Piece::{Mark, Span, Unpaired, Words};
    use super::*;

    fn span(text: &str, line: usize) -> Piece {
        Span(text.to_string(), line)
    }

    fn words(text: &str) -> Piece {
        Words(text.to_string())
    }

    #[test]
    fn a_page_is_rows_headings_and_paragraphs() {
        let page = "# On `a`\n\ntwo lines, `b`\n(`c d`\nand `e\nf`)\n| `g` | h; |\n`i`";
        let expected = [
            vec![words("# On"), span("a", 1)],
            vec![
                words("two lines"),
                Mark(','),
                span("b", 3),
                Mark('('),
                span("c d", 4),
                words("and"),
                span("e f", 5),
                Mark(')'),
            ],
            vec![
                Mark('|'),
                span("g", 7),
                Mark('|'),
                words("h"),
                Mark(';'),
                Mark('|'),
            ],
            vec![span("i", 8)],
        ];
        assert_eq!(blocks(page), expected);
    }

    #[test]
    fn a_backtick_without_its_other_shows() {
        let expected = [vec![span("a", 1), words("b"), Unpaired(2), words("c")]];
        assert_eq!(blocks("`a` b\n`c"), expected);
    }
}

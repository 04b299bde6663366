//! What a page says of its code spans beside their names:
//!
//! * `a`, `b` (`place`) or (`a`, `b`, `place`): both stand in that file, folder or
//!   crate, and in each of them if there are more;
//! * `a` (the same files): it stands in those given last;
//! * `a` in `place`: it is a word of that file or folder;
//! * `a`, `b` of `R` or `R`: `a`, `b`: both are parts of R, where R has parts.

use crate::page::Piece;
use crate::project::{Place, Project};
use crate::span::{kind, Kind};

#[derive(Debug)]
pub enum Saying {
    StandsIn(Place),
    IsWordOf(Place),
    IsPartOf(String),
}

pub struct Said<'p, 't> {
    project: &'p Project<'t>,
    given_last: Vec<Place>,
}

impl<'p, 't> Said<'p, 't> {
    pub fn new(project: &'p Project<'t>) -> Self {
        Said {
            project,
            given_last: Vec::new(),
        }
    }

    /// What the next block says of the spans with these indices.
    pub fn of(&mut self, block: &[Piece]) -> Vec<(usize, Saying)> {
        let indices = 0..block.len();
        indices.flat_map(|at| self.said_at(block, at)).collect()
    }

    fn said_at(&mut self, block: &[Piece], at: usize) -> Vec<(usize, Saying)> {
        match &block[at] {
            Piece::Mark('(') => self.in_parenthesis(block, at),
            Piece::Words(words) if words == "in" => self.before_in(block, at),
            Piece::Words(words) if words == "of" => {
                self.parts(span(block, at + 1), run(block, (0..at).rev()))
            }
            Piece::Mark(':') if at > 0 => {
                self.parts(span(block, at - 1), run(block, at + 1..block.len()))
            }
            _ => Vec::new(),
        }
    }

    /// The places in a parenthesis are those of the names in it, or else of the
    /// names before it.
    fn in_parenthesis(&mut self, block: &[Piece], open: usize) -> Vec<(usize, Saying)> {
        let inside = open + 1..block.len();
        let inside = inside.take_while(|&at| block[at] != Piece::Mark(')'));
        let (mut places, mut names) = (Vec::new(), Vec::new());
        for at in inside {
            match &block[at] {
                Piece::Span(text, _) => match self.project.place(text) {
                    Some(place) => places.push(place),
                    None => names.push(at),
                },
                Piece::Words(words) if words == "the same files" => {
                    places.extend(self.given_last.iter().cloned());
                }
                _ => {}
            }
        }
        if places.is_empty() {
            return Vec::new();
        }
        if names.is_empty() {
            names = run(block, (0..open).rev());
        }
        let stands = |text| !matches!(kind(text), Kind::Path | Kind::Edit | Kind::Command);
        names.retain(|&at| span(block, at).is_some_and(stands));
        let said = places.iter().flat_map(|place| {
            let of = names.iter();
            of.map(|&at| (at, Saying::StandsIn(place.clone())))
        });
        let said = said.collect();
        self.given_last = places;
        said
    }

    fn before_in(&self, block: &[Piece], at: usize) -> Vec<(usize, Saying)> {
        let is_span = at > 0 && span(block, at - 1).is_some();
        let place = span(block, at + 1).and_then(|text| self.project.place_of_path(text));
        let place = place.filter(|_| is_span).into_iter();
        place
            .map(|place| (at - 1, Saying::IsWordOf(place)))
            .collect()
    }

    fn parts(&self, owner: Option<&str>, names: Vec<usize>) -> Vec<(usize, Saying)> {
        let owner = owner.filter(|owner| self.project.has_parts(owner));
        let part = |of: &str, at| (at, Saying::IsPartOf(of.to_string()));
        let parts = owner.map(|of| names.into_iter().map(|at| part(of, at)).collect());
        parts.unwrap_or_default()
    }
}

fn span(block: &[Piece], at: usize) -> Option<&str> {
    match block.get(at) {
        Some(Piece::Span(text, _)) => Some(text),
        _ => None,
    }
}

/// The spans that come first in this order, with nothing but commas and "and"
/// between them.
fn run(block: &[Piece], order: impl Iterator<Item = usize>) -> Vec<usize> {
    let mut spans = Vec::new();
    for at in order {
        match &block[at] {
            Piece::Span(..) => spans.push(at),
            Piece::Mark(',') if !spans.is_empty() => {}
            Piece::Words(words) if words == "and" && !spans.is_empty() => {}
            _ => break,
        }
    }
    spans
}

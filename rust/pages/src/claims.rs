//! What each code span of a page must be:
//!
//! * a path, that of a file or a folder: from the root, below `crates/`, or, where
//!   it begins with a folder of a crate, below any crate;
//! * an edit, in its folder; one without its folder, in that of the edit before it;
//! * a name, defined in a file of a crate, or what no file defines: a crate, a file
//!   that a program reads, a number, a variable of one letter, or one of [`OTHERS`];
//! * an expression: each of its words is such a name, or is a word of the code of an
//!   .rt file, where the contracts are;
//! * an item or a type, in the code of an .rt file as it is written;
//! * a command, in `.ci/run`.
//!
//! And it must be what is said of it.

use crate::code::words;
use crate::page::{blocks, Piece};
use crate::project::{Project, FOLDERS};
use crate::said::{Said, Saying};
use crate::span::{is_number, kind, Kind};
use crate::tree::Tree;

/// The words that begin the parts of a contract, and what the system is asked for.
pub const OTHERS: [&str; 3] = ["requires", "ensures", "write"];

/// What a page comes to.
#[derive(Debug, Default)]
pub struct Checked {
    /// How many code spans it has.
    pub spans: usize,
    /// How often something is said of one.
    pub said: usize,
    pub complaints: Vec<String>,
}

pub fn check(tree: &Tree, page: &str) -> Checked {
    let project = Project::of(tree);
    let mut said = Said::new(&project);
    let mut claims = Claims {
        project: &project,
        folder_of_edits: None,
    };
    let mut checked = Checked::default();
    for block in blocks(page) {
        let sayings = said.of(&block);
        checked.said += sayings.len();
        for (at, piece) in block.iter().enumerate() {
            match piece {
                Piece::Span(span, line) => {
                    let own = sayings.iter().filter(|(of, _)| *of == at);
                    let own: Vec<&Saying> = own.map(|(_, saying)| saying).collect();
                    let complaints = claims.complaints(span, &own).into_iter();
                    let told = complaints.map(|what| format!("line {line}: `{span}` {what}"));
                    checked.complaints.extend(told);
                    checked.spans += 1;
                }
                Piece::Unpaired(line) => {
                    let told = format!("line {line}: a backtick without its other");
                    checked.complaints.push(told);
                }
                Piece::Words(_) | Piece::Mark(_) => {}
            }
        }
    }
    checked
}

struct Claims<'p, 't> {
    project: &'p Project<'t>,
    /// That of the edit named last.
    folder_of_edits: Option<String>,
}

impl Claims<'_, '_> {
    fn complaints(&mut self, span: &str, said: &[&Saying]) -> Vec<String> {
        // What stands at a place may be the name of a Rust test, which no crate
        // defines.
        let is_placed = said
            .iter()
            .any(|saying| matches!(saying, Saying::StandsIn(_)));
        let own = match kind(span) {
            Kind::Name if is_placed => None,
            _ => self.complaint(span),
        };
        let others = said.iter().filter_map(|saying| self.unlike(span, saying));
        own.into_iter().chain(others).collect()
    }

    fn complaint(&mut self, span: &str) -> Option<String> {
        let project = self.project;
        let unless = |holds: bool, what: &str| (!holds).then(|| what.to_string());
        match kind(span) {
            Kind::Path => unless(!project.paths(span).is_empty(), "is no file and no folder"),
            Kind::Edit => {
                self.folder_of_edits = span.rsplit_once('/').map(|(folder, _)| folder.to_string());
                unless(!project.paths(span).is_empty(), "is no edit")
            }
            Kind::Command => unless(project.gate_runs(span), "is no command of `.ci/run`"),
            Kind::Item => unless(project.stands_in_code(span), "stands in no code"),
            Kind::Qualified => {
                let (module, name) = span.rsplit_once("::").expect("a qualified name");
                let stands = project.defines_in_module(name, module);
                unless(stands, &format!("is not defined in `{module}`"))
            }
            Kind::Expression => {
                let unknown = words(span)
                    .find(|word| !project.is_word_of_contracts(word) && !self.is_name(word));
                unknown.map(|word| format!("has `{word}`, which no crate defines"))
            }
            Kind::Name if self.is_name(span) => None,
            Kind::Name => self.no_edit(span),
        }
    }

    fn is_name(&self, name: &str) -> bool {
        self.project.defines(name)
            || self.project.is_crate(name)
            || self.project.is_rust_crate(name)
            || self.project.stands_in_code(&format!("b\"{name}\""))
            || FOLDERS.contains(&name)
            || OTHERS.contains(&name)
            || is_number(name)
            || name.chars().count() == 1
    }

    /// None where it is an edit of the folder named last.
    fn no_edit(&self, name: &str) -> Option<String> {
        let last = self.folder_of_edits.as_deref();
        if last.is_some_and(|folder| self.project.has_edit(folder, name)) {
            return None;
        }
        Some(match self.project.folder_of_edit(name) {
            Some(folder) => format!("is an edit of `{folder}`, which is not the folder before it"),
            None => "is defined in no crate".to_string(),
        })
    }

    /// How it is not as it is said to be.
    fn unlike(&self, span: &str, saying: &Saying) -> Option<String> {
        let name = span.rsplit("::").next().unwrap_or(span);
        let (holds, what) = match saying {
            Saying::StandsIn(place) => {
                let stands = match kind(span) {
                    Kind::Item => self.project.stands_at(span, place),
                    // Its first word is what is told of.
                    Kind::Expression => words(span)
                        .next()
                        .is_some_and(|word| self.project.is_word_at(word, place)),
                    _ => OTHERS.contains(&name) || self.project.defines_at(name, place),
                };
                (stands, format!("does not stand in `{}`", place.name))
            }
            Saying::IsWordOf(place) => {
                let is_word = self.project.is_word_at(name, place);
                (is_word, format!("is no word of `{}`", place.name))
            }
            Saying::IsPartOf(owner) => {
                let is_part = self.project.has_part(owner, name);
                (is_part, format!("is no part of `{owner}`"))
            }
        };
        (!holds).then_some(what)
    }
}

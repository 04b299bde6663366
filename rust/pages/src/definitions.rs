//! What the files of the project define.

use crate::tree::Tree;
use crate::{antt, rust};

/// A name that a file defines.
#[derive(Clone, Debug, PartialEq, Eq)]
pub struct Definition {
    pub name: String,
    /// The record, data type, struct or enum that it is a part of.
    pub owner: Option<String>,
}

/// The names of this crate's own tests are made up.
const MADE_UP: &str = "rust/pages/";

#[derive(Debug)]
pub struct Definitions<'t> {
    of_files: Vec<(&'t str, Vec<Definition>)>,
}

impl<'t> Definitions<'t> {
    pub fn of(tree: &'t Tree) -> Self {
        let sources = tree.files().filter(|(path, _)| !path.starts_with(MADE_UP));
        let of_files = sources.filter_map(|(path, text)| Some((path, of_file(path, text)?)));
        Definitions {
            of_files: of_files.collect(),
        }
    }

    /// All that the files of these paths define.
    pub fn at<'d>(
        &'d self,
        is_there: impl Fn(&str) -> bool + 'd,
    ) -> impl Iterator<Item = &'d Definition> {
        let files = self.of_files.iter();
        let there = files.filter(move |(path, _)| is_there(path));
        there.flat_map(|(_, definitions)| definitions)
    }
}

/// None where it is not a file of code. A file of a crate is a module too, of its
/// own name.
fn of_file(path: &str, text: &str) -> Option<Vec<Definition>> {
    let (stem, extension) = path.rsplit_once('.')?;
    let mut definitions = match extension {
        "antt" => antt::definitions(text),
        "rt" | "rs" => rust::definitions(text),
        _ => return None,
    };
    let module = stem.rsplit('/').next().unwrap_or(stem);
    definitions.push(Definition {
        name: module.to_string(),
        owner: None,
    });
    Some(definitions)
}

//! What the project is asked for: its paths, its definitions and its code.

use std::collections::BTreeSet;

use crate::code::{lines_of, occurs, words_of};
use crate::definitions::Definitions;
use crate::span::{is_named, kind, Kind};
use crate::tree::Tree;

/// The folders of a crate.
pub const FOLDERS: [&str; 4] = ["src", "specs", "proofs", "must-fail"];

/// Where a page says that something stands.
#[derive(Clone, Debug)]
pub struct Place {
    /// As the page has it.
    pub name: String,
    files: BTreeSet<String>,
}

pub struct Project<'t> {
    tree: &'t Tree,
    definitions: Definitions<'t>,
    /// The words of the code of .rt files, where the contracts are.
    contracts: BTreeSet<&'t str>,
}

impl<'t> Project<'t> {
    pub fn of(tree: &'t Tree) -> Self {
        Project {
            tree,
            definitions: Definitions::of(tree),
            contracts: words_of(tree.files().filter(is_contract)),
        }
    }

    // ---- paths

    /// The files and folders that a path on a page is: from the root, below
    /// `crates/`, or from a folder of a crate on below any crate.
    pub fn paths(&self, path: &str) -> Vec<String> {
        let mut paths = vec![path.to_string(), format!("crates/{path}")];
        if path
            .split('/')
            .next()
            .is_some_and(|first| FOLDERS.contains(&first))
        {
            let crates = self.crates().into_iter();
            paths.extend(crates.map(|name| format!("crates/{name}/{path}")));
        }
        if kind(path) == Kind::Edit {
            paths.iter_mut().for_each(|path| path.push_str(".edit"));
        }
        paths.retain(|path| self.tree.has(path));
        paths
    }

    /// The place of a span that is a path.
    pub fn place_of_path(&self, span: &str) -> Option<Place> {
        let paths = self.paths(span);
        let is_place = kind(span) == Kind::Path && !paths.is_empty();
        is_place.then(|| self.place_of(span, &paths))
    }

    /// The place of a span that is a path, or a crate.
    pub fn place(&self, span: &str) -> Option<Place> {
        if self.is_crate(span) {
            return Some(self.place_of(span, &[format!("crates/{span}")]));
        }
        self.place_of_path(span)
    }

    fn place_of(&self, name: &str, paths: &[String]) -> Place {
        let files = paths.iter().flat_map(|path| self.tree.below(path));
        Place {
            name: name.to_string(),
            files: files.map(|(file, _)| file.to_string()).collect(),
        }
    }

    fn crates(&self) -> BTreeSet<&'t str> {
        let below = self.tree.below("crates/");
        below
            .filter_map(|(path, _)| path.split('/').nth(1))
            .collect()
    }

    /// Whether it is a crate of the product.
    pub fn is_crate(&self, name: &str) -> bool {
        self.tree.has(&format!("crates/{name}/src"))
    }

    /// Whether it is a crate of the tests.
    pub fn is_rust_crate(&self, name: &str) -> bool {
        self.tree.has(&format!("rust/{name}/src"))
    }

    pub fn has_edit(&self, folder: &str, name: &str) -> bool {
        self.tree.has(&format!("crates/{folder}/{name}.edit"))
    }

    /// A folder that has an edit of this name.
    pub fn folder_of_edit(&self, name: &str) -> Option<String> {
        let crates = self.crates().into_iter();
        let mut folders = crates.map(|of| format!("{of}/must-fail"));
        folders.find(|folder| self.has_edit(folder, name))
    }

    // ---- definitions

    /// Whether a file of a crate defines it.
    pub fn defines(&self, name: &str) -> bool {
        let mut all = self.definitions.at(is_of_crate);
        all.any(|definition| is_named(name, &definition.name))
    }

    pub fn defines_at(&self, name: &str, place: &Place) -> bool {
        let mut there = self.definitions.at(|path| place.files.contains(path));
        there.any(|definition| is_named(name, &definition.name))
    }

    /// Whether the source of a crate, or of a module of it, defines it.
    pub fn defines_in_module(&self, name: &str, module: &str) -> bool {
        let files = match module.split_once("::") {
            Some((of, module)) => vec![format!("crates/{of}/src/{module}.rt")],
            None => ["lib", "main"]
                .map(|file| format!("crates/{module}/src/{file}.rt"))
                .to_vec(),
        };
        let mut there = self
            .definitions
            .at(|path| files.iter().any(|file| file == path));
        there.any(|definition| definition.name == name)
    }

    /// Whether it is a record, a data type, a struct or an enum with parts.
    pub fn has_parts(&self, owner: &str) -> bool {
        let mut all = self.definitions.at(is_of_crate);
        all.any(|definition| definition.owner.as_deref() == Some(owner))
    }

    pub fn has_part(&self, owner: &str, name: &str) -> bool {
        let mut all = self.definitions.at(is_of_crate);
        all.any(|definition| {
            definition.owner.as_deref() == Some(owner) && is_named(name, &definition.name)
        })
    }

    // ---- code

    pub fn is_word_of_contracts(&self, word: &str) -> bool {
        self.contracts.contains(word)
    }

    pub fn is_word_at(&self, name: &str, place: &Place) -> bool {
        let files = self.tree.files();
        let there = files.filter(|(path, _)| place.files.contains(*path));
        words_of(there).iter().any(|word| is_named(name, word))
    }

    pub fn stands_in_code(&self, text: &str) -> bool {
        let files = self.tree.files().filter(is_contract);
        lines_of(files).any(|line| occurs(text, line))
    }

    pub fn stands_at(&self, text: &str, place: &Place) -> bool {
        let files = self.tree.files();
        let there = files.filter(|(path, _)| place.files.contains(*path));
        lines_of(there).any(|line| occurs(text, line))
    }

    pub fn gate_runs(&self, command: &str) -> bool {
        lines_of(self.tree.below(".ci/run")).any(|line| occurs(command, line))
    }
}

fn is_of_crate(path: &str) -> bool {
    path.starts_with("crates/")
}

fn is_contract((path, _): &(&str, &str)) -> bool {
    path.ends_with(".rt")
}

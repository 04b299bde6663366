//! The files of the project, by their paths from its root.

use std::collections::BTreeMap;
use std::fs;
use std::path::Path;

/// What is made, and what git keeps, is no part of the project.
const LEFT_OUT: [&str; 3] = ["target", "out", ".git"];

#[derive(Debug)]
pub struct Tree {
    files: BTreeMap<String, String>,
}

impl Tree {
    /// The project that this crate is in.
    pub fn of_project() -> Self {
        let root = Path::new(env!("CARGO_MANIFEST_DIR")).join("../..");
        let mut files = BTreeMap::new();
        read(&root, "", &mut files);
        Tree { files }
    }

    pub fn of(files: &[(&str, &str)]) -> Self {
        let own = |&(path, text): &(&str, &str)| (path.to_string(), text.to_string());
        Tree {
            files: files.iter().map(own).collect(),
        }
    }

    /// The file, or all files of the folder, of this path; none where there is
    /// neither.
    pub fn below<'t>(&'t self, path: &'t str) -> impl Iterator<Item = (&'t str, &'t str)> {
        let folder = path.strip_suffix('/');
        self.files().filter(move |(file, _)| {
            let rest = file.strip_prefix(folder.unwrap_or(path));
            rest.is_some_and(|rest| rest.starts_with('/') || (rest.is_empty() && folder.is_none()))
        })
    }

    pub fn has(&self, path: &str) -> bool {
        self.below(path).next().is_some()
    }

    /// Each with its text.
    pub fn files(&self) -> impl Iterator<Item = (&str, &str)> {
        let files = self.files.iter();
        files.map(|(path, text)| (path.as_str(), text.as_str()))
    }
}

/// Adds the files of a folder, which has this path from the root.
fn read(folder: &Path, path: &str, files: &mut BTreeMap<String, String>) {
    let entries = fs::read_dir(folder).expect("a folder of the project");
    for entry in entries.map(|entry| entry.expect("an entry")) {
        let name = entry
            .file_name()
            .into_string()
            .expect("a name that is a text");
        let own = format!("{path}{name}");
        if entry.path().is_dir() {
            if !LEFT_OUT.contains(&name.as_str()) {
                read(&entry.path(), &format!("{own}/"), files);
            }
        } else {
            let bytes = fs::read(entry.path()).expect("a file of the project");
            files.insert(own, String::from_utf8_lossy(&bytes).into_owned());
        }
    }
}

#[cfg(test)]
mod tests {
    use super::Tree;

    #[test]
    fn a_path_is_a_file_or_a_folder() {
        let tree = Tree::of(&[("a/b/c", ""), ("a/bd", "")]);
        let below = |path| tree.below(path).map(|(file, _)| file).collect::<Vec<_>>();
        assert_eq!(below("a"), ["a/b/c", "a/bd"]);
        assert_eq!(below("a/"), ["a/b/c", "a/bd"]);
        assert_eq!(below("a/b"), ["a/b/c"]);
        assert_eq!(below("a/b/c"), ["a/b/c"]);
        assert_eq!(below("a/b/"), ["a/b/c"]);
        for none in ["b", "a/b/c/", "a/bd/", "a/b/cc", "a/bdd"] {
            assert!(!tree.has(none), "{none}");
        }
    }

    #[test]
    fn the_project_has_this_file_and_nothing_made() {
        let tree = Tree::of_project();
        assert!(tree.has("rust/pages/src/tree.rs"));
        assert!(tree.has("crates.txt"));
        assert!(!tree.has("rust/target"));
    }
}

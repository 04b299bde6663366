//! The calls told in `examples/`.

use std::fs;
use std::path::{Path, PathBuf};

/// A call's folder and what is stored in it.
#[derive(Clone, Debug)]
pub struct Example {
    pub folder: PathBuf,
    pub readme: String,
    pub rules: String,
    /// The same by number, as Card 4 of document 02 has them typed.
    pub typed: String,
    pub causes: Vec<u8>,
    pub sheet: Vec<u8>,
    /// What the desk program prints in the folder.
    pub expected: String,
}

/// The folder of `examples/` that is no call but a program.
const PROGRAM: &str = "c";

/// All of them, by name.
pub fn examples() -> Vec<Example> {
    let directory = Path::new(env!("CARGO_MANIFEST_DIR")).join("../../examples");
    let entries = fs::read_dir(directory).expect("a directory of examples");
    let paths = entries.map(|entry| entry.expect("an entry").path());
    let is_call = |path: &PathBuf| path.is_dir() && !path.ends_with(PROGRAM);
    let mut folders: Vec<PathBuf> = paths.filter(is_call).collect();
    folders.sort();
    folders.into_iter().map(Example::read).collect()
}

impl Example {
    fn read(folder: PathBuf) -> Self {
        let bytes = |name| {
            let path = folder.join(name);
            fs::read(&path).unwrap_or_else(|error| panic!("{}: {error}", path.display()))
        };
        let text = |name| String::from_utf8(bytes(name)).expect("a text");
        Example {
            readme: text("README.md"),
            rules: text("rules.txt"),
            typed: text("typed.txt"),
            causes: bytes("causes"),
            sheet: bytes("sheet"),
            expected: text("expected"),
            folder,
        }
    }
}

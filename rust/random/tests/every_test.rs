//! Every random test has its seed by `random::seed`: no other file names the
//! variable in its code, and no test has a number for its seed.

use random::seed::VARIABLE;
use std::fs;
use std::path::{Path, PathBuf};

/// The variable's own crate; the files that are measured, which are to stay the
/// same; and what is built.
const LEFT_OUT: [&str; 3] = ["random", "bench", "target"];

fn sources(folder: &Path, found: &mut Vec<PathBuf>) {
    let entries = fs::read_dir(folder).expect("a folder of sources");
    for path in entries.map(|entry| entry.expect("an entry").path()) {
        if path.is_dir() {
            sources(&path, found);
        } else if path.extension().is_some_and(|extension| extension == "rs") {
            found.push(path);
        }
    }
}

/// The crates beside this one.
fn all_sources() -> Vec<PathBuf> {
    let workspace = Path::new(env!("CARGO_MANIFEST_DIR")).join("..");
    let mut found = Vec::new();
    for entry in fs::read_dir(workspace).expect("the workspace") {
        let path = entry.expect("an entry").path();
        let is_left_out = LEFT_OUT.iter().any(|name| path.ends_with(name));
        if path.is_dir() && !is_left_out {
            sources(&path, &mut found);
        }
    }
    found
}

/// A seed is another random number, or goes by its name.
fn is_a_seed(argument: &str) -> bool {
    argument.contains("seed") || argument.contains("random.word()")
}

/// What is wrong with a line of code.
fn complaint(line: &str) -> Option<&'static str> {
    if line.trim_start().starts_with("//") {
        return None;
    }
    if line.contains(VARIABLE) {
        return Some("names the variable");
    }
    let argument = line
        .split_once("Random::new(")
        .or(line.split_once("Patterns::new("));
    let (_, argument) = argument?;
    (!is_a_seed(argument)).then_some("has a seed of its own")
}

#[test]
fn no_other_code_reads_the_variable_or_does_without_it() {
    let paths = all_sources();
    let mut seeds = 0;
    let mut complaints = Vec::new();
    for path in paths {
        let text = fs::read_to_string(&path).expect("a source");
        seeds += text.matches("seed(").count();
        for (line, number) in text.lines().zip(1..) {
            if let Some(what) = complaint(line) {
                complaints.push(format!("{}:{number} {what}", path.display()));
            }
        }
    }
    assert!(complaints.is_empty(), "{}", complaints.join("\n"));
    assert!(seeds > 10, "{seeds} seeds in the other crates");
}

#[test]
fn what_is_wrong_is_found() {
    for right in [
        "let mut random = Random::new(seed(11));",
        "Random::new(comparison.seed())",
        "Patterns::new(!run.seed)",
        "Random::new(patterns.random.word())",
        "/// FINDER_SEED is set",
    ] {
        assert_eq!(complaint(right), None, "{right}");
    }
    for wrong in ["Random::new(11)", "Patterns::new(SIZE)"] {
        assert_eq!(complaint(wrong), Some("has a seed of its own"), "{wrong}");
    }
    let own = "env::var(\"FINDER_SEED\")";
    assert_eq!(complaint(own), Some("names the variable"));
}

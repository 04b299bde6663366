//! Runs the compiled desk program in folders: those of the examples, and random
//! ones, where it must print what the separate finder renders.
//!
//! `tools/build` builds it; the gate does so before the tests.

use compare::causes::{causes, consistent_causes, query_of_heads, Causes};
use compare::damage::{a_few, damaged, Bounds};
use compare::examples::examples;
use compare::noise::noise;
use compare::programs::mentions_undefined;
use plain::{desk, encode_file, encode_sheet, read_file};
use random::seed::{seeds, VARIABLE};
use random::Random;
use std::fs;
use std::path::{Path, PathBuf};
use std::process::Command;

/// Random folders, each with its own seed.
const FOLDERS: u64 = 1_600;

/// So many of them must be such as are counted.
const LEAST: u64 = 50;

/// More bytes than the desk program reads of a paper.
const LONG: usize = 70_000;

fn printed(folder: &Path) -> String {
    let program = Path::new(env!("CARGO_MANIFEST_DIR")).join("../../target/bin/desk");
    let output = Command::new(program)
        .current_dir(folder)
        .output()
        .expect("the desk program, which `tools/build` builds");
    assert!(output.status.success(), "{output:?}");
    String::from_utf8(output.stdout).expect("a text")
}

#[test]
fn examples_print_what_is_stored() {
    for example in examples() {
        assert_eq!(
            printed(&example.folder),
            example.expected,
            "{:?}",
            example.folder
        );
    }
}

/// A folder of its own, removed when it is dropped.
struct Folder(PathBuf);

impl Folder {
    fn new(seed: u64) -> Self {
        let path = std::env::temp_dir().join(format!("desk-{}-{seed}", std::process::id()));
        fs::create_dir(&path).expect("a new folder");
        Folder(path)
    }

    fn put(&self, name: &str, paper: &Option<Vec<u8>>) {
        if let Some(bytes) = paper {
            fs::write(self.0.join(name), bytes).expect("a paper");
        }
    }
}

impl Drop for Folder {
    fn drop(&mut self) {
        let _ = fs::remove_dir_all(&self.0);
    }
}

/// A paper as it may be found: whole, mostly; damaged, too long, noise or missing.
fn found(random: &mut Random, whole: Vec<u8>, bounds: &Bounds) -> Option<Vec<u8>> {
    match random.below(12) {
        0 => None,
        1 | 2 => {
            let times = a_few(random);
            Some(damaged(random, &whole, bounds, times))
        }
        3 => Some(noise(random)),
        4 => {
            let mut long = whole;
            long.resize(LONG, random.byte());
            Some(long)
        }
        _ => Some(whole),
    }
}

fn has_undefined(file: &[u8]) -> bool {
    read_file(file).is_ok_and(|program| mentions_undefined(&program))
}

#[test]
fn random_folders_print_what_the_separate_finder_renders() {
    let [mut explained, mut refused] = [0; 2];
    // Of those with FFFF.
    let [mut found_some, mut found_none] = [0; 2];
    for seed in seeds(0, FOLDERS) {
        let mut random = Random::new(seed);
        let abducibles = random.between(0, 7);
        let others = random.between(1, 9);
        let make = random.pick::<Causes>(&[causes, consistent_causes]);
        let program = make(&mut random, abducibles, others);
        let query = query_of_heads(&mut random, &program);
        let bounds = Bounds::of(&program);
        let file = found(&mut random, encode_file(&program), &bounds);
        let sheet = found(&mut random, encode_sheet(&query), &bounds);

        let folder = Folder::new(seed);
        folder.put("causes", &file);
        folder.put("sheet", &sheet);
        let expected = desk(file.as_deref(), sheet.as_deref());
        assert_eq!(printed(&folder.0), expected, "{VARIABLE}={seed}");
        let is_explained = expected.contains("\nfound ");
        let is_refused = expected.starts_with("refused ");
        explained += u64::from(is_explained);
        refused += u64::from(is_refused);
        if file.as_deref().is_some_and(has_undefined) {
            found_some += u64::from(is_explained);
            found_none += u64::from(!is_explained && !is_refused);
        }
    }
    let told = format!(
        "{explained} explained, {refused} refused; \
         with FFFF {found_some} explained, {found_none} not"
    );
    println!("{FOLDERS} folders, {told}");
    let counts = [explained, refused, found_some, found_none];
    assert!(counts.iter().all(|&count| count >= LEAST), "{told}");
}

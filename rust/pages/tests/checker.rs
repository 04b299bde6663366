//! The checker on a made-up project and a made-up page: it has nothing against
//! the page as it is, and complains of each mistake that is put into it.

use pages::claims::check;
use pages::tree::Tree;

const PROJECT: [(&str, &str); 10] = [
    (
        "crates/reading/src/lib.rt",
        "// It is no gone_function.
pub enum FileRead {
    Accepted { atoms: u16 },
    Refused(u8),
}

pub fn read_file(file: &[u8]) -> FileRead
    ensures { λ r. ⌜ fileTold r ≡ readFile (now (file .entry)) ⌝ }
{
    let local_name = open(b\"causes\");
}
",
    ),
    (
        "crates/reading/src/words.rt",
        "pub struct Model {
    pub t: [u64; 513],
}

pub fn word_at(place: usize) -> u8
",
    ),
    (
        "crates/reading/specs/Told.antt",
        "use lib.ListN.{length}

-- It is not gone-law : ℕ
unfoldable pub fileTold : ℕ → ℕ
fileTold n = readFile n

pub record Demand (n : ℕ) : Type 0 where
  pub entries : n ≡ n
  pub rounds : n ≡ n
",
    ),
    (
        "crates/reading/proofs/ToldLaws.antt",
        "pub file-fixed : ℕ
file-fixed = go
  where
  local-law : ℕ

pub file-from : ℕ
",
    ),
    ("crates/reading/must-fail/file_told_twice.edit", ""),
    ("crates/reading/must-fail/nothing_read.edit", ""),
    ("crates/other/src/lib.rt", "pub fn other_function() -> u8\n"),
    ("crates/other/must-fail/other_edit.edit", ""),
    (
        "rust/plain/src/reading.rs",
        "#[test]\nfn an_empty_file_is_refused() {}\n",
    ),
    (".ci/run", "# rt selftest\nrt ci 2>&1\n"),
];

const PAGE: &str = "
# Claims, all below `crates/`

| claim | where |
|---|---|
| read | `reading::read_file`, `Accepted` (`reading/src/lib.rt`) has no `requires`: `fileTold r ≡ readFile ..`; `word_at` (`reading`) |
| told | `fileTold` (`reading/specs/Told.antt`), fixed (`file-fixed`, `reading/proofs/ToldLaws.antt`) by `file-..` in `proofs/ToldLaws.antt` |
| demanded | `entries` and `rounds` of `Demand`; `Demand`: `rounds`; law `file-from` |
| held | `struct Model` with `[u64; 513]` (`reading/src/words.rt`) |
| run | by `rt ci`: `an_empty_file_is_refused` (`rust/plain/src/reading.rs`), of the file `causes`, by `plain` |
| again | `an_empty_file_is_refused` (the same files) |
| refused | `reading/must-fail/file_told_twice`, `nothing_read`; `reading::words::word_at` |

Those of `other`: `other_function`
(`other/src/lib.rt`), and `0x7F`.
";

fn complaints(page: &str) -> Vec<String> {
    check(&Tree::of(&PROJECT), page).complaints
}

#[test]
fn a_right_page_passes() {
    assert_eq!(complaints(PAGE), [""; 0]);
}

/// Puts mistakes into the page, each in the place of something that stands there
/// once, and expects to be told of it.
fn expect(mistakes: &[(&str, &str, &str)]) {
    for &(right, wrong, expected) in mistakes {
        assert_eq!(PAGE.matches(right).count(), 1, "{right}");
        let told = complaints(&PAGE.replace(right, wrong));
        let is_told = told.iter().any(|complaint| complaint == expected);
        assert!(is_told, "not {expected:?} of {wrong}, but {told:?}");
    }
}

#[test]
fn wrong_names_are_told() {
    let no_crate = |name| format!("line 8: `{name}` is defined in no crate");
    // Misspelt, in comments alone, local to a proof or a function, of the kit, a
    // Rust test without its place.
    for name in [
        "file-form",
        "file-fro",
        "gone-law",
        "gone_function",
        "local-law",
        "local_name",
        "length",
        "an_empty_file_is_refused",
    ] {
        expect(&[("law `file-from`", &format!("law `{name}`"), &no_crate(name))]);
    }
    expect(&[
        (
            "`Accepted`",
            "`Acepted`",
            "line 6: `Acepted` does not stand in `reading/src/lib.rt`",
        ),
        (
            "`requires`",
            "`require`",
            "line 6: `require` is defined in no crate",
        ),
        (
            "`file-..`",
            "`flie-..`",
            "line 7: `flie-..` is defined in no crate",
        ),
        (
            "`causes`",
            "`cause`",
            "line 10: `cause` is defined in no crate",
        ),
        (
            "`plain`",
            "`plane`",
            "line 10: `plane` is defined in no crate",
        ),
        (
            "`other`",
            "`others`",
            "line 14: `others` is defined in no crate",
        ),
        ("`0x7F`", "`0x7G`", "line 15: `0x7G` is defined in no crate"),
        (
            "`causes`",
            "`causes",
            "line 10: a backtick without its other",
        ),
    ]);
}

#[test]
fn wrong_paths_are_told() {
    let none = |line, path| format!("line {line}: `{path}` is no file and no folder");
    for (line, right, wrong) in [
        (2, "crates/", "crate/"),
        (6, "reading/src/lib.rt", "reading/src/lib.rs"),
        (7, "reading/specs/Told.antt", "reading/specs/Tolled.antt"),
        (
            7,
            "reading/proofs/ToldLaws.antt",
            "other/proofs/ToldLaws.antt",
        ),
        (10, "rust/plain/src/reading.rs", "plain/src/reading.rs"),
        (15, "other/src/lib.rt", "other/src/lib.rt/"),
    ] {
        let [right_span, wrong_span] = [right, wrong].map(|path| format!("`{path}`"));
        expect(&[(&right_span, &wrong_span, &none(line, wrong))]);
    }
    let in_each = "line 7: `proofs/Laws.antt` is no file and no folder";
    expect(&[("`proofs/ToldLaws.antt`", "`proofs/Laws.antt`", in_each)]);
}

#[test]
fn names_in_the_wrong_place_are_told() {
    expect(&[
        (
            "(`reading`)",
            "(`other`)",
            "line 6: `word_at` does not stand in `other`",
        ),
        (
            "(`reading/specs/Told.antt`)",
            "(`reading/proofs/ToldLaws.antt`)",
            "line 7: `fileTold` does not stand in `reading/proofs/ToldLaws.antt`",
        ),
        (
            "(`reading/specs/Told.antt`)",
            "(`reading/specs/Told.antt`, `other`)",
            "line 7: `fileTold` does not stand in `other`",
        ),
        (
            "`reading/proofs/ToldLaws.antt`)",
            "`reading/specs/Told.antt`)",
            "line 7: `file-fixed` does not stand in `reading/specs/Told.antt`",
        ),
        (
            "in `proofs/ToldLaws.antt`",
            "in `reading/src/lib.rt`",
            "line 7: `file-..` is no word of `reading/src/lib.rt`",
        ),
        (
            "(`reading/src/words.rt`)",
            "(`reading/src/lib.rt`)",
            "line 9: `[u64; 513]` does not stand in `reading/src/lib.rt`",
        ),
        (
            "`an_empty_file_is_refused` (the",
            "`an_empty_sheet_is_refused` (the",
            "line 11: `an_empty_sheet_is_refused` does not stand in `rust/plain/src/reading.rs`",
        ),
        (
            "(`other/src/lib.rt`)",
            "(`reading/src/lib.rt`)",
            "line 14: `other_function` does not stand in `reading/src/lib.rt`",
        ),
        (
            "`fileTold` (",
            "`fileTold` and `file-from` (",
            "line 7: `file-from` does not stand in `reading/specs/Told.antt`",
        ),
    ]);
}

#[test]
fn names_in_the_wrong_crate_module_or_record_are_told() {
    expect(&[
        (
            "`reading::read_file`",
            "`other::read_file`",
            "line 6: `other::read_file` is not defined in `other`",
        ),
        (
            "`reading::read_file`",
            "`reading::word_at`",
            "line 6: `reading::word_at` is not defined in `reading`",
        ),
        (
            "`reading::words::word_at`",
            "`reading::words::read_file`",
            "line 12: `reading::words::read_file` is not defined in `reading::words`",
        ),
        (
            "`entries` and",
            "`Accepted` and",
            "line 8: `Accepted` is no part of `Demand`",
        ),
        (
            "`Demand`: `rounds`",
            "`Demand`: `atoms`",
            "line 8: `atoms` is no part of `Demand`",
        ),
    ]);
}

#[test]
fn wrong_expressions_items_and_commands_are_told() {
    let expression = "`fileTold r ≡ readFile ..`";
    expect(&[
        (
            expression,
            "`fileTodl r ≡ readFile ..`",
            "line 6: `fileTodl r ≡ readFile ..` has `fileTodl`, which no crate defines",
        ),
        (
            expression,
            "`fileTold r ≡ readFiles ..`",
            "line 6: `fileTold r ≡ readFiles ..` has `readFiles`, which no crate defines",
        ),
        (
            expression,
            "`fileTold gone_function`",
            "line 6: `fileTold gone_function` has `gone_function`, which no crate defines",
        ),
        (
            "`struct Model`",
            "`struct Mode`",
            "line 9: `struct Mode` stands in no code",
        ),
        (
            "`struct Model`",
            "`struct FileRead`",
            "line 9: `struct FileRead` stands in no code",
        ),
        (
            "`[u64; 513]`",
            "`[u64; 512]`",
            "line 9: `[u64; 512]` stands in no code",
        ),
        (
            "`rt ci`",
            "`rt cite`",
            "line 10: `rt cite` is no command of `.ci/run`",
        ),
        (
            "`rt ci`",
            "`rt selftest`",
            "line 10: `rt selftest` is no command of `.ci/run`",
        ),
    ]);
}

#[test]
fn wrong_edits_are_told() {
    expect(&[
        (
            "`reading/must-fail/file_told_twice`",
            "`reading/must-fail/file_told_once`",
            "line 12: `reading/must-fail/file_told_once` is no edit",
        ),
        (
            "`nothing_read`",
            "`nothing_raed`",
            "line 12: `nothing_raed` is defined in no crate",
        ),
        (
            "`nothing_read`",
            "`other_edit`",
            "line 12: `other_edit` is an edit of `other/must-fail`, which is not the folder before it",
        ),
        (
            "`reading/must-fail/file_told_twice`",
            "`other/must-fail/other_edit`",
            "line 12: `nothing_read` is an edit of `reading/must-fail`, which is not the folder before it",
        ),
    ]);
}

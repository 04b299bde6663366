//! The header, and the program of examples/c, compiled as C and as C++ without a
//! warning. The program runs a search and fails where the finder is wrong.
//!
//! Where a compiler is missing the tests fail.

use std::fs;
use std::path::{Path, PathBuf};
use std::process::{Command, Output};

use Wrong::{Continue, Fresh, Nowhere, Rest};

/// A language as a compiler has it: the compiler, the language's name, a standard.
type Language = (&'static str, &'static str, &'static str);

const C99: Language = ("cc", "c", "c99");
const CPP11: Language = ("c++", "c++", "c++11");

const LANGUAGES: [Language; 7] = [
    C99,
    ("cc", "c", "c11"),
    ("cc", "c", "c17"),
    CPP11,
    ("c++", "c++", "c++14"),
    ("c++", "c++", "c++17"),
    ("c++", "c++", "c++20"),
];

const STRICT: &str = "-Wall -Wextra -Werror -pedantic -Iinclude";

fn root() -> PathBuf {
    Path::new(env!("CARGO_MANIFEST_DIR")).join("../..")
}

fn readme() -> String {
    fs::read_to_string(root().join("examples/c/README.md")).expect("the program's README.md")
}

/// A file that a test writes; no two tests have one of the same name.
fn own(name: &str) -> PathBuf {
    Path::new(env!("CARGO_TARGET_TMPDIR")).join(name)
}

/// The command that compiles the program, as README.md has it.
fn command((compiler, language, standard): Language, program: &str) -> String {
    format!(
        "{compiler} -std={standard} {STRICT} -o {program} \
         -x {language} examples/c/search.c -x none target/staticlib/libfinder_c.a"
    )
}

/// Runs the words of a command at the root of the project, and `more` after them.
fn run(command: &str, more: &[&str]) -> Output {
    let mut words = command.split(' ');
    let program = words.next().expect("a program");
    let mut running = Command::new(program);
    running.args(words).args(more).current_dir(root());
    let output = running.output();
    output.unwrap_or_else(|error| panic!("{program}: {error}"))
}

fn assert_silent(output: &Output, what: &str) {
    let said = String::from_utf8_lossy(&output.stderr);
    assert!(output.status.success(), "{what}: {}\n{said}", output.status);
    assert_eq!(said, "", "{what}");
}

/// Compiles the program by the command of README.md but for the place of what
/// it makes, links `more` with it, and runs it.
fn compiled_and_run(language: Language, name: &str, more: &[&str]) -> Output {
    let program = own(name);
    let command = command(language, "PROGRAM").replace(" -o PROGRAM", "");
    let place = program.to_str().expect("a path that is a text");
    let compiled = run(&command, &[&["-o", place], more].concat());
    assert_silent(&compiled, &command);
    Command::new(&program).output().expect("the program runs")
}

#[test]
fn the_header_stands_alone_and_may_be_included_twice() {
    for (compiler, language, standard) in LANGUAGES {
        let command = format!(
            "{compiler} -std={standard} {STRICT} -fsyntax-only \
             -include finder.h -x {language} include/finder.h"
        );
        assert_silent(&run(&command, &[]), &command);
    }
}

#[test]
fn the_program_prints_what_its_readme_has() {
    let readme = readme();
    for language in LANGUAGES {
        let (_, _, standard) = language;
        let ran = compiled_and_run(language, &format!("search-{standard}"), &[]);
        assert_silent(&ran, standard);
        let printed = String::from_utf8(ran.stdout).expect("a text");
        assert!(printed.contains("found ") && printed.contains("refused "));
        let lines = printed.lines().map(|line| format!("    {line}\n"));
        let output = format!("\n\n{}\n", lines.collect::<String>());
        assert!(readme.contains(&output), "{standard}: not\n{printed}");
    }
}

#[test]
fn the_commands_of_the_readme_are_those_that_are_run() {
    let readme = readme();
    for language in [C99, CPP11] {
        let line = format!("\n    {}\n", command(language, "target/search"));
        assert!(readme.contains(&line), "no line{line}");
    }
}

/// Lets the finder answer and then spoils the answer, in `WRONG_REST`, in
/// `WRONG_FRESH` or in `WRONG_CONTINUE`.
const WRONG: &str = r#"
#include "finder.h"

void __real_finder_rest(const uint8_t *file, size_t file_len, const uint8_t *sheet, size_t sheet_len, uint64_t out[8]);
void __wrap_finder_rest(const uint8_t *file, size_t file_len, const uint8_t *sheet, size_t sheet_len, uint64_t out[8])
{
    __real_finder_rest(file, file_len, sheet, sheet_len, out);
    WRONG_REST;
}

void __real_finder_fresh(const uint8_t *file, size_t file_len, uint16_t assumed, uint16_t ruled, uint64_t out[8]);
void __wrap_finder_fresh(const uint8_t *file, size_t file_len, uint16_t assumed, uint16_t ruled, uint64_t out[8])
{
    __real_finder_fresh(file, file_len, assumed, ruled, out);
    WRONG_FRESH;
}

void __real_finder_continue(const uint8_t *file, size_t file_len, const uint8_t *sheet, size_t sheet_len, uint8_t *dual, size_t dual_len,
                            uint32_t *list, size_t list_len, uint32_t position, uint32_t found, uint16_t assumed, uint16_t ruled, uint32_t allowance,
                            uint64_t out[8]);
void __wrap_finder_continue(const uint8_t *file, size_t file_len, const uint8_t *sheet, size_t sheet_len, uint8_t *dual, size_t dual_len,
                            uint32_t *list, size_t list_len, uint32_t position, uint32_t found, uint16_t assumed, uint16_t ruled, uint32_t allowance,
                            uint64_t out[8])
{
    __real_finder_continue(file, file_len, sheet, sheet_len, dual, dual_len, list, list_len, position, found, assumed, ruled, allowance, out);
    WRONG_CONTINUE;
}
"#;

/// Where a finder is wrong, and the statement that makes it so.
#[derive(Clone, Copy, Debug)]
enum Wrong {
    Rest(&'static str),
    Fresh(&'static str),
    Continue(&'static str),
    Nowhere,
}

impl Wrong {
    /// What the compiler defines for it.
    fn defines(self) -> [String; 3] {
        let [mut rest, mut fresh, mut going_on] = [""; 3];
        match self {
            Rest(statement) => rest = statement,
            Fresh(statement) => fresh = statement,
            Continue(statement) => going_on = statement,
            Nowhere => {}
        }
        [
            format!("-DWRONG_REST={rest}"),
            format!("-DWRONG_FRESH={fresh}"),
            format!("-DWRONG_CONTINUE={going_on}"),
        ]
    }
}

/// What the program prints to standard error over a finder that is wrong so.
fn complaint(name: &str, wrong: Wrong) -> String {
    let source = own(&format!("{name}.c"));
    fs::write(&source, WRONG).expect("a file of its own");
    let defines = wrong.defines();
    let mut more = vec!["-Wl,--wrap=finder_rest,--wrap=finder_fresh,--wrap=finder_continue"];
    more.extend(defines.iter().map(String::as_str));
    more.push(source.to_str().expect("a path that is a text"));
    more.push("target/staticlib/libfinder_c.a");
    let ran = compiled_and_run(C99, name, &more);
    let said = String::from_utf8(ran.stderr).expect("a text");
    let expected = if said.is_empty() { 0 } else { 1 };
    assert_eq!(ran.status.code(), Some(expected), "{said}");
    said
}

#[test]
fn the_program_fails_where_the_finder_is_wrong() {
    assert_eq!(complaint("right", Nowhere), "");
    for (number, (wrong, expected)) in [
        (Continue("if (out[4] == 4) list[3]++"), "the entries are"),
        (Continue("out[4] = found"), "the entries are"),
        (
            Continue("if (ruled && out[7] == 2) list[0]++"),
            "the entries are",
        ),
        (
            Continue("if (out[7] == 2) out[7] = 1"),
            "the search has ended",
        ),
        (Continue("out[7] = 0"), "the search has ended"),
        (Continue("out[6]++"), "81 scenarios"),
        (Continue("if (ruled) out[6]++"), "81 scenarios"),
        (Continue("out[0] = 14"), "the call is not refused"),
        (Continue("if (out[0] != 0) out[3]++"), "the record is"),
        (Continue("if (out[0] == 11) list[0] = 0"), "the list is"),
        (Continue("if (out[0] == 1) out[0] = 2"), "continuing tells"),
        (Continue("if (out[0] == 11) out[0] = 12"), "a dual buffer"),
        (Rest("if (out[0] == 1) out[2]++"), "the file is cut"),
        (Rest("if (out[0] == 6) out[1] = 0"), "the sheet has"),
        (Rest("out[0] = 1"), "both papers are accepted"),
        (Fresh("out[6] = 0"), "the search is begun"),
        (Fresh("out[5] = 1"), "the search is begun"),
        (Fresh("if (out[0] == 0) out[3] = 40"), "81 scenarios"),
        (Fresh("if (out[0] == 15) out[0] = 16"), "the masks share"),
    ]
    .into_iter()
    .enumerate()
    {
        let said = complaint(&format!("wrong-{number}"), wrong);
        let line = format!("search: not so: {expected}");
        assert!(said.contains(&line), "{wrong:?}: {said:?}");
    }
}

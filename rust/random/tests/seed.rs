//! FINDER_SEED reaches the numbers of a test, and a test that fails tells its
//! seed. The tests run this binary again, for one test of it and with the
//! variable as they set it.

use random::seed::{seed, seeds, VARIABLE};
use random::Random;
use std::env;
use std::ffi::{OsStr, OsString};
use std::process::{Command, Output};

/// What the drawing test takes where the variable is not set.
const OWN: u64 = 23;

/// Lets the drawing test fail after it has drawn.
const FAILING: &str = "DRAWING_FAILS";

/// Runs as one of the tests too, with whatever seed they have.
#[test]
fn drawing() {
    let mut random = Random::new(seed(OWN));
    println!("drawn {} {}", random.word(), random.word());
    let cases: Vec<u64> = seeds(OWN, 3).collect();
    println!("cases {cases:?}");
    assert!(env::var_os(FAILING).is_none(), "it is to fail");
}

/// The drawing test with the variable set to this, or not set.
fn drawing_with(set: Option<&OsStr>) -> Command {
    let mut command = Command::new(env::current_exe().expect("this test binary"));
    command.args(["--exact", "drawing"]);
    command.env_remove(VARIABLE).env_remove("RUST_BACKTRACE");
    if let Some(text) = set {
        command.env(VARIABLE, text);
    }
    command
}

fn run(mut command: Command) -> Output {
    command.output().expect("the binary runs once more")
}

/// What the drawing test prints of itself.
fn drawn(set: Option<&str>) -> String {
    let mut command = drawing_with(set.map(OsStr::new));
    command.arg("--nocapture");
    let output = run(command);
    assert!(output.status.success(), "{output:?}");
    let printed = String::from_utf8(output.stdout).expect("a text");
    // The harness may begin a line before what the test prints.
    let from = printed.find(VARIABLE).expect("the seed is printed");
    let lines = printed[from..].lines().take(4);
    lines.map(|line| format!("{line}\n")).collect()
}

fn expected(seed: u64) -> String {
    let mut random = Random::new(seed);
    let (first, second) = (random.word(), random.word());
    let cases = [seed, seed.wrapping_add(1), seed.wrapping_add(2)];
    format!("{VARIABLE}={seed}\ndrawn {first} {second}\n{VARIABLE}={seed}\ncases {cases:?}\n")
}

#[test]
fn the_seed_that_is_set_is_the_one_that_is_used_and_printed() {
    assert_eq!(drawn(Some("5")), expected(5));
    assert_eq!(drawn(Some("0x1f")), expected(31));
    assert_eq!(drawn(Some("18446744073709551615")), expected(u64::MAX));
}

#[test]
fn a_seed_repeats_its_numbers_and_another_has_others() {
    assert_eq!(drawn(Some("5")), drawn(Some("5")));
    assert_ne!(drawn(Some("5")), drawn(Some("6")));
}

#[test]
fn where_none_is_set_it_is_the_test_s_own() {
    assert_eq!(drawn(None), expected(OWN));
}

#[test]
fn a_test_that_fails_tells_its_seed() {
    for (set, seed) in [(None, OWN), (Some("0x10"), 16)] {
        let mut command = drawing_with(set.map(OsStr::new));
        command.env(FAILING, "");
        let output = run(command);
        assert!(!output.status.success(), "{output:?}");
        let printed = String::from_utf8_lossy(&output.stdout);
        assert!(printed.contains(&expected(seed)), "{printed}");
    }
}

#[test]
fn what_is_no_number_fails_the_test() {
    let mut texts: Vec<OsString> = ["", "seven", "-1", "0x", "18446744073709551616"]
        .map(OsString::from)
        .to_vec();
    #[cfg(unix)]
    texts.push(std::os::unix::ffi::OsStringExt::from_vec(vec![b'7', 0xFF]));
    for text in texts {
        let mut command = drawing_with(Some(&text));
        command.arg("--nocapture");
        let output = run(command);
        assert!(!output.status.success(), "{text:?} passes: {output:?}");
        let said = String::from_utf8_lossy(&output.stderr);
        let message = format!("{VARIABLE} is {text:?}, and not");
        assert!(said.contains(&message), "{text:?}: {said}");
    }
}

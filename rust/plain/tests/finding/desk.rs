//! What the desk program prints.

use plain::{desk, encode_file, encode_sheet, Program, Query};

use crate::example::{FILE, SHEET};
use crate::hand::bytes;
use crate::text::{program, query};

fn printed(program: &Program, query: &Query) -> String {
    let (file, sheet) = (encode_file(program), encode_sheet(query));
    desk(Some(&file), Some(&sheet))
}

#[test]
fn the_example_of_document_01() {
    let expected = "atoms 2 abducibles 1 scenarios 3\n\
        found 1 1+\n\
        ended tried 3 rounds 3\n";
    let printed = desk(Some(&bytes(&[FILE])), Some(&bytes(&[SHEET])));
    assert_eq!(printed, expected);
}

#[test]
fn a_refusal_prints_one_line_alone() {
    let (file, sheet) = (bytes(&[FILE]), bytes(&[SHEET]));
    let unlisted = bytes(&["06 0002 0008 7F 0000"]);
    assert_eq!(desk(Some(&file), Some(&unlisted)), "refused 6 sheet 0\n");
    let tail = bytes(&[FILE, "00"]);
    assert_eq!(desk(Some(&tail), Some(&sheet)), "refused 10 file 24\n");
    assert_eq!(desk(Some(&file), Some(&sheet[..5])), "refused 1 sheet 5\n");
}

#[test]
fn a_paper_that_cannot_be_read_counts_as_empty() {
    let (file, sheet) = (bytes(&[FILE]), bytes(&[SHEET]));
    assert_eq!(desk(None, Some(&sheet)), "refused 1 file 0\n");
    assert_eq!(desk(Some(&file), None), "refused 1 sheet 0\n");
    assert_eq!(desk(None, None), "refused 1 file 0\n");
    assert_eq!(desk(Some(&[]), Some(&sheet)), "refused 1 file 0\n");
}

#[test]
fn a_longer_paper_is_refused_as_its_first_65_536_bytes_are() {
    let mut file = bytes(&[FILE]);
    let mut sheet = bytes(&[SHEET]);
    sheet.resize(65_537, 0x7F);
    let refused = "refused 10 sheet 8\n";
    assert_eq!(desk(Some(&file), Some(&sheet)), refused);
    assert_eq!(desk(Some(&file), Some(&sheet[..65_536])), refused);
    file.resize(70_000, 0);
    let refused = "refused 10 file 24\n";
    assert_eq!(desk(Some(&file), Some(&sheet)), refused);
    assert_eq!(desk(Some(&file[..65_536]), Some(&sheet)), refused);
}

#[test]
fn found_entries_rise_and_name_their_atoms_rising() {
    let atoms = "p a b q c";
    let rules = "p :- a, -c; p :- b, not q; p :- -a, -b, c; q";
    let program = program(atoms, "a b c", rules);
    // Digits: a + 3 b + 9 c. a with -c is 1 + 18; -a with -b and c is 2 + 6 + 9.
    let expected = "atoms 5 abducibles 3 scenarios 27\n\
        found 17 1- 2- 4+\n\
        found 19 1+ 4-\n\
        ended tried 27 rounds";
    let printed = printed(&program, &query(atoms, "p"));
    let (start, sum) = printed.trim_end().rsplit_once(' ').unwrap();
    assert_eq!(start, expected);
    let rounds: u64 = (0..27)
        .map(|scenario| plain::model(&program, scenario).rounds)
        .sum();
    assert_eq!(sum, rounds.to_string());
}

#[test]
fn the_scenario_without_assumptions_has_no_atoms() {
    let printed = printed(&program("p", "", "p"), &query("p", "p"));
    let expected = "atoms 1 abducibles 0 scenarios 1\n\
        found 0\n\
        ended tried 1 rounds 1\n";
    assert_eq!(printed, expected);
}

#[test]
fn nothing_found_has_no_found_line() {
    let printed = printed(&program("p", "", ""), &query("p", "p"));
    let expected = "atoms 1 abducibles 0 scenarios 1\n\
        ended tried 1 rounds 1\n";
    assert_eq!(printed, expected);
}

/// The meter is both faulty and not faulty where the fuse is assumed.
#[test]
fn a_cause_that_rests_on_a_contradiction_is_not_shown() {
    let atoms = "fuse valve faulty still";
    let rules = "still :- fuse; still :- valve; -faulty; faulty :- fuse";
    let program = program(atoms, "fuse valve", rules);
    let expected = "atoms 4 abducibles 2 scenarios 9\n\
        found 3 1+\n\
        ended tried 9 rounds 15\n";
    assert_eq!(printed(&program, &query(atoms, "still")), expected);
}

/// Eleven abducibles, each of which must be assumed or ruled out: 2^11 minimal
/// explanations, all of whose digits are 1 or 2.
fn all_decided() -> (Program, Query) {
    let abducibles: Vec<String> = (0..11).map(|i| format!("a{i}")).collect();
    let decided: Vec<String> = (0..11).map(|i| format!("d{i}")).collect();
    let atoms = [abducibles.join(" "), decided.join(" ")].join(" ");
    let rules: String = (0..11)
        .map(|i| format!("d{i} :- a{i}; d{i} :- -a{i};"))
        .collect();
    let program = program(&atoms, &abducibles.join(" "), &rules);
    (program, query(&atoms, &decided.join(", ")))
}

#[test]
fn a_full_list_is_told_after_many_calls() {
    let (program, query) = all_decided();
    let printed = printed(&program, &query);
    let lines: Vec<&str> = printed.lines().collect();
    assert_eq!(lines.len(), 1 + 1_024 + 1);
    assert_eq!(lines[0], "atoms 22 abducibles 11 scenarios 177147");
    // All digits 1; then the lowest 2.
    assert_eq!(lines[1], "found 88573 0+ 1+ 2+ 3+ 4+ 5+ 6+ 7+ 8+ 9+ 10+");
    assert_eq!(lines[2], "found 88574 0- 1+ 2+ 3+ 4+ 5+ 6+ 7+ 8+ 9+ 10+");
    // All digits 2, but the highest 1.
    let last = "found 118097 0- 1- 2- 3- 4- 5- 6- 7- 8- 9- 10+";
    assert_eq!(lines[1_024], last);
    // The next is all digits 1 but the highest 2; each scenario has one round.
    assert_eq!(lines[1_025], "full tried 147622 rounds 147622");
    assert!(printed.ends_with("147622\n"));
}

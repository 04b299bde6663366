//! The reference calls of document 01, save those with a list of one, which are
//! in search.rs as are those that hold faults; and that judging and continuing
//! tell the same of each scenario.

use calls::lent::{list_pattern, pattern};
use calls::searching::OF_DESK;
use calls::{file, sheet, Searching, JUDGINGS, SEARCHINGS};
use finder::{
    continue_search, fresh, judge, write_dual, Continued, JudgeRefusal, Judgement, Paper, Record,
    Refusal, State,
};

/// No dual and no model is longer.
const LONGEST_DUAL: usize = 52_488;
const LONGEST_MODEL: usize = 513;

const NO_QUERY: &[u8] = &[0x06, 0, 0, 0x7F, 0, 0];

fn judged(file: &[u8], sheet: &[u8], scenario: u32) -> Judgement {
    let (mut dual, mut model) = (pattern(LONGEST_DUAL), pattern(LONGEST_MODEL));
    judge(file, sheet, scenario, &mut dual, &mut model).expect("an accepted call")
}

/// The record of a fresh search that holds no fault.
fn begun(call: &Searching) -> Record {
    fresh(&call.program.file(), 0, 0).expect("an accepted file")
}

fn continued(call: &Searching, list: &mut [u32], record: Record, allowance: u32) -> Continued {
    let (file, sheet) = (call.program.file(), call.program.sheet(call.query));
    let mut dual = pattern(LONGEST_DUAL);
    let answer = continue_search(&file, &sheet, &mut dual, list, record, allowance);
    answer.expect("an accepted call")
}

#[test]
fn judging() {
    for call in JUDGINGS {
        let (file, sheet) = (call.program.file(), call.program.sheet(call.query));
        let mut dual = pattern(call.dual_length + 7);
        let mut model = pattern(call.model.len() + 5);
        let judgement = judge(&file, &sheet, call.scenario, &mut dual, &mut model);
        let expected = Judgement {
            explains: call.explains,
            rounds: call.rounds,
        };
        assert_eq!(judgement, Ok(expected), "{call:?}");
        let (model_start, beyond) = model.split_at(call.model.len());
        assert_eq!(model_start, call.model, "{call:?}");
        assert_eq!(beyond, &pattern(model.len())[call.model.len()..]);

        // The dual is the one that is written alone.
        let mut alone = pattern(call.dual_length + 7);
        assert_eq!(write_dual(&file, &mut alone), Ok(call.dual_length));
        assert_eq!(dual, alone, "{call:?}");
    }
}

#[test]
fn searching() {
    for call in SEARCHINGS {
        let mut list = list_pattern(9);
        let whole = continued(call, &mut list, begun(call), u32::MAX);
        assert_eq!(whole.tried, call.scenarios, "{call:?}");
        assert_eq!(whole.state, State::Ended, "{call:?}");
        let found = whole.record.found as usize;
        assert_eq!(list[..found], *call.found, "{call:?}");
        assert_eq!(list[found..], list_pattern(9)[found..], "{call:?}");
    }
}

#[test]
fn judging_each_scenario_tells_what_searching_does() {
    for call in SEARCHINGS {
        let (file, sheet) = (call.program.file(), call.program.sheet(call.query));
        let mut rounds = 0;
        let mut record = begun(call);
        let mut list = list_pattern(9);
        for scenario in 0..call.scenarios {
            let judgement = judged(&file, &sheet, scenario);
            let one = continued(call, &mut list, record, 1);
            assert_eq!(one.rounds, judgement.rounds, "{call:?} {scenario}");
            // The first explanation is always minimal, a later one may not be.
            let is_added = one.record.found > record.found;
            let is_first = judgement.explains && record.found == 0;
            assert!(judgement.explains || !is_added, "{call:?} {scenario}");
            assert!(is_added || !is_first, "{call:?} {scenario}");
            rounds += judgement.rounds;
            record = one.record;
        }
        let whole = continued(call, &mut list_pattern(9), begun(call), u32::MAX);
        assert_eq!((whole.record, whole.rounds), (record, rounds));
        assert_eq!(list[..record.found as usize], *call.found);
    }
}

#[test]
fn the_sums_of_the_desk_program() {
    let whole = continued(&OF_DESK, &mut list_pattern(1_024), begun(&OF_DESK), 4_096);
    assert_eq!(whole.state, State::Ended);
    assert_eq!((whole.tried, whole.rounds), (3, 3));
}

fn judge_refused(refusal: JudgeRefusal, file: &[u8], scenario: u32) {
    let (mut dual, mut model) = (pattern(LONGEST_DUAL), pattern(LONGEST_MODEL));
    let answer = judge(file, NO_QUERY, scenario, &mut dual, &mut model);
    assert_eq!(answer, Err(refusal));
    assert_eq!(dual, pattern(LONGEST_DUAL));
    assert_eq!(model, pattern(LONGEST_MODEL));
}

#[test]
fn an_empty_file_is_refused_1_at_place_0() {
    let refusal = Refusal {
        number: 1,
        paper: Paper::File,
        place: 0,
    };
    judge_refused(JudgeRefusal::Papers(refusal), &[], 0);
}

#[test]
fn atoms_256_pass_and_257_do_not() {
    let with_atoms = |count: u16| {
        let mut file = file("a", "", "");
        file[7..9].copy_from_slice(&count.to_be_bytes());
        file
    };
    // not(o) for the last objective literal.
    let sheet = [0x06, 0, 2, 0x03, 0xFF, 0x7F, 0, 0];
    let (mut dual, mut model) = (vec![0; 513 * 5 + 3], vec![0; 513]);
    let judgement = judge(&with_atoms(256), &sheet, 0, &mut dual, &mut model);
    assert!(judgement.expect("an accepted call").explains);
    assert_eq!(model, [2; 513]);
    let refusal = Refusal {
        number: 5,
        paper: Paper::File,
        place: 4,
    };
    judge_refused(JudgeRefusal::Papers(refusal), &with_atoms(257), 0);
}

#[test]
fn the_last_scenario_passes_and_the_next_does_not() {
    let sixteen = "a b c d e f g h i j k l m n o p";
    for (abducibles, scenarios) in [
        ("", 1),
        ("b", 3),
        ("a p", 9),
        ("a b c", 27),
        (sixteen, 43_046_721),
    ] {
        let file = file(sixteen, abducibles, "");
        assert!(judged(&file, NO_QUERY, scenarios - 1).explains);
        for scenario in [scenarios, scenarios + 1, u32::MAX] {
            judge_refused(JudgeRefusal::NoScenario, &file, scenario);
        }
    }
}

#[test]
fn the_last_scenario_of_sixteen_abducibles_rules_all_out() {
    let atoms = "a b c d e f g h i j k l m n o p";
    let file = file(atoms, atoms, "");
    let (mut dual, mut model) = (pattern(8), pattern(33));
    let sheet = sheet(atoms, "-p, not a");
    let judgement = judge(&file, &sheet, 43_046_720, &mut dual, &mut model);
    assert!(judgement.expect("an accepted call").explains);
    let ruled_out: Vec<u8> = [2, 1].repeat(16).into_iter().chain([2]).collect();
    assert_eq!(model, ruled_out);
}

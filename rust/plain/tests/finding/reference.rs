//! The reference calls of document 01, save those with a list of one, which are
//! in searching.rs.

use calls::lent::list_pattern;
use calls::{Judging, Searching, JUDGINGS, SEARCHINGS};
use plain::{
    encode_dual, encode_file, encode_sheet, judge, minimal_explanations, read_file, Held,
    JudgeRefusal, Number, Paper, Refusal, State,
};

use crate::hand::bytes;
use crate::holding::fresh;
use crate::lent::{continued, judge_refused, judged};
use crate::text::{loaded, program, query};

#[test]
fn example_2_1_as_bytes() {
    let file = "01 0001 01 02 0002 0003 03 0000 04 0004 0004 0005
        04 0004 0002 0000 04 0002 0003 04 0004 0000 0001 7F 0000";
    let (program, query) = loaded(&calls::programs::EXAMPLE_2_1, "c");
    assert_eq!(encode_file(&program), bytes(&[file]));
    assert_eq!(encode_sheet(&query), bytes(&["06 0002 0008 7F 0000"]));
}

#[test]
fn judging() {
    for call in JUDGINGS {
        let Judging {
            program,
            query,
            scenario,
            ..
        } = call;
        let (program, query) = loaded(program, query);
        let (judgement, model) = judged(&program, &query, *scenario);
        assert_eq!(judgement.explains, call.explains, "{call:?}");
        assert_eq!(judgement.rounds, call.rounds, "{call:?}");
        assert_eq!(model, call.model, "{call:?}");
        let dual = encode_dual(&plain::dual(&program));
        assert_eq!(dual.len(), call.dual_length, "{call:?}");
    }
}

/// A fresh search finds these and tries all scenarios, and the definition gives
/// the same.
#[test]
fn searching() {
    for call in SEARCHINGS {
        let Searching { program, query, .. } = call;
        let (program, query) = loaded(program, query);
        let minimal = minimal_explanations(&program, &query, Held::NONE);
        assert_eq!(minimal, call.found);
        let mut list = list_pattern(9);
        let continued = continued(&program, &query, &mut list, fresh(&program), u32::MAX);
        assert_eq!(continued.tried, call.scenarios, "{call:?}");
        assert_eq!(continued.state, State::Ended, "{call:?}");
        let found = continued.record.found as usize;
        assert_eq!(list[..found], *call.found, "{call:?}");
    }
}

#[test]
fn an_empty_file_is_refused_1_at_place_0() {
    let refusal = Refusal {
        number: Number::Cut,
        paper: Paper::File,
        place: 0,
    };
    let sheet = bytes(&["06 0000 7F 0000"]);
    let refused = JudgeRefusal::Papers(refusal);
    assert_eq!(refused.number(), 1);
    judge_refused(refused, (&[], &sheet), 0, (100, 100));
}

#[test]
fn atoms_256_pass_and_257_do_not() {
    let with_atoms = |count: u16| {
        let mut file = bytes(&["01 0001 01 02 0002 0000 03 0000 7F 0000"]);
        file[7..9].copy_from_slice(&count.to_be_bytes());
        file
    };
    assert_eq!(read_file(&with_atoms(256)).unwrap().atoms, 256);
    let sheet = bytes(&["06 0002 03FF 7F 0000"]);
    let (mut dual, mut model) = (vec![0; 513 * 5 + 3], vec![0; 513]);
    let judgement = judge(&with_atoms(256), &sheet, 0, &mut dual, &mut model).unwrap();
    assert!(judgement.explains);
    assert_eq!(model, [2; 513]);
    let refusal = Refusal {
        number: Number::AtomCount,
        paper: Paper::File,
        place: 4,
    };
    let refused = JudgeRefusal::Papers(refusal);
    judge_refused(refused, (&with_atoms(257), &sheet), 0, (60_000, 600));
}

#[test]
fn the_last_scenario_passes_and_the_next_does_not() {
    let sheet = bytes(&["06 0000 7F 0000"]);
    for (abducibles, scenarios) in [("", 1), ("a", 3), ("a b", 9), ("a b c", 27)] {
        let program = program("a b c", abducibles, "");
        let (judgement, _) = judged(&program, &query("a b c", ""), scenarios - 1);
        assert!(judgement.explains);
        let file = encode_file(&program);
        for scenario in [scenarios, scenarios + 1, u32::MAX] {
            let refused = JudgeRefusal::NoScenario;
            assert_eq!(refused.number(), 13);
            judge_refused(refused, (&file, &sheet), scenario, (100, 100));
        }
    }
}

#[test]
fn the_last_scenario_of_sixteen_abducibles_passes() {
    let atoms = "a b c d e f g h i j k l m n o p";
    let program = program(atoms, atoms, "");
    let (judgement, model) = judged(&program, &query(atoms, "-p"), 43_046_720);
    assert!(judgement.explains);
    let ruled_out: Vec<u8> = [2, 1].repeat(16).into_iter().chain([2]).collect();
    assert_eq!(model, ruled_out);
    let file = encode_file(&program);
    let sheet = bytes(&["06 0000 7F 0000"]);
    let refused = JudgeRefusal::NoScenario;
    judge_refused(refused, (&file, &sheet), 43_046_721, (100, 100));
}

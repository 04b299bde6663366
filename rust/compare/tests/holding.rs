//! The reference calls that hold faults, by the separate finder.

use calls::continuing;
use calls::holding::{self, HOLDINGS, REFUSED_MASKS};
use calls::searching::OF_NOT_P4;
use plain::dual::LONGEST_DUAL;
use plain::{continue_search, fresh, State};

/// A state as the table has it.
fn told(state: State) -> continuing::State {
    match state {
        State::Going => continuing::State::Going,
        State::Full => continuing::State::Full,
        State::Ended => continuing::State::Ended,
    }
}

#[test]
fn searches() {
    let (program, query) = (OF_NOT_P4.program, OF_NOT_P4.query);
    let (file, sheet) = (program.file(), program.sheet(query));
    holding::each(HOLDINGS, |(assumed, ruled), list| {
        let record = fresh(&file, assumed, ruled).expect("masks that are accepted");
        let mut dual = vec![0; LONGEST_DUAL];
        let continued = continue_search(&file, &sheet, &mut dual, list, record, u32::MAX)
            .expect("an accepted call");
        let (tried, rounds) = (continued.tried, continued.rounds);
        let found = continued.record.found;
        (tried, rounds, told(continued.state), found)
    });
}

#[test]
fn masks_that_are_refused() {
    let file = OF_NOT_P4.program.file();
    for &((assumed, ruled), number) in REFUSED_MASKS {
        let refusal = fresh(&file, assumed, ruled).expect_err("masks that are refused");
        assert_eq!(refusal.number(), number, "{assumed:#b} {ruled:#b}");
    }
}

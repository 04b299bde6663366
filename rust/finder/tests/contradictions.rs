//! A contradiction of any of 256 atoms, with the empty query: the model and the
//! rounds are told, and judging and searching tell no explanation.

use finder::{continue_search, fresh, judge, Continued, Judgement, State};

const ATOMS: u16 = 256;
const NO_QUERY: &[u8] = &[0x06, 0, 0, 0x7F, 0, 0];

/// 08 with a number for each objective literal and for falsum, and the end.
const LONGEST: usize = 513 * 5 + 3;

/// The file of 256 atoms with these facts alone.
fn file_of(facts: &[u16]) -> Vec<u8> {
    let front = [0x01, 0, 1, 1, 0x02, 0, 2, 1, 0, 0x03, 0, 0];
    let fields = facts.iter().flat_map(|fact| {
        let [high, low] = fact.to_be_bytes();
        [0x04, 0, 2, high, low]
    });
    front
        .into_iter()
        .chain(fields)
        .chain([0x7F, 0, 0])
        .collect()
}

/// Judges the one scenario and goes through it, and checks what comes of it:
/// what is no fact is false.
fn check(facts: &[u16], of_facts: &[u8], explains: bool, rounds: u64) {
    let file = file_of(facts);
    let (mut dual, mut model) = ([0; LONGEST], [0; 513]);
    let judgement = judge(&file, NO_QUERY, 0, &mut dual, &mut model);
    assert_eq!(judgement, Ok(Judgement { explains, rounds }), "{facts:?}");
    let mut expected = [2; 513];
    for (&fact, &byte) in facts.iter().zip(of_facts) {
        expected[usize::from(fact)] = byte;
    }
    assert_eq!(model, expected, "{facts:?}");

    let mut list = [7];
    let mut record = fresh(&file, 0, 0).expect("an accepted file");
    let continued = continue_search(&file, NO_QUERY, &mut dual, &mut list, record, 5);
    (record.position, record.found) = (1, explains.into());
    let whole = Continued {
        record,
        tried: 1,
        rounds,
        state: State::Ended,
    };
    assert_eq!(continued, Ok(whole), "{facts:?}");
    assert_eq!(list, [if explains { 0 } else { 7 }], "{facts:?}");
}

#[test]
fn a_contradiction_is_no_explanation_wherever_it_stands() {
    for atom in 0..ATOMS {
        let (fact, negation) = (2 * atom, 2 * atom + 1);
        check(&[fact], &[1], true, 1);
        check(&[negation], &[1], true, 1);
        check(&[fact, negation], &[3, 3], false, 2);
    }
}

//! The eight words that include/finder.h documents for each answer of the
//! separate finder.

use plain::{
    ContinueRefusal, Continued, FreshRefusal, ImportRefusal, JudgeRefusal, Judgement, Paper,
    Program, Query, Record, Refusal, State, TextRefusal, WriteRefusal,
};

pub type Words = [u64; 8];

pub fn of_reading(reading: &Result<(Program, Query), Refusal>, rest: &[u8]) -> Words {
    let [number, paper, place] = match reading {
        Ok(_) => [0; 3],
        Err(refusal) => first_slots(refusal.number as u8, Some(refusal)),
    };
    [number, paper, place, rest.len() as u64, 0, 0, 0, 0]
}

pub fn of_writing(answer: &Result<usize, WriteRefusal>) -> Words {
    match answer {
        Ok(length) => [0, 0, 0, *length as u64, 0, 0, 0, 0],
        Err(refusal) => {
            let of_file = match refusal {
                WriteRefusal::File(of_file) => Some(of_file),
                WriteRefusal::ShortDual => None,
            };
            of_refusal(refusal.number(), of_file)
        }
    }
}

pub fn of_judging(answer: &Result<Judgement, JudgeRefusal>) -> Words {
    match answer {
        Ok(Judgement { explains, rounds }) => [0, 0, 0, (*explains).into(), *rounds, 0, 0, 0],
        Err(refusal) => {
            let of_paper = match refusal {
                JudgeRefusal::Papers(of_paper) => Some(of_paper),
                _ => None,
            };
            of_refusal(refusal.number(), of_paper)
        }
    }
}

pub fn of_fresh(answer: &Result<Record, FreshRefusal>) -> Words {
    match answer {
        Ok(record) => {
            let (position, found) = (record.position.into(), record.found.into());
            let (assumed, ruled) = (record.assumed.into(), record.ruled.into());
            [0, 0, 0, position, found, assumed, ruled, 0]
        }
        Err(refusal) => {
            let of_file = match refusal {
                FreshRefusal::File(of_file) => Some(of_file),
                _ => None,
            };
            of_refusal(refusal.number(), of_file)
        }
    }
}

/// The words where the search went on from the given record.
pub fn of_continuing(answer: &Result<Continued, ContinueRefusal>, given: Record) -> Words {
    match answer {
        Ok(continued) => {
            let Record {
                position, found, ..
            } = continued.record;
            let state = match continued.state {
                State::Going => 0,
                State::Full => 1,
                State::Ended => 2,
            };
            let (tried, rounds) = (continued.tried.into(), continued.rounds);
            [0, 0, 0, position.into(), found.into(), tried, rounds, state]
        }
        Err(refusal) => {
            let of_paper = match refusal {
                ContinueRefusal::Papers(of_paper) => Some(of_paper),
                _ => None,
            };
            let [number, paper, place] = first_slots(refusal.number(), of_paper);
            let Record {
                position, found, ..
            } = given;
            [number, paper, place, position.into(), found.into(), 0, 0, 0]
        }
    }
}

pub fn of_importing(answer: &Result<usize, ImportRefusal>) -> Words {
    match answer {
        Ok(length) => [0, 0, 0, *length as u64, 0, 0, 0, 0],
        Err(ImportRefusal::Text(TextRefusal { number, place })) => {
            [*number as u64, TEXT, *place as u64, 0, 0, 0, 0, 0]
        }
        Err(ImportRefusal::ShortFile) => of_refusal(11, None),
    }
}

/// What slot 1 tells where the text is refused.
const TEXT: u64 = 2;

/// The words of a refusal that tells nothing else.
fn of_refusal(number: u8, of_paper: Option<&Refusal>) -> Words {
    let [number, paper, place] = first_slots(number, of_paper);
    [number, paper, place, 0, 0, 0, 0, 0]
}

/// The number of a refusal, and the paper and the place where it has them.
fn first_slots(number: u8, of_paper: Option<&Refusal>) -> [u64; 3] {
    let (paper, place) = of_paper.map_or((0, 0), |refusal| {
        let paper = match refusal.paper {
            Paper::File => 0,
            Paper::Sheet => 1,
        };
        (paper, refusal.place as u64)
    });
    [number.into(), paper, place]
}

#[cfg(test)]
mod tests {
    use super::*;
    use plain::Number;

    fn refusal(number: Number, paper: Paper, place: usize) -> Refusal {
        Refusal {
            number,
            paper,
            place,
        }
    }

    /// A record whose masks no answer of continuing tells.
    fn record(position: u32, found: u32) -> Record {
        Record {
            position,
            found,
            assumed: 0b01,
            ruled: 0b10,
        }
    }

    #[test]
    fn a_refused_paper_is_told_with_its_place() {
        let of_file = refusal(Number::Tail, Paper::File, 24);
        let of_sheet = refusal(Number::Unlisted, Paper::Sheet, 5);
        let first_slots = |words: Words| [words[0], words[1], words[2]];
        let given = record(0, 0);
        for (refusal, expected) in [(of_file, [10, 0, 24]), (of_sheet, [6, 1, 5])] {
            let judging = of_judging(&Err(JudgeRefusal::Papers(refusal)));
            let continuing = of_continuing(&Err(ContinueRefusal::Papers(refusal)), given);
            assert_eq!(first_slots(of_reading(&Err(refusal), &[])), expected);
            assert_eq!(first_slots(judging), expected);
            assert_eq!(first_slots(continuing), expected);
        }
        let writing = of_writing(&Err(WriteRefusal::File(of_file)));
        assert_eq!(writing, [10, 0, 24, 0, 0, 0, 0, 0]);
        let fresh = of_fresh(&Err(FreshRefusal::File(of_file)));
        assert_eq!(fresh, [10, 0, 24, 0, 0, 0, 0, 0]);
        let reading = of_reading(&Err(of_sheet), &[1, 2, 3]);
        assert_eq!(reading, [6, 1, 5, 3, 0, 0, 0, 0]);
    }

    #[test]
    fn a_refused_call_keeps_its_record() {
        let spoilt = of_continuing(&Err(ContinueRefusal::SpoiltSearch), record(9, 2));
        assert_eq!(spoilt, [14, 0, 0, 9, 2, 0, 0, 0]);
    }

    #[test]
    fn a_refused_text_is_the_third_paper() {
        let refusal = TextRefusal {
            number: Number::BrokenLine,
            place: 6,
        };
        let importing = of_importing(&Err(ImportRefusal::Text(refusal)));
        assert_eq!(importing, [18, 2, 6, 0, 0, 0, 0, 0]);
        let short = of_importing(&Err(ImportRefusal::ShortFile));
        assert_eq!(short, [11, 0, 0, 0, 0, 0, 0, 0]);
    }

    #[test]
    fn refused_masks_have_their_number_alone() {
        let shared = of_fresh(&Err(FreshRefusal::SharedBit));
        let unlisted = of_fresh(&Err(FreshRefusal::UnlistedBit));
        assert_eq!(shared, [15, 0, 0, 0, 0, 0, 0, 0]);
        assert_eq!(unlisted, [16, 0, 0, 0, 0, 0, 0, 0]);
    }

    #[test]
    fn what_is_accepted_has_no_number_and_no_place() {
        let judgement = Judgement {
            explains: true,
            rounds: 3,
        };
        assert_eq!(of_judging(&Ok(judgement)), [0, 0, 0, 1, 3, 0, 0, 0]);
        assert_eq!(of_writing(&Ok(60)), [0, 0, 0, 60, 0, 0, 0, 0]);
        assert_eq!(of_importing(&Ok(15)), [0, 0, 0, 15, 0, 0, 0, 0]);
        assert_eq!(of_fresh(&Ok(record(0, 0))), [0, 0, 0, 0, 0, 1, 2, 0]);
        let continued = |state| Continued {
            record: record(7, 1),
            tried: 4,
            rounds: 11,
            state,
        };
        for (state, word) in [(State::Going, 0), (State::Full, 1), (State::Ended, 2)] {
            let words = of_continuing(&Ok(continued(state)), record(3, 0));
            assert_eq!(words, [0, 0, 0, 7, 1, 4, 11, word]);
        }
    }
}

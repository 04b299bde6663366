//! Calls that continue the search of not p4: those of document 01, which lend a
//! list of one, and more of them, reckoned by hand.
//!
//! not p4 holds exactly where a or b is assumed, so in 1, 3, 4, 5 and 7 of 9
//! scenarios; 1 and 3 are minimal.

use State::{Ended, Full, Going};

/// The bytes of the dual of its program: 08 with one fold and 09 for p4; 08 with
/// two folds, 09 with one literal and 09 with two for q4; 08 for -p4, -q4 and
/// falsum; the end.
pub const DUAL_LENGTH: usize = (7 + 7) + (9 + 7 + 9) + 3 * 5 + 3;

#[derive(Clone, Copy, Debug, PartialEq, Eq)]
pub enum State {
    Going,
    Full,
    Ended,
}

/// A call that is accepted, and what it gives.
#[derive(Clone, Copy, Debug)]
pub struct Continuing {
    /// The list before the call.
    pub list: &'static [u32],
    /// The record before the call: position and found.
    pub record: (u32, u32),
    pub allowance: u32,
    pub tried: u32,
    /// What comes after the entries found before.
    pub added: &'static [u32],
    pub state: State,
}

impl Continuing {
    pub fn list_after(&self) -> Vec<u32> {
        let mut list = self.list.to_vec();
        let start = self.record.1 as usize;
        list[start..start + self.added.len()].copy_from_slice(self.added);
        list
    }

    pub fn record_after(&self) -> (u32, u32) {
        let (position, found) = self.record;
        (position + self.tried, found + self.added.len() as u32)
    }
}

/// Makes each of these calls by a finder's continuing, which is given the list,
/// the record and the allowance and tells the scenarios tried, the state and the
/// record, and checks what comes of it.
pub fn each(
    calls: &[Continuing],
    mut go_on: impl FnMut(&mut [u32], (u32, u32), u32) -> (u32, State, (u32, u32)),
) {
    for call in calls {
        let mut list = call.list.to_vec();
        let given = go_on(&mut list, call.record, call.allowance);
        let expected = (call.tried, call.state, call.record_after());
        assert_eq!(given, expected, "{call:?}");
        assert_eq!(list, call.list_after(), "{call:?}");
    }
}

const fn call(
    list: &'static [u32],
    record: (u32, u32),
    allowance: u32,
    (tried, added, state): (u32, &'static [u32], State),
) -> Continuing {
    Continuing {
        list,
        record,
        allowance,
        tried,
        added,
        state,
    }
}

const FRESH: (u32, u32) = (0, 0);

/// A list in which nothing was found: none of these is a scenario.
const fn unused(length: usize) -> &'static [u32] {
    const ENTRIES: &[u32] = &[u32::MAX, u32::MAX - 1, u32::MAX - 2, u32::MAX - 3];
    ENTRIES.split_at(length).0
}

/// Those of document 01.
pub const WITH_A_LIST_OF_ONE: &[Continuing] = &[
    call(unused(1), FRESH, 9, (3, &[1], Full)),
    call(&[1], (3, 1), 5, (0, &[], Full)),
    call(&[1], (3, 1), 0, (0, &[], Going)),
];

pub const TO_THE_END: &[Continuing] = &[
    call(unused(4), FRESH, 100, (9, &[1, 3], Ended)),
    call(&[1, 3, 99, 98], (9, 2), 0, (0, &[], Ended)),
    call(&[1, 3, 99, 98], (9, 2), 1, (0, &[], Ended)),
    call(&[1, 3, 99, 98], (9, 2), 100, (0, &[], Ended)),
    call(&[1, 3, 99, 98], (9, 2), u32::MAX, (0, &[], Ended)),
];

pub const ABOUT_THE_STOPPING_POINT: &[Continuing] = &[
    // With one entry it is 3. An allowance that just reaches it is going.
    call(unused(1), FRESH, 2, (2, &[1], Going)),
    call(unused(1), FRESH, 3, (3, &[1], Going)),
    call(unused(1), FRESH, 4, (3, &[1], Full)),
    call(&[1], (3, 1), 1, (0, &[], Full)),
    // With two it is the end, which is ended however little was allowed.
    call(unused(2), FRESH, 8, (8, &[1, 3], Going)),
    call(unused(2), FRESH, 9, (9, &[1, 3], Ended)),
    // A list that is full does not stop the search before a further find.
    call(&[1, 3], (4, 2), 2, (2, &[], Going)),
    call(&[1, 3], (4, 2), 9, (5, &[], Ended)),
];

pub const WITH_A_LIST_OF_NONE: &[Continuing] = &[
    call(&[], FRESH, 0, (0, &[], Going)),
    call(&[], FRESH, 1, (1, &[], Going)),
    call(&[], FRESH, 2, (1, &[], Full)),
    call(&[], FRESH, u32::MAX, (1, &[], Full)),
    // From 6 the next is 7, from 8 there is none.
    call(&[], (6, 0), 9, (1, &[], Full)),
    call(&[], (8, 0), 9, (1, &[], Ended)),
];

/// From records that no fresh search reaches.
pub const OF_ANOTHER_SEARCH: &[Continuing] = &[
    // 1 is passed over, so 7, which contains it, counts; 4 and 5 contain 3.
    call(unused(4), (2, 0), 99, (7, &[3, 7], Ended)),
    // With one entry 7 is the stopping point.
    call(unused(1), (2, 0), 99, (5, &[3], Full)),
    // Entries that explain nothing count as well: 2 is contained in 5 and 8.
    call(&[2, 8, 8], (4, 1), 99, (5, &[4, 7], Ended)),
    call(&[2], (3, 1), 99, (0, &[], Full)),
    call(&[2], (5, 1), 99, (2, &[], Full)),
    // All scenarios contain the assumptions of 0: there are none.
    call(&[0, 5], (1, 1), 99, (8, &[], Ended)),
    call(&[0], (1, 1), 99, (8, &[], Ended)),
];

/// A list and a record, and whether test 14 refuses them.
#[derive(Clone, Copy, Debug)]
pub struct Resumed {
    pub list: &'static [u32],
    /// Position and found.
    pub record: (u32, u32),
    pub is_spoilt: bool,
}

const fn sound(list: &'static [u32], record: (u32, u32)) -> Resumed {
    Resumed {
        list,
        record,
        is_spoilt: false,
    }
}

const fn spoilt(list: &'static [u32], record: (u32, u32)) -> Resumed {
    Resumed {
        list,
        record,
        is_spoilt: true,
    }
}

pub const RESUMED: &[Resumed] = &[
    // Position above 3^k.
    sound(&[], (9, 0)),
    spoilt(&[], (10, 0)),
    spoilt(&[], (u32::MAX, 0)),
    // Found above list length.
    sound(&[1, 3], (9, 2)),
    spoilt(&[1, 3], (9, 3)),
    spoilt(&[1, 3], (9, u32::MAX)),
    spoilt(&[], (0, 1)),
    // Not strictly rising, within the first found.
    spoilt(&[3, 1], (9, 2)),
    spoilt(&[1, 1], (9, 2)),
    spoilt(&[1, 5, 4], (9, 3)),
    sound(&[1, 5, 4], (9, 2)),
    sound(&[1, 1], (9, 1)),
    // Not all below position.
    sound(&[1, 8], (9, 2)),
    spoilt(&[1, 9], (9, 2)),
    spoilt(&[1, u32::MAX], (9, 2)),
    spoilt(&[1, 3], (3, 2)),
    spoilt(&[1, 3], (1, 1)),
    spoilt(&[0], (0, 1)),
    sound(&[1, 3], (2, 1)),
    sound(&[1, 3], (0, 0)),
];

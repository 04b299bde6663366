//! Hand-made files, and the refusals that the tests of each call expect.

/// What `out` holds before a call; no answer here has such a word.
pub const PATTERN: u64 = 0xA5A5_5A5A_C3C3_3C3C;

/// The example of document 01.
pub const FILE: &[u8] = &[
    0x01, 0, 1, 1, 0x02, 0, 2, 0, 2, 0x03, 0, 2, 0, 1, 0x04, 0, 4, 0, 0, 0, 4, 0x7F, 0, 0,
];

/// The part of `FILE` before its rule: edition, two atoms, atom 1 abducible.
pub const FRONT: &[u8] = FILE.split_at(14).0;

/// Hands a file for each of refusals 1 to 10 to `check`, after the number and
/// the place of its refusal.
pub fn each_refused_file(check: impl Fn(u8, usize, &[u8])) {
    let refused = |number, place, parts: &[&[u8]]| check(number, place, &parts.concat());
    refused(1, 0, &[]);
    refused(1, 14, &[FRONT]);
    refused(2, 14, &[FRONT, &[0x06, 0, 0]]);
    refused(2, 14, &[FRONT, &[0x08, 0, 0]]);
    refused(3, 14, &[FRONT, &[0x05, 0, 1, 0]]);
    refused(4, 0, &[&[0x01, 0, 1, 2]]);
    refused(5, 4, &[&[0x01, 0, 1, 1, 0x02, 0, 2, 1, 1]]);
    refused(6, 14, &[FRONT, &[0x04, 0, 2, 0, 4]]);
    refused(7, 9, &[&FRONT[..9], &[0x03, 0, 4, 0, 1, 0, 1]]);
    refused(8, 14, &[FRONT, &[0x04, 0, 2, 0, 3]]);
    let rules = [0x04, 0, 2, 0, 0].repeat(1025);
    refused(9, 14 + 1024 * 5, &[FRONT, &rules]);
    let integrity_rules = [0x05, 0, 0].repeat(257);
    refused(9, 14 + 256 * 3, &[FRONT, &integrity_rules]);
    refused(10, 24, &[FILE, &[0xFF]]);
}

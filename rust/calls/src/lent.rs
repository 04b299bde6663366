//! What the tests of a finder lend it holds before a call, so that what is
//! written though it must stay shows.

/// What a buffer holds.
pub fn pattern(length: usize) -> Vec<u8> {
    (0..length).map(|place| 0xA0 + (place % 11) as u8).collect()
}

/// What a list holds before a fresh search: large numbers, none a scenario.
pub fn list_pattern(length: usize) -> Vec<u32> {
    (0..length as u32).map(|place| u32::MAX - place).collect()
}

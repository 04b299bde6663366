//! The example of document 01.

pub const FILE: &str = "01 0001 01 02 0002 0002 03 0002 0001 04 0004 0000 0004 7F 0000";
pub const SHEET: &str = "06 0002 0000 7F 0000";

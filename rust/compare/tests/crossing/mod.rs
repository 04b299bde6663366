//! A record of the separate finder as it crosses the boundary.

pub fn crossing(record: plain::Record) -> finder::Record {
    let plain::Record {
        position,
        found,
        assumed,
        ruled,
    } = record;
    finder::Record {
        position,
        found,
        assumed,
        ruled,
    }
}

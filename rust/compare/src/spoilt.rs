//! The ways in which test 14 refuses a record and list.

use plain::Record;

use crate::masks::Asked;
use crate::tally::Feature;

/// A record and list that are refused, or hidden by a refusal before.
pub struct Spoilt {
    pub position_above: bool,
    pub found_above: bool,
    pub not_rising: bool,
    pub not_below: bool,
    pub shared_bit: bool,
    pub unlisted_bit: bool,
}

impl Spoilt {
    /// Which of the ways of test 14 they are spoilt in, over so many abducibles.
    /// Where found is above the list's length there are no first found entries to
    /// look at.
    pub fn new(abducibles: usize, list: &[u32], record: Record) -> Self {
        let entries = list.get(..record.found as usize).unwrap_or(&[]);
        let mut neighbours = entries.iter().zip(entries.iter().skip(1));
        let asked = Asked {
            held: record.held(),
            abducibles,
        };
        Spoilt {
            position_above: record.position > 3_u32.pow(abducibles as u32),
            found_above: record.found as usize > list.len(),
            not_rising: neighbours.any(|(one, next)| one >= next),
            not_below: entries.iter().any(|&entry| entry >= record.position),
            shared_bit: asked.shares_a_bit(),
            unlisted_bit: asked.has_unlisted(),
        }
    }

    /// How many ways there are of them.
    fn ways(&self) -> usize {
        self.ways_beside_masks() + usize::from(self.shared_bit) + usize::from(self.unlisted_bit)
    }

    fn ways_beside_masks(&self) -> usize {
        let ways = [
            self.position_above,
            self.found_above,
            self.not_rising,
            self.not_below,
        ];
        ways.into_iter().filter(|&is_it| is_it).count()
    }

    pub fn is_spoilt(&self) -> bool {
        self.ways() > 0
    }

    pub fn is_spoilt_by_masks_alone(&self) -> bool {
        self.is_spoilt() && self.ways_beside_masks() == 0
    }
}

pub const SPOILT: &[Feature<Spoilt>] = &[
    ("its position above 3^k alone", |it| {
        it.ways() == 1 && it.position_above
    }),
    ("found above the list's length alone", |it| {
        it.ways() == 1 && it.found_above
    }),
    ("entries not rising alone", |it| {
        it.ways() == 1 && it.not_rising
    }),
    ("entries not below its position alone", |it| {
        it.ways() == 1 && it.not_below
    }),
    ("masks that 15 would refuse alone", |it| {
        it.ways() == 1 && it.shared_bit
    }),
    ("masks that 16 would refuse alone", |it| {
        it.ways() == 1 && it.unlisted_bit
    }),
    ("masks that 15 and 16 would refuse alone", |it| {
        it.is_spoilt_by_masks_alone() && it.shared_bit && it.unlisted_bit
    }),
    ("masks and others of these", |it| {
        !it.is_spoilt_by_masks_alone() && (it.shared_bit || it.unlisted_bit)
    }),
    ("several others of these", |it| it.ways_beside_masks() > 1),
];

#[cfg(test)]
mod tests {
    use super::*;

    fn spoilt(list: &[u32], position: u32, found: u32, (assumed, ruled): (u16, u16)) -> Spoilt {
        let record = Record {
            position,
            found,
            assumed,
            ruled,
        };
        Spoilt::new(2, list, record)
    }

    fn ways(list: &[u32], position: u32, found: u32) -> [bool; 4] {
        let spoilt = spoilt(list, position, found, (0b01, 0b10));
        assert_eq!([spoilt.shared_bit, spoilt.unlisted_bit], [false; 2]);
        [
            spoilt.position_above,
            spoilt.found_above,
            spoilt.not_rising,
            spoilt.not_below,
        ]
    }

    #[test]
    fn a_search_is_spoilt_in_four_ways() {
        assert_eq!(ways(&[1, 3], 9, 2), [false; 4]);
        assert_eq!(ways(&[1, 1, 99], 2, 1), [false; 4]);
        assert_eq!(ways(&[], 10, 0), [true, false, false, false]);
        assert_eq!(ways(&[9, 9], 0, 3), [false, true, false, false]);
        assert_eq!(ways(&[3, 1], 9, 2), [false, false, true, false]);
        assert_eq!(ways(&[1, 1], 9, 2), [false, false, true, false]);
        assert_eq!(ways(&[1, 3], 3, 2), [false, false, false, true]);
        assert_eq!(ways(&[8, 7], 8, 2), [false, false, true, true]);
        assert_eq!(ways(&[8], u32::MAX, 9), [true, true, false, false]);
    }

    #[test]
    fn a_search_is_spoilt_by_its_masks_in_two_ways() {
        let by_masks = |assumed, ruled| {
            let spoilt = spoilt(&[1, 3], 9, 2, (assumed, ruled));
            assert_eq!(spoilt.is_spoilt_by_masks_alone(), spoilt.is_spoilt());
            [spoilt.shared_bit, spoilt.unlisted_bit]
        };
        assert_eq!(by_masks(0, 0), [false, false]);
        assert_eq!(by_masks(0b11, 0), [false, false]);
        assert_eq!(by_masks(0b01, 0b11), [true, false]);
        assert_eq!(by_masks(0b101, 0b010), [false, true]);
        assert_eq!(by_masks(0b101, 0b100), [true, true]);
        let both = spoilt(&[], 10, 0, (0b1, 0b1));
        assert!(both.is_spoilt() && !both.is_spoilt_by_masks_alone());
    }
}

//! Random masks of held faults, and what a fresh search refuses in them.

use plain::field::MOST_ABDUCIBLES;
use plain::Held;
use random::Random;

/// Masks that a fresh search over so many abducibles accepts: they hold none of
/// them, some or all.
pub fn sound(random: &mut Random, abducibles: usize) -> Held {
    let count = match random.below(5) {
        0 => 0,
        1 => abducibles,
        2 => abducibles.min(1),
        _ => random.between(0, abducibles),
    };
    holding(random, abducibles, count)
}

/// Masks that hold so many of the abducibles, any of them or the lowest or the
/// highest, often all in the same way.
pub fn holding(random: &mut Random, abducibles: usize, count: usize) -> Held {
    let mut faults: Vec<usize> = (0..abducibles).collect();
    match random.below(4) {
        0 => {}
        1 => faults.reverse(),
        _ => random.shuffle(&mut faults),
    }
    let mut held = Held::NONE;
    let ways: &[bool] = random.pick(&[&[true], &[false], &[true, false], &[true, false]]);
    for &fault in &faults[..count] {
        *mask(&mut held, random.pick(ways)) |= 1 << fault;
    }
    held
}

fn mask(held: &mut Held, is_assumed: bool) -> &mut u16 {
    if is_assumed {
        &mut held.assumed
    } else {
        &mut held.ruled
    }
}

/// Any bits, few or many, whatever the file is.
pub fn any(random: &mut Random) -> Held {
    match random.below(4) {
        0 => Held::NONE,
        1 => Held {
            assumed: random.word() as u16,
            ruled: random.word() as u16,
        },
        _ => {
            let abducibles = random.below(MOST_ABDUCIBLES);
            let mut held = sound(random, MOST_ABDUCIBLES);
            spoil(random, &mut held, abducibles);
            held
        }
    }
}

/// Makes 15 or 16 refuse the masks, or both of them.
pub fn spoil(random: &mut Random, held: &mut Held, abducibles: usize) {
    let way = random.below(4);
    if way != 0 {
        add_unlisted(random, held, abducibles);
    }
    if way != 1 || abducibles == MOST_ABDUCIBLES {
        share_a_bit(random, held, abducibles);
    }
}

/// Sets a bit that both masks then have, most often that of an abducible.
fn share_a_bit(random: &mut Random, held: &mut Held, abducibles: usize) {
    let below = if random.one_in(4) {
        MOST_ABDUCIBLES
    } else {
        abducibles.max(1)
    };
    let bit = 1 << random.below(below);
    held.assumed |= bit;
    held.ruled |= bit;
}

/// Sets a bit at or above k in one mask, where a mask has such a bit.
fn add_unlisted(random: &mut Random, held: &mut Held, abducibles: usize) {
    if abducibles < MOST_ABDUCIBLES {
        let last = MOST_ABDUCIBLES - 1;
        let any = random.between(abducibles, last);
        let bit = random.pick(&[abducibles, any, last]);
        *mask(held, random.one_in(2)) |= 1 << bit;
    }
}

/// What a fresh search over so many abducibles is asked to hold.
#[derive(Clone, Copy, Debug)]
pub struct Asked {
    pub held: Held,
    pub abducibles: usize,
}

impl Asked {
    /// The bits at or above k of a mask.
    fn unlisted(&self, mask: u16) -> u16 {
        (u32::from(mask) >> self.abducibles << self.abducibles) as u16
    }

    pub fn shares_a_bit(&self) -> bool {
        self.held.assumed & self.held.ruled != 0
    }

    /// Whether the assumed mask has a bit at or above k, and the ruled mask.
    pub fn unlisted_by(&self) -> [bool; 2] {
        [self.held.assumed, self.held.ruled].map(|mask| self.unlisted(mask) != 0)
    }

    pub fn has_unlisted(&self) -> bool {
        self.unlisted(self.either()) != 0
    }

    /// The bits that one of the masks has.
    pub fn either(&self) -> u16 {
        self.held.assumed | self.held.ruled
    }

    pub fn has_bit(&self, fault: usize) -> bool {
        self.either() >> fault & 1 == 1
    }

    /// How many bits are set in one mask or in both.
    pub fn count(&self) -> usize {
        self.either().count_ones() as usize
    }
}

#[cfg(test)]
mod tests {
    use super::*;
    use random::seed::seed;

    fn asked(assumed: u16, ruled: u16, abducibles: usize) -> Asked {
        Asked {
            held: Held { assumed, ruled },
            abducibles,
        }
    }

    #[test]
    fn masks_are_refused_only_where_they_are_spoilt() {
        let mut random = Random::new(seed(12));
        for round in 0..5_000 {
            let abducibles = round % 17;
            let mut held = sound(&mut random, abducibles);
            let refused = |held| {
                let asked = Asked { held, abducibles };
                [asked.shares_a_bit(), asked.has_unlisted()]
            };
            assert_eq!(refused(held), [false; 2], "{held:?} of {abducibles}");
            spoil(&mut random, &mut held, abducibles);
            assert_ne!(refused(held), [false; 2], "{held:?} of {abducibles}");
        }
    }

    #[test]
    fn so_many_are_held_as_asked_for() {
        let mut random = Random::new(seed(13));
        for count in 0..=16 {
            let held = holding(&mut random, 16, count);
            let asked = Asked {
                held,
                abducibles: 16,
            };
            assert_eq!(asked.count(), count);
            assert!(!asked.shares_a_bit());
        }
    }

    #[test]
    fn a_bit_is_listed_below_k() {
        assert_eq!(asked(0b101, 0b100, 2).unlisted_by(), [true, true]);
        assert_eq!(asked(0b101, 0b010, 2).unlisted_by(), [true, false]);
        assert_eq!(asked(0b001, 0x8000, 15).unlisted_by(), [false, true]);
        assert_eq!(asked(0xFFFF, 0xFFFF, 16).unlisted_by(), [false, false]);
        assert!(asked(1, 0, 0).has_unlisted());
        assert!(!asked(0b11, 0b10, 2).has_unlisted());
    }
}

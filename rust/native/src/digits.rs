//! What 64 scenarios that follow one another assume.

/// The lanes that assume an abducible, and those that rule it out.
#[derive(Clone, Copy, Default)]
pub struct Digit {
    pub assumed: u64,
    pub ruled: u64,
}

/// For each abducible, from the scenario in the first lane on. The digits of a
/// scenario are those of the one before counted up by one.
pub fn digits(base: u32, abducibles: usize) -> Vec<Digit> {
    let mut words = vec![Digit::default(); abducibles];
    let mut rest = base;
    let mut counter: Vec<u32> = (0..abducibles)
        .map(|_| {
            let digit = rest % 3;
            rest /= 3;
            digit
        })
        .collect();
    for lane in 0..64 {
        for (digit, word) in counter.iter().zip(&mut words) {
            word.assumed |= u64::from(*digit == 1) << lane;
            word.ruled |= u64::from(*digit == 2) << lane;
        }
        for digit in &mut counter {
            *digit += 1;
            if *digit < 3 {
                break;
            }
            *digit = 0;
        }
    }
    words
}

/// The assumptions of one scenario, a bit for each abducible.
#[derive(Clone, Copy)]
pub struct Assumptions {
    assumed: u16,
    ruled: u16,
}

impl Assumptions {
    /// Those of the scenario in a lane.
    pub fn of_lane(words: &[Digit], lane: usize) -> Self {
        let mut it = Assumptions {
            assumed: 0,
            ruled: 0,
        };
        for (place, word) in words.iter().enumerate() {
            it.assumed |= ((word.assumed >> lane & 1) as u16) << place;
            it.ruled |= ((word.ruled >> lane & 1) as u16) << place;
        }
        it
    }

    /// Whether the other has only part of these.
    pub fn contain(self, other: Assumptions) -> bool {
        other.assumed & !self.assumed == 0 && other.ruled & !self.ruled == 0
    }
}

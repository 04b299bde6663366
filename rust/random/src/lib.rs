//! Random numbers that a seed repeats: SplitMix64.

#![forbid(unsafe_code)]

pub mod seed;

pub struct Random {
    state: u64,
}

impl Random {
    /// A test has its seed by [`seed::seed`]; a file that is measured has its own,
    /// and stays the same.
    pub fn new(seed: u64) -> Self {
        Random { state: seed }
    }

    /// Any 64-bit word.
    pub fn word(&mut self) -> u64 {
        self.state = self.state.wrapping_add(0x9E37_79B9_7F4A_7C15);
        let mut word = self.state;
        word = (word ^ (word >> 30)).wrapping_mul(0xBF58_476D_1CE4_E5B9);
        word = (word ^ (word >> 27)).wrapping_mul(0x94D0_49BB_1331_11EB);
        word ^ (word >> 31)
    }

    /// Any byte.
    pub fn byte(&mut self) -> u8 {
        self.word() as u8
    }

    /// A number below `bound`, which is not 0. The bounds here are so small
    /// that the remainder is even enough.
    pub fn below(&mut self, bound: usize) -> usize {
        (self.word() % bound as u64) as usize
    }

    /// A number from `least` to `most`.
    pub fn between(&mut self, least: usize, most: usize) -> usize {
        least + self.below(most - least + 1)
    }

    /// True once in `times` calls.
    pub fn one_in(&mut self, times: usize) -> bool {
        self.below(times) == 0
    }

    pub fn pick<T: Copy>(&mut self, items: &[T]) -> T {
        items[self.below(items.len())]
    }

    pub fn shuffle<T>(&mut self, items: &mut [T]) {
        for last in (1..items.len()).rev() {
            items.swap(self.between(0, last), last);
        }
    }
}

#[cfg(test)]
mod tests {
    use super::seed::seed;
    use super::Random;
    use std::collections::HashSet;

    #[test]
    fn words_are_those_of_splitmix64() {
        let mut random = Random::new(0);
        assert_eq!(random.word(), 0xE220_A839_7B1D_CDAF);
        assert_eq!(random.word(), 0x6E78_9E6A_A1B9_65F4);
        assert_eq!(random.word(), 0x06C4_5D18_8009_454F);
    }

    #[test]
    fn between_reaches_both_ends_and_no_further() {
        let mut random = Random::new(seed(1));
        let mut seen = [false; 10];
        for _ in 0..1000 {
            seen[random.between(3, 5)] = true;
        }
        let reached: Vec<usize> = (0..10).filter(|&number| seen[number]).collect();
        assert_eq!(reached, [3, 4, 5]);
    }

    #[test]
    fn shuffling_reaches_every_order_and_loses_nothing() {
        let mut random = Random::new(seed(2));
        let mut orders = HashSet::new();
        for _ in 0..1000 {
            let mut items = ['a', 'b', 'c'];
            random.shuffle(&mut items);
            orders.insert(items);
            items.sort_unstable();
            assert_eq!(items, ['a', 'b', 'c']);
        }
        assert_eq!(orders.len(), 6);
    }
}

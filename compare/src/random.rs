//! Numbers that look random and are the same in every run.

/// SplitMix64: a counter, scrambled.
#[derive(Clone, Debug)]
pub struct Random {
    counter: u64,
}

impl Random {
    pub fn new(seed: u64) -> Random {
        Random { counter: seed }
    }

    pub fn word(&mut self) -> u64 {
        self.counter = self.counter.wrapping_add(0x9e37_79b9_7f4a_7c15);
        let mut z = self.counter;
        z = (z ^ (z >> 30)).wrapping_mul(0xbf58_476d_1ce4_e5b9);
        z = (z ^ (z >> 27)).wrapping_mul(0x94d0_49bb_1331_11eb);
        z ^ (z >> 31)
    }

    /// A number below `bound`, which is not 0.
    pub fn below(&mut self, bound: u32) -> u32 {
        // The top half, scaled: its bias is below 2^-32 for each number.
        (((self.word() >> 32) * u64::from(bound)) >> 32) as u32
    }

    pub fn byte(&mut self) -> u8 {
        (self.word() >> 56) as u8
    }

    pub fn bytes(&mut self, count: usize) -> Vec<u8> {
        (0..count).map(|_| self.byte()).collect()
    }

    pub fn seed(&mut self) -> [u8; 16] {
        std::array::from_fn(|_| self.byte())
    }

    /// As many numbers below `bound`.
    pub fn numbers(&mut self, count: usize, bound: u32) -> Vec<u32> {
        (0..count).map(|_| self.below(bound)).collect()
    }

    /// One of the items.
    pub fn pick<T: Copy>(&mut self, items: &[T]) -> T {
        items[self.below(items.len() as u32) as usize]
    }
}

#[cfg(test)]
mod tests {
    use super::*;

    #[test]
    fn runs_are_repeatable() {
        // The first outputs of SplitMix64 from 0, as published with it.
        let mut random = Random::new(0);
        assert_eq!(random.word(), 0xe220_a839_7b1d_cdaf);
        assert_eq!(random.word(), 0x6e78_9e6a_a1b9_65f4);
        assert_eq!(random.word(), 0x06c4_5d18_8009_454f);
    }

    #[test]
    fn below_reaches_its_whole_range_and_no_more() {
        let mut random = Random::new(1);
        let drawn = random.numbers(1000, 5);
        assert!((0..5).all(|x| drawn.contains(&x)));
        assert!(drawn.iter().all(|&x| x < 5));
    }
}

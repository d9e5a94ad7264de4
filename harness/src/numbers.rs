//! Random numbers that are the same at every run.

/// Numbers from a seed, by the method SplitMix64.
#[derive(Debug, Clone)]
pub struct Generator(pub u64);

impl Generator {
    /// Any number.
    pub fn any(&mut self) -> u64 {
        self.0 = self.0.wrapping_add(0x9e37_79b9_7f4a_7c15);
        let mut z = self.0;
        z = (z ^ (z >> 30)).wrapping_mul(0xbf58_476d_1ce4_e5b9);
        z = (z ^ (z >> 27)).wrapping_mul(0x94d0_49bb_1331_11eb);
        z ^ (z >> 31)
    }

    /// A number from 0 to below `end`.
    pub fn below<T: TryFrom<u64>>(&mut self, end: u64) -> T {
        T::try_from(self.any() % end).ok().expect("a small number")
    }

    /// A gas-day from `first` to `last`.
    pub fn day(&mut self, first: u16, last: u16) -> u16 {
        first + self.below::<u16>(u64::from(last - first) + 1)
    }

    pub fn pick<T: Copy>(&mut self, choices: &[T]) -> T {
        choices[self.below::<usize>(choices.len() as u64)]
    }

    pub fn in_hundred(&mut self, chances: u64) -> bool {
        self.any() % 100 < chances
    }
}

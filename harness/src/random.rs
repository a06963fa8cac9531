//! Pseudo-random numbers that depend on the seed alone (splitmix64).

#[derive(Clone, Debug)]
pub struct Random {
    state: u64,
}

impl Random {
    pub fn new(seed: u64) -> Random {
        Random { state: seed }
    }

    /// Other numbers, which depend on what comes next here and leave it as it is.
    pub fn aside(&self) -> Random {
        Random::new(self.clone().next_u64())
    }

    /// Any 64-bit number.
    pub fn next_u64(&mut self) -> u64 {
        self.state = self.state.wrapping_add(0x9e37_79b9_7f4a_7c15);
        let mut mixed = self.state;
        mixed = (mixed ^ (mixed >> 30)).wrapping_mul(0xbf58_476d_1ce4_e5b9);
        mixed = (mixed ^ (mixed >> 27)).wrapping_mul(0x94d0_49bb_1331_11eb);
        mixed ^ (mixed >> 31)
    }

    /// 0 up to, and not including, the bound; 0 for a bound of 0.
    pub fn below(&mut self, bound: u64) -> u64 {
        // The high half of the product: even enough for tests.
        ((u128::from(self.next_u64()) * u128::from(bound)) >> 64) as u64
    }

    /// 0 up to and including the limit.
    pub fn up_to(&mut self, limit: u32) -> u32 {
        self.below(u64::from(limit) + 1) as u32
    }

    /// True once in so many times.
    pub fn once_in(&mut self, times: u64) -> bool {
        self.below(times) == 0
    }

    pub fn pick<Item: Copy, const COUNT: usize>(&mut self, items: [Item; COUNT]) -> Item {
        const { assert!(COUNT > 0) };
        items[self.below(COUNT as u64) as usize]
    }
}

//! The numbers that a workload draws: the same in each run and for each contender.

/// A xorshift generator of 64 bits.
pub struct Random {
    state: u64,
}

impl Random {
    /// The generator that every workload begins with.
    pub fn new() -> Random {
        Random {
            state: 0x1234_5678_9ABC_DEF1,
        }
    }

    /// The next number below `bound`.
    pub fn below(&mut self, bound: u32) -> u32 {
        self.state ^= self.state << 13;
        self.state ^= self.state >> 7;
        self.state ^= self.state << 17;
        (((self.state >> 32) * u64::from(bound)) >> 32) as u32
    }
}

//! What a run is checked by: a sum of all that fired, each timer as its tick and payload.

/// A tick and a payload as one number.
pub fn mix(tick: u32, payload: u32) -> u64 {
    (u64::from(tick).wrapping_mul(0x9E37_79B9_7F4A_7C15) ^ u64::from(payload))
        .wrapping_mul(0xD6E8_FEB8_6659_FD93)
}

/// The sums of a run.
#[derive(Clone, Copy, Debug, Default)]
pub struct Checksum {
    /// The sum that depends on the order of what was added.
    pub ordered: u64,
    /// The sum that does not.
    pub unordered: u64,
}

impl Checksum {
    /// Adds one number.
    pub fn add(&mut self, mixed: u64) {
        self.ordered = self.ordered.wrapping_mul(31).wrapping_add(mixed);
        self.unordered = self.unordered.wrapping_add(mixed);
    }

    /// Whether a run with this sum did the same.
    pub fn agrees(&self, sum: Sum) -> bool {
        match sum {
            Sum::Ordered(sum) => sum == self.ordered,
            Sum::Unordered(sum) => sum == self.unordered,
        }
    }
}

/// The sum by which a run is compared with the hand-written wheel's.
#[derive(Clone, Copy, Debug)]
pub enum Sum {
    /// Of a store that fires the timers of one tick in the order in which they were started.
    Ordered(u64),
    /// Of a store that fires them in any order.
    Unordered(u64),
}

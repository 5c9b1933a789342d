//! What a store keeps beside its rows: the clock, the tickets, and the counts of the owners.

use super::store::Fault;

const OWNERS: usize = 64;

/// The clock, the tickets given, and how many entries are pending.
pub struct Ledger {
    /// The current tick.
    pub now: u32,
    /// The last tick.
    pub last: u32,
    /// Before this tick nothing is due, and nothing has to be done as the tick goes on; 0 where that is not known.
    pub event: u32,
    /// How many tickets have been given.
    pub given: u32,
    /// How many entries are pending.
    pub pending: u16,
    /// The row that the next entry gets, if one is vacant.
    pub vacant: u16,
    capacity: u16,
    counts: [u16; OWNERS],
}

impl Ledger {
    /// The ledger of a store with so many rows, all vacant.
    pub fn new(first: u32, last: u32, capacity: u16) -> Ledger {
        Ledger {
            now: first.min(last),
            last,
            event: 0,
            given: 0,
            pending: 0,
            vacant: 0,
            capacity,
            counts: [0; OWNERS],
        }
    }

    /// The lowest refusal of a start, if one applies.
    ///
    /// An owner's limit is the number of rows, so an owner that has reached it has filled the store: that is refused first.
    pub fn check(&self, deadline: u32, owner: u8) -> Result<(), Fault> {
        if deadline <= self.now {
            return Err(Fault::Past);
        }
        if deadline > self.last {
            return Err(Fault::Late);
        }
        if usize::from(owner) >= OWNERS {
            return Err(Fault::Owner);
        }
        if self.given == u32::MAX {
            return Err(Fault::Spent);
        }
        if self.pending == self.capacity {
            return Err(Fault::Full);
        }
        Ok(())
    }

    /// Counts an entry that a check let through, and answers its ticket.
    pub fn enter(&mut self, deadline: u32, owner: u8) -> u32 {
        self.given += 1;
        self.pending += 1;
        *self.count(owner) += 1;
        self.event = self.event.min(deadline);
        self.given
    }

    /// Counts an entry that has left a row.
    pub fn leave(&mut self, owner: u8, row: usize) {
        self.pending -= 1;
        self.vacant = row as u16;
        *self.count(owner) -= 1;
    }

    fn count(&mut self, owner: u8) -> &mut u16 {
        &mut self.counts[usize::from(owner) % OWNERS]
    }
}

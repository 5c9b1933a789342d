//! What every store does.

/// Why a store refuses a call; a refused call changes nothing.
#[derive(Clone, Copy, PartialEq, Eq, Debug)]
pub enum Fault {
    /// The deadline is not after now.
    Past = 1,
    /// The deadline is after the last tick.
    Late = 2,
    /// The owner is above 63.
    Owner = 3,
    /// Every ticket has been given.
    Spent = 4,
    /// No row is vacant.
    Full = 5,
    /// The owner has as many pending entries as it may have. A store over rows refuses as full before.
    #[allow(dead_code)]
    Limit = 6,
    /// No pending entry has the ticket.
    Missing = 7,
    /// An entry is due and has to be taken first.
    Due = 8,
    /// Now is the last tick.
    Ended = 9,
}

/// An entry whose deadline has come.
#[derive(Clone, Copy, PartialEq, Eq, Debug)]
pub struct Expired<P> {
    /// The ticket that `start` answered.
    pub ticket: u32,
    /// The entry's owner.
    pub owner: u8,
    /// The entry's payload.
    pub payload: P,
}

/// A timer store.
pub trait Store<P> {
    /// The current tick.
    fn now(&self) -> u32;

    /// The last tick.
    fn last(&self) -> u32;

    /// How many tickets have been given.
    fn given(&self) -> u32;

    /// How many entries are pending.
    fn pending(&self) -> usize;

    /// Whether an entry is due.
    fn is_due(&self) -> bool;

    /// Adds an entry and answers its ticket.
    fn start(&mut self, deadline: u32, owner: u8, payload: P) -> Result<u32, Fault>;

    /// Removes the entry of a ticket and answers its owner and payload.
    fn stop(&mut self, ticket: u32) -> Result<(u8, P), Fault>;

    /// Removes the due entry with the lowest ticket.
    fn take(&mut self) -> Option<Expired<P>>;

    /// Goes on to the next tick.
    fn advance(&mut self) -> Result<(), Fault>;
}

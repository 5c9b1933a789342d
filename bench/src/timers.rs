//! A timer store as the workloads use it.

/// How many owners there are.
pub const OWNERS: u32 = 64;

/// A store of timers with a deadline, an owner and a payload. Its tick begins at 0.
///
/// No call of a workload is one that a store refuses, so a refusal ends the run.
pub trait Timers {
    /// What `start` gives and `stop` takes.
    type Handle: Copy;

    /// Whether the timers of one tick fire in the order in which they were started.
    const IN_ORDER: bool;

    /// Starts a timer that fires in the tick `deadline`, which is after now.
    fn start(&mut self, deadline: u32, owner: u8, payload: u32) -> Self::Handle;

    /// Stops a pending timer.
    fn stop(&mut self, handle: Self::Handle);

    /// Goes on to the next tick; nothing is due.
    fn advance(&mut self);

    /// Takes a timer that is due out of the store, and answers its payload.
    fn take(&mut self) -> Option<u32>;

    /// The number of the start that gave the handle, from 1, where the store counts its starts.
    fn ticket(_handle: Self::Handle) -> Option<u32> {
        None
    }
}

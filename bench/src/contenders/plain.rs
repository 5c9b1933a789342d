//! The hand-written stores as contenders.

use crate::checksum::Checksum;
use crate::plain::heap::{self, Heap};
use crate::plain::store::Store;
use crate::plain::wheel::{self, Wheel, LAST_TICK};
use crate::timers::Timers;
use crate::workloads::Workload;

/// A workload over the hand-written wheel.
pub fn wheel(workload: Workload) -> Checksum {
    let mut rows = vec![wheel::Row::vacant(0); workload.rows()];
    workload.run(Refusing(Wheel::new(&mut rows, 0)))
}

/// A workload over the hand-written heap.
pub fn heap(workload: Workload) -> Checksum {
    let mut rows = vec![heap::Row::vacant(0); workload.rows()];
    let mut nodes = vec![heap::Node::default(); workload.rows()];
    workload.run(Refusing(Heap::new(&mut rows, &mut nodes, 0, LAST_TICK)))
}

/// A store that refuses no call of a workload. Its calls are inlined into the workload, as those of the proved stores are.
struct Refusing<S>(S);

impl<S: Store<u32>> Timers for Refusing<S> {
    type Handle = u32;

    const IN_ORDER: bool = true;

    #[inline(always)]
    fn start(&mut self, deadline: u32, owner: u8, payload: u32) -> u32 {
        self.0.start(deadline, owner, payload).expect("a start")
    }

    #[inline(always)]
    fn stop(&mut self, ticket: u32) {
        self.0.stop(ticket).expect("a pending entry");
    }

    #[inline(always)]
    fn advance(&mut self) {
        self.0.advance().expect("a next tick");
    }

    #[inline(always)]
    fn take(&mut self) -> Option<u32> {
        Some(self.0.take()?.payload)
    }

    fn ticket(ticket: u32) -> Option<u32> {
        Some(ticket)
    }
}

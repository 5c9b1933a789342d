//! The standard library's binary heap: a stopped timer stays in it until it comes to the top.

use crate::timers::Timers;
use std::cmp::Reverse;
use std::collections::BinaryHeap;

#[derive(Clone, Copy)]
struct Row {
    /// The ticket of the pending timer, or 0.
    ticket: u32,
    payload: u32,
}

/// Where a timer is kept, and its ticket, which tells it from later timers there.
#[derive(Clone, Copy, PartialEq, Eq, PartialOrd, Ord)]
pub struct Handle {
    ticket: u32,
    row: u16,
}

/// Timers in a `BinaryHeap`.
pub struct StdHeap {
    heap: BinaryHeap<Reverse<(u32, Handle)>>,
    rows: Vec<Row>,
    vacant: Vec<u16>,
    now: u32,
    given: u32,
}

impl StdHeap {
    /// A store with nothing pending and room for so many timers.
    pub fn new(capacity: usize) -> StdHeap {
        let row = Row {
            ticket: 0,
            payload: 0,
        };
        StdHeap {
            heap: BinaryHeap::with_capacity(capacity),
            rows: vec![row; capacity],
            vacant: (0..capacity as u16).rev().collect(),
            now: 0,
            given: 0,
        }
    }

    // Gives up the row of a timer, if it is still pending.
    fn remove(&mut self, handle: Handle) -> Option<Row> {
        let row = &mut self.rows[usize::from(handle.row)];
        if row.ticket != handle.ticket {
            return None;
        }
        let removed = *row;
        row.ticket = 0;
        self.vacant.push(handle.row);
        Some(removed)
    }
}

impl Timers for StdHeap {
    type Handle = Handle;

    const IN_ORDER: bool = true;

    fn start(&mut self, deadline: u32, _owner: u8, payload: u32) -> Handle {
        let row = self.vacant.pop().expect("a vacant row");
        self.given += 1;
        let handle = Handle {
            ticket: self.given,
            row,
        };
        self.rows[usize::from(row)] = Row {
            ticket: handle.ticket,
            payload,
        };
        self.heap.push(Reverse((deadline, handle)));
        handle
    }

    fn stop(&mut self, handle: Handle) {
        self.remove(handle).expect("a pending timer");
    }

    fn advance(&mut self) {
        self.now += 1;
    }

    fn take(&mut self) -> Option<u32> {
        while let Some(Reverse((deadline, handle))) = self.heap.peek() {
            if *deadline > self.now {
                return None;
            }
            let handle = *handle;
            self.heap.pop();
            if let Some(row) = self.remove(handle) {
                return Some(row.payload);
            }
        }
        None
    }

    fn ticket(handle: Handle) -> Option<u32> {
        Some(handle.ticket)
    }
}

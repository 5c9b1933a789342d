//! The timing wheel inside tokio-util's `DelayQueue`, over one entry for each payload.

use crate::time::wheel::{Stack, Wheel};
use crate::timers::Timers;

/// A timer, linked to those beside it in its slot.
#[derive(Clone, Copy, Default)]
struct Entry {
    deadline: u64,
    next: Option<u32>,
    previous: Option<u32>,
}

/// The entries of a slot, the latest first.
#[derive(Debug, Default)]
struct Slot {
    head: Option<u32>,
}

impl Stack for Slot {
    type Owned = u32;
    type Borrowed = u32;
    type Store = Vec<Entry>;

    fn is_empty(&self) -> bool {
        self.head.is_none()
    }

    fn push(&mut self, item: u32, entries: &mut Vec<Entry>) {
        if let Some(next) = self.head {
            entries[next as usize].previous = Some(item);
        }
        entries[item as usize].next = self.head;
        entries[item as usize].previous = None;
        self.head = Some(item);
    }

    fn pop(&mut self, entries: &mut Vec<Entry>) -> Option<u32> {
        let item = self.head?;
        self.remove(&item, entries);
        Some(item)
    }

    fn remove(&mut self, item: &u32, entries: &mut Vec<Entry>) {
        let Entry { next, previous, .. } = entries[*item as usize];
        if let Some(next) = next {
            entries[next as usize].previous = previous;
        }
        match previous {
            Some(previous) => entries[previous as usize].next = next,
            None => self.head = next,
        }
    }

    fn when(item: &u32, entries: &Vec<Entry>) -> u64 {
        entries[*item as usize].deadline
    }
}

/// Timers in tokio-util's wheel.
pub struct TokioUtil {
    wheel: Wheel<Slot>,
    entries: Vec<Entry>,
    now: u64,
}

impl TokioUtil {
    /// A store with nothing pending and room for so many timers.
    pub fn new(capacity: usize) -> TokioUtil {
        TokioUtil {
            wheel: Wheel::new(),
            entries: vec![Entry::default(); capacity],
            now: 0,
        }
    }
}

impl Timers for TokioUtil {
    type Handle = u32;

    const IN_ORDER: bool = false;

    fn start(&mut self, deadline: u32, _owner: u8, payload: u32) -> u32 {
        let deadline = u64::from(deadline);
        self.entries[payload as usize].deadline = deadline;
        let inserted = self.wheel.insert(deadline, payload, &mut self.entries);
        assert!(inserted.is_ok(), "a deadline within reach");
        payload
    }

    fn stop(&mut self, payload: u32) {
        self.wheel.remove(&payload, &mut self.entries);
    }

    fn advance(&mut self) {
        self.now += 1;
    }

    fn take(&mut self) -> Option<u32> {
        self.wheel.poll(self.now, &mut self.entries)
    }
}

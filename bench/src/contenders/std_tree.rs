//! The standard library's ordered map, by deadline, then ticket.

use crate::timers::Timers;
use std::collections::BTreeMap;

/// The key of a timer.
#[derive(Clone, Copy, PartialEq, Eq, PartialOrd, Ord)]
pub struct Key {
    deadline: u32,
    ticket: u32,
}

/// Timers in a `BTreeMap`.
pub struct StdTree {
    payloads: BTreeMap<Key, u32>,
    now: u32,
    given: u32,
}

impl StdTree {
    /// A store with nothing pending.
    pub fn new() -> StdTree {
        StdTree {
            payloads: BTreeMap::new(),
            now: 0,
            given: 0,
        }
    }
}

impl Timers for StdTree {
    type Handle = Key;

    const IN_ORDER: bool = true;

    fn start(&mut self, deadline: u32, _owner: u8, payload: u32) -> Key {
        self.given += 1;
        let key = Key {
            deadline,
            ticket: self.given,
        };
        self.payloads.insert(key, payload);
        key
    }

    fn stop(&mut self, key: Key) {
        self.payloads.remove(&key).expect("a pending timer");
    }

    fn advance(&mut self) {
        self.now += 1;
    }

    fn take(&mut self) -> Option<u32> {
        let first = self.payloads.first_entry()?;
        if first.key().deadline > self.now {
            return None;
        }
        Some(first.remove())
    }

    fn ticket(key: Key) -> Option<u32> {
        Some(key.ticket)
    }
}

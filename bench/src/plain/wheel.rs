//! A hierarchical timing wheel: four levels of 64 slots.

use super::row_store::{Order, RowStore};
use super::rows::{self, NO_ROW};

/// The last tick of every wheel: four digits of 63 in base 64.
pub const LAST_TICK: u32 = 16_777_215;

const LEVELS: u32 = 4;

const SLOTS: usize = 256;

/// The place of an entry: its slot, the rows beside it there, and its deadline.
#[derive(Clone, Copy)]
pub struct Link {
    deadline: u32,
    next: u16,
    previous: u16,
    slot: u8,
}

impl Default for Link {
    fn default() -> Link {
        Link {
            deadline: 0,
            next: NO_ROW,
            previous: NO_ROW,
            slot: 0,
        }
    }
}

/// A row of a wheel.
pub type Row<P> = rows::Row<P, Link>;

/// A timing wheel over rows that are lent to it.
pub type Wheel<'a, P> = RowStore<'a, P, WheelOrder>;

/// The entries of a slot, in the order of their tickets.
#[derive(Clone, Copy)]
struct Slot {
    first: u16,
    last: u16,
}

impl Slot {
    const EMPTY: Slot = Slot {
        first: NO_ROW,
        last: NO_ROW,
    };
}

/// The order of a timing wheel.
pub struct WheelOrder {
    slots: [Slot; SLOTS],
    /// A bit for each slot of level 0 that may have entries.
    near: u64,
}

// The place of an entry: its level is that of the topmost digit where deadline and tick disagree.
fn place(now: u32, deadline: u32) -> u8 {
    let level = ((now ^ deadline) | 1).ilog2() / 6;
    slot(level, deadline)
}

// The slot of a tick's digit on a level.
fn slot(level: u32, tick: u32) -> u8 {
    (64 * level + (tick >> (6 * level)) % 64) as u8
}

impl<'a, P: Copy> Wheel<'a, P> {
    /// A wheel with nothing pending over the rows, whatever they hold.
    pub fn new(rows: &'a mut [Row<P>], first: u32) -> Wheel<'a, P> {
        let order = WheelOrder {
            slots: [Slot::EMPTY; SLOTS],
            near: 0,
        };
        RowStore::over(rows, first, LAST_TICK, order)
    }
}

impl WheelOrder {
    // Puts a row at the end of the slot of its place.
    #[inline(always)]
    fn append<P>(&mut self, rows: &mut [Row<P>], now: u32, x: usize, deadline: u32) {
        let place = place(now, deadline);
        if place < 64 {
            self.near |= 1 << place;
        }
        let slot = &mut self.slots[usize::from(place)];
        let previous = std::mem::replace(&mut slot.last, x as u16);
        match rows.get_mut(usize::from(previous)) {
            Some(row) => row.link.next = x as u16,
            None => slot.first = x as u16,
        }
        rows[x].link = Link {
            deadline,
            next: NO_ROW,
            previous,
            slot: place,
        };
    }

    // Now has come to a slot of a higher level: its entries go to lower ones.
    fn cascade<P>(&mut self, rows: &mut [Row<P>], now: u32) {
        let level = (now.trailing_zeros() / 6).min(LEVELS - 1);
        let emptied =
            std::mem::replace(&mut self.slots[usize::from(slot(level, now))], Slot::EMPTY);
        let mut x = usize::from(emptied.first);
        while let Some(row) = rows.get(x) {
            let Link { deadline, next, .. } = row.link;
            self.append(rows, now, x, deadline);
            x = usize::from(next);
        }
    }
}

impl<P: Copy> Order<P> for WheelOrder {
    type Link = Link;

    #[inline(always)]
    fn insert(&mut self, rows: &mut [Row<P>], now: u32, x: usize, deadline: u32) {
        self.append(rows, now, x, deadline);
    }

    #[inline(always)]
    fn remove(&mut self, rows: &mut [Row<P>], gone: &Row<P>) {
        let Link {
            next,
            previous,
            slot,
            ..
        } = gone.link;
        let slot = &mut self.slots[usize::from(slot)];
        match rows.get_mut(usize::from(previous)) {
            Some(row) => row.link.next = next,
            None => slot.first = next,
        }
        match rows.get_mut(usize::from(next)) {
            Some(row) => row.link.previous = previous,
            None => slot.last = previous,
        }
    }

    fn first_due(&self, now: u32) -> Option<usize> {
        let first = self.slots[(now % 64) as usize].first;
        (first != NO_ROW).then_some(usize::from(first))
    }

    fn turn(&mut self, rows: &mut [Row<P>], now: u32) {
        if now % 64 == 0 {
            self.cascade(rows, now);
        }
    }

    // The next slot of level 0 with entries, or the next cascade. A slot whose entries were stopped is noticed here.
    fn next_event(&mut self, now: u32) -> u32 {
        loop {
            let ahead = self.near >> (now % 64);
            if ahead == 0 {
                return (now | 63) + 1;
            }
            let steps = ahead.trailing_zeros();
            let slot = now % 64 + steps;
            if self.slots[slot as usize].first != NO_ROW {
                return now + steps;
            }
            self.near &= !(1 << slot);
        }
    }
}

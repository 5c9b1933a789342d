//! A store over rows that are lent to it, which keeps its entries in an order.

use super::buckets::{Buckets, Found};
use super::ledger::Ledger;
use super::rows::{cleared, Row};
use super::store::{Expired, Fault, Store};

/// How a store keeps the entries of its rows in order, so that it finds the due entry with the lowest ticket.
pub trait Order<P> {
    /// Where the entry of a row stands in the order.
    type Link: Copy + Default;

    /// Puts the entry of a row into the order.
    fn insert(&mut self, rows: &mut [Row<P, Self::Link>], now: u32, x: usize, deadline: u32);

    /// Takes an entry out of the order, whose row held this.
    fn remove(&mut self, rows: &mut [Row<P, Self::Link>], gone: &Row<P, Self::Link>);

    /// The row of the due entry with the lowest ticket.
    fn first_due(&self, now: u32) -> Option<usize>;

    /// Goes along as the tick becomes this one with nothing due.
    fn turn(&mut self, rows: &mut [Row<P, Self::Link>], now: u32);

    /// A tick, not before now, before which nothing is due and no turn does anything.
    fn next_event(&mut self, now: u32) -> u32;
}

/// A store over rows that are lent to it.
pub struct RowStore<'a, P, O: Order<P>> {
    rows: &'a mut [Row<P, O::Link>],
    buckets: Buckets,
    ledger: Ledger,
    order: O,
}

impl<'a, P: Copy, O: Order<P>> RowStore<'a, P, O> {
    /// A store with nothing pending over the rows, whatever they hold, with an order that has nothing in it.
    pub fn over(
        rows: &'a mut [Row<P, O::Link>],
        first: u32,
        last: u32,
        order: O,
    ) -> RowStore<'a, P, O> {
        let rows = cleared(rows);
        RowStore {
            buckets: Buckets::new(),
            ledger: Ledger::new(first, last, rows.len() as u16),
            rows,
            order,
        }
    }

    // Takes an entry out of the store; its row is the next that an entry gets. The row is read at once, before others are written.
    #[inline(always)]
    fn remove(&mut self, found: &Found) -> Expired<P> {
        let row = &mut self.rows[found.row];
        let gone = *row;
        row.chain = self.ledger.vacant;
        self.buckets.unchain(self.rows, found, gone.chain);
        self.order.remove(self.rows, &gone);
        self.ledger.leave(gone.owner, found.row);
        Expired {
            ticket: gone.ticket,
            owner: gone.owner,
            payload: gone.payload,
        }
    }

    // Looks how long nothing has to be done. After the last tick comes none that could be compared.
    fn look_ahead(&mut self) {
        let Ledger { now, last, .. } = self.ledger;
        self.ledger.event = if now == last {
            0
        } else {
            self.order.next_event(now).min(last)
        };
    }

    // Takes the entry of a row. It is kept out of loops over ticks, where it is rare.
    #[inline(never)]
    fn take_row(&mut self, x: usize) -> Option<Expired<P>> {
        let found = self.buckets.find(self.rows, self.rows[x].ticket)?;
        Some(self.remove(&found))
    }

    // Goes on to a tick in which something may have to be done.
    #[cold]
    #[inline(never)]
    fn turn(&mut self) -> Result<(), Fault> {
        if self.is_due() {
            return Err(Fault::Due);
        }
        if self.ledger.now == self.ledger.last {
            return Err(Fault::Ended);
        }
        self.ledger.now += 1;
        self.order.turn(self.rows, self.ledger.now);
        if self.order.first_due(self.ledger.now).is_none() {
            self.look_ahead();
        }
        Ok(())
    }
}

impl<P: Copy, O: Order<P>> Store<P> for RowStore<'_, P, O> {
    fn now(&self) -> u32 {
        self.ledger.now
    }

    fn last(&self) -> u32 {
        self.ledger.last
    }

    fn given(&self) -> u32 {
        self.ledger.given
    }

    fn pending(&self) -> usize {
        usize::from(self.ledger.pending)
    }

    fn is_due(&self) -> bool {
        self.ledger.now >= self.ledger.event && self.order.first_due(self.ledger.now).is_some()
    }

    #[inline(always)]
    fn start(&mut self, deadline: u32, owner: u8, payload: P) -> Result<u32, Fault> {
        self.ledger.check(deadline, owner)?;
        let x = self.ledger.vacant;
        let ticket = self.ledger.enter(deadline, owner);
        self.ledger.vacant = self.buckets.chain(self.rows, x, ticket);
        let x = usize::from(x);
        let row = &mut self.rows[x];
        row.ticket = ticket;
        row.owner = owner;
        row.payload = payload;
        self.order.insert(self.rows, self.ledger.now, x, deadline);
        Ok(ticket)
    }

    #[inline(always)]
    fn stop(&mut self, ticket: u32) -> Result<(u8, P), Fault> {
        let found = self.buckets.find(self.rows, ticket).ok_or(Fault::Missing)?;
        let stopped = self.remove(&found);
        Ok((stopped.owner, stopped.payload))
    }

    #[inline(always)]
    fn take(&mut self) -> Option<Expired<P>> {
        if self.ledger.now < self.ledger.event {
            return None;
        }
        let due = self.order.first_due(self.ledger.now);
        let taken = due.and_then(|x| self.take_row(x));
        self.look_ahead();
        taken
    }

    #[inline(always)]
    fn advance(&mut self) -> Result<(), Fault> {
        let next = self.ledger.now.wrapping_add(1);
        if next < self.ledger.event {
            self.ledger.now = next;
            return Ok(());
        }
        self.turn()
    }
}

//! How the row of a ticket is found: the entries with one bucket are chained, the newest first.

use super::rows::{Row, NO_ROW};

/// How many buckets there are, as a power of two: twice as many as rows, so that few entries share one.
const BITS: u32 = 13;

/// The row with which the chain of each bucket begins.
pub struct Buckets {
    firsts: [u16; 1 << BITS],
}

/// The row of a ticket, and where its chain leads to it.
pub struct Found {
    /// The row.
    pub row: usize,
    bucket: usize,
    /// The row before it in the chain, if it is not the first.
    before: Option<usize>,
}

// Fibonacci hashing: tickets that follow one another get buckets that lie far apart.
fn bucket_of(ticket: u32) -> usize {
    (ticket.wrapping_mul(0x9E37_79B9) >> (u32::BITS - BITS)) as usize
}

impl Buckets {
    /// Buckets with nothing in them.
    pub fn new() -> Buckets {
        Buckets {
            firsts: [NO_ROW; 1 << BITS],
        }
    }

    /// Where the entry of a ticket is.
    pub fn find<P, L>(&self, rows: &[Row<P, L>], ticket: u32) -> Option<Found> {
        let bucket = bucket_of(ticket);
        let mut x = usize::from(self.firsts[bucket]);
        let mut before = None;
        loop {
            let row = rows.get(x)?;
            if row.ticket == ticket {
                return Some(Found {
                    row: x,
                    bucket,
                    before,
                });
            }
            before = Some(x);
            x = usize::from(row.chain);
        }
    }

    /// Puts a row at the front of the chain of a ticket's bucket, and answers the row's chain before.
    pub fn chain<P, L>(&mut self, rows: &mut [Row<P, L>], x: u16, ticket: u32) -> u16 {
        let first = &mut self.firsts[bucket_of(ticket)];
        let next = std::mem::replace(first, x);
        std::mem::replace(&mut rows[usize::from(x)].chain, next)
    }

    /// Takes a row out of its chain, in which another row, or none, came next.
    pub fn unchain<P, L>(&mut self, rows: &mut [Row<P, L>], found: &Found, next: u16) {
        match found.before {
            Some(before) => rows[before].chain = next,
            None => self.firsts[found.bucket] = next,
        }
    }
}

//! The rows that are lent to a store.

/// How many rows a store uses at most.
pub const MOST_ROWS: usize = 4_096;

/// What stands for a row where there is none.
pub const NO_ROW: u16 = u16::MAX;

/// Room for one entry. A vacant row is in the chain of the vacant ones, and what else it holds means nothing.
#[derive(Clone, Copy)]
pub struct Row<P, L> {
    pub ticket: u32,
    pub payload: P,
    /// Where the entry stands in the store's order.
    pub link: L,
    /// The next row of the same bucket, or in a vacant row the next vacant row.
    pub chain: u16,
    pub owner: u8,
}

impl<P, L: Default> Row<P, L> {
    /// A vacant row; the payload only fills its place.
    pub fn vacant(payload: P) -> Row<P, L> {
        Row {
            ticket: 0,
            payload,
            link: L::default(),
            chain: NO_ROW,
            owner: 0,
        }
    }
}

/// The rows that a store uses of those it is lent, all vacant and chained one after the other.
pub fn cleared<P, L>(rows: &mut [Row<P, L>]) -> &mut [Row<P, L>] {
    let used = rows.len().min(MOST_ROWS);
    let rows = &mut rows[..used];
    for (row, next) in rows.iter_mut().zip(1..) {
        row.chain = next;
    }
    rows
}

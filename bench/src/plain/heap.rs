//! A heap by deadline, then ticket, in which each row knows its position.

use super::row_store::{Order, RowStore};
use super::rows;

/// A row of a heap: its link is its position there.
pub type Row<P> = rows::Row<P, u16>;

/// A heap over rows and nodes that are lent to it.
pub type Heap<'a, P> = RowStore<'a, P, HeapOrder<'a>>;

/// How many positions lie below each one: with eight, a heap of 4,096 entries has four levels below the first.
const BELOW: usize = 8;

/// What stands in the heap for an entry.
#[derive(Clone, Copy, Default)]
pub struct Node {
    /// The deadline, and below it the ticket.
    rank: u64,
    row: u16,
}

impl Node {
    fn new(deadline: u32, ticket: u32, row: usize) -> Node {
        Node {
            rank: u64::from(deadline) << 32 | u64::from(ticket),
            row: row as u16,
        }
    }

    fn deadline(self) -> u32 {
        (self.rank >> 32) as u32
    }
}

/// The order of a heap.
pub struct HeapOrder<'a> {
    nodes: &'a mut [Node],
    count: usize,
}

impl<'a, P: Copy> Heap<'a, P> {
    /// A heap with nothing pending over the rows, whatever they hold, and at least as many nodes.
    pub fn new(
        rows: &'a mut [Row<P>],
        nodes: &'a mut [Node],
        first: u32,
        last: u32,
    ) -> Heap<'a, P> {
        let order = HeapOrder { nodes, count: 0 };
        RowStore::over(rows, first, last, order)
    }
}

impl HeapOrder<'_> {
    fn put<P>(&mut self, rows: &mut [Row<P>], position: usize, node: Node) {
        self.nodes[position] = node;
        rows[usize::from(node.row)].link = position as u16;
    }

    // Brings an entry from a position up to its place.
    fn sift_up<P>(&mut self, rows: &mut [Row<P>], mut position: usize, node: Node) {
        while position > 0 {
            let parent = (position - 1) / BELOW;
            if self.nodes[parent].rank <= node.rank {
                break;
            }
            self.put(rows, position, self.nodes[parent]);
            position = parent;
        }
        self.put(rows, position, node);
    }

    // Brings an entry from a position down to its place.
    fn sift_down<P>(&mut self, rows: &mut [Row<P>], mut position: usize, node: Node) {
        while let Some(child) = self.first_child(position) {
            if node.rank <= self.nodes[child].rank {
                break;
            }
            self.put(rows, position, self.nodes[child]);
            position = child;
        }
        self.put(rows, position, node);
    }

    // Of the positions below another, the one whose entry comes first.
    fn first_child(&self, position: usize) -> Option<usize> {
        let first = BELOW * position + 1;
        let end = (first + BELOW).min(self.count);
        let children = self.nodes.get(first..end)?;
        let (mut least, mut rank) = (0, children.first()?.rank);
        for (i, child) in children.iter().enumerate().skip(1) {
            if child.rank < rank {
                (least, rank) = (i, child.rank);
            }
        }
        Some(first + least)
    }
}

impl<P: Copy> Order<P> for HeapOrder<'_> {
    type Link = u16;

    fn insert(&mut self, rows: &mut [Row<P>], _now: u32, x: usize, deadline: u32) {
        let node = Node::new(deadline, rows[x].ticket, x);
        let end = self.count;
        self.count += 1;
        self.sift_up(rows, end, node);
    }

    // The last entry takes the place of the one that goes, or one above or below it.
    fn remove(&mut self, rows: &mut [Row<P>], gone: &Row<P>) {
        let gap = usize::from(gone.link);
        self.count -= 1;
        let last = self.nodes[self.count];
        if gap == self.count {
            return;
        }
        if gap > 0 && last.rank < self.nodes[(gap - 1) / BELOW].rank {
            self.sift_up(rows, gap, last);
        } else {
            self.sift_down(rows, gap, last);
        }
    }

    fn first_due(&self, now: u32) -> Option<usize> {
        let first = self.nodes[..self.count].first()?;
        (first.deadline() == now).then_some(usize::from(first.row))
    }

    fn turn(&mut self, _rows: &mut [Row<P>], _now: u32) {}

    fn next_event(&mut self, _now: u32) -> u32 {
        let first = self.nodes[..self.count].first();
        first.map_or(u32::MAX, |first| first.deadline())
    }
}

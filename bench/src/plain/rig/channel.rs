//! The record of a channel: the sending end and the receiving end.

use super::action::Segment;
use super::estimator::Estimator;

const WINDOW: u32 = 8;

/// A channel.
#[derive(Clone, Copy)]
pub struct Channel {
    is_open: bool,
    /// The number of the next new word.
    pub next: u32,
    /// The lowest number that may still wait for its acknowledgement.
    base: u32,
    /// For each number modulo 8 the ticket of the resend timer, while the word waits.
    sending: [Option<u32>; WINDOW as usize],
    /// The number of the word to take next.
    taken: u32,
    /// For each number modulo 8 the word that arrived, until it is taken.
    receiving: [Option<u32>; WINDOW as usize],
    /// Follows the round-trip time.
    pub estimator: Estimator,
    /// The ticket of the keepalive timer.
    pub keepalive: u32,
}

fn place(sequence: u32) -> usize {
    (sequence % WINDOW) as usize
}

impl Channel {
    /// A channel that was never opened.
    pub fn unused() -> Channel {
        Channel {
            is_open: false,
            next: 0,
            base: 0,
            sending: [None; WINDOW as usize],
            taken: 0,
            receiving: [None; WINDOW as usize],
            estimator: Estimator::new(),
            keepalive: 0,
        }
    }

    /// A channel that was just opened.
    pub fn opened(keepalive: u32) -> Channel {
        Channel {
            is_open: true,
            keepalive,
            ..Channel::unused()
        }
    }

    /// Whether words can be sent and taken.
    pub fn is_open(&self) -> bool {
        self.is_open
    }

    /// Whether as many words wait as there are places.
    pub fn is_full(&self) -> bool {
        self.next - self.base == WINDOW
    }

    /// Notes that the next word was sent.
    pub fn send(&mut self, ticket: u32) {
        self.sending[place(self.next)] = Some(ticket);
        self.next += 1;
    }

    /// Notes that a word was sent again.
    pub fn resend(&mut self, sequence: u32, ticket: u32) {
        self.sending[place(sequence)] = Some(ticket);
    }

    /// Marks the word of a number as acknowledged, and answers the ticket of its timer, if it waited.
    pub fn acknowledge(&mut self, sequence: u32) -> Option<u32> {
        if !(self.base..self.next).contains(&sequence) {
            return None;
        }
        let ticket = self.sending[place(sequence)].take()?;
        while self.base < self.next && self.sending[place(self.base)].is_none() {
            self.base += 1;
        }
        Some(ticket)
    }

    /// Keeps a word that arrived, and answers whether it is to be acknowledged.
    pub fn receive(&mut self, segment: Segment) -> bool {
        if segment.sequence < self.taken {
            return true;
        }
        if segment.sequence - self.taken >= WINDOW {
            return false;
        }
        self.receiving[place(segment.sequence)].get_or_insert(segment.word);
        true
    }

    /// Takes the next word, if it is there.
    pub fn take(&mut self) -> Option<Segment> {
        let word = self.receiving[place(self.taken)].take()?;
        let sequence = self.taken;
        self.taken = sequence.saturating_add(1);
        Some(Segment { sequence, word })
    }
}

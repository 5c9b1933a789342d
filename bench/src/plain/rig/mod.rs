//! The retransmission rig by hand in plain Rust: channels over a link that loses, doubles and delays packets, with selective repeat.
//! It makes the calls that the workload needs: not close, and no questions.

// A workload reads of an answer what kind it is.
#[allow(dead_code)]
pub mod action;
mod channel;
mod estimator;
mod link;

use super::store::{Expired, Fault, Store};
use action::{Action, Queue, RigFault, Segment, Transmission};
pub use channel::Channel;
pub use link::Packet;
use link::{Fates, Link};

/// How many channels a rig has.
pub const CHANNELS: usize = 64;

/// How far the last tick has to be away for a rig to begin, and for the tick to go on.
const MARGIN: u32 = 60_000;

const MOST_DELAY: u32 = 32_767;
const MOST_INTERVAL: u32 = 60_000;
const MOST_TRIES: u32 = 6;

/// What a resend timer carries.
#[derive(Clone, Copy)]
pub struct Attempt {
    segment: Segment,
    /// How often the word was sent again, counted up to 6.
    tries: u32,
    /// The tick in which it was first sent.
    sent: u32,
}

impl Attempt {
    /// What fills a vacant row.
    pub const NONE: Attempt = Attempt {
        segment: Segment {
            sequence: 0,
            word: 0,
        },
        tries: 0,
        sent: 0,
    };
}

/// A rig that is not running yet.
pub struct Draft {
    delay: u32,
    interval: u32,
    fates: Fates,
}

impl Draft {
    /// A draft with a default delay and an interval of keepalives.
    pub fn new(delay: u32, interval: u32) -> Draft {
        Draft {
            delay,
            interval,
            fates: Fates::default(),
        }
    }

    /// Adds the fate of the next packet.
    pub fn add_fate(&mut self, fate: u16) -> Result<(), RigFault> {
        self.fates.add(fate)
    }

    /// Begins a session over three stores and a table of records.
    pub fn begin<W: Store<Packet>, R: Store<Attempt>, K: Store<u8>>(
        self,
        wire: W,
        resend: R,
        keepalive: K,
        table: &mut [Channel],
    ) -> Result<Rig<'_, W, R, K>, RigFault> {
        if !(1..=MOST_DELAY).contains(&self.delay) || !(1..=MOST_INTERVAL).contains(&self.interval)
        {
            return Err(RigFault::Setting);
        }
        let clock = (wire.now(), wire.last());
        if (resend.now(), resend.last()) != clock || (keepalive.now(), keepalive.last()) != clock {
            return Err(RigFault::Clocks);
        }
        let pending = wire.pending() + resend.pending() + keepalive.pending();
        if pending != 0 || wire.given() != 0 || resend.given() != 0 || keepalive.given() != 0 {
            return Err(RigFault::Used);
        }
        if wire.last() - wire.now() < MARGIN {
            return Err(RigFault::Span);
        }
        let channels = table.first_chunk_mut().ok_or(RigFault::Table)?;
        channels.fill(Channel::unused());
        Ok(Rig {
            wire,
            resend,
            keepalive,
            channels,
            link: Link::new(self.fates, self.delay as u16),
            interval: self.interval,
        })
    }
}

/// A rig that is running.
pub struct Rig<'a, W, R, K> {
    wire: W,
    resend: R,
    keepalive: K,
    channels: &'a mut [Channel; CHANNELS],
    link: Link,
    interval: u32,
}

fn refused_by(queue: Queue) -> impl Fn(Fault) -> RigFault {
    move |fault| RigFault::Store(queue, fault)
}

// Whether a store has fewer than two tickets left.
fn is_worn<P, S: Store<P>>(store: &S) -> bool {
    store.given() > u32::MAX - 2
}

impl<W: Store<Packet>, R: Store<Attempt>, K: Store<u8>> Rig<'_, W, R, K> {
    /// The current tick.
    pub fn now(&self) -> u32 {
        self.wire.now()
    }

    /// Opens a channel and starts its keepalive timer.
    pub fn open(&mut self, channel: u32) -> Result<Action, RigFault> {
        let record = self.channels.get(channel as usize);
        if record.ok_or(RigFault::Channel)?.is_open() {
            return Err(RigFault::State);
        }
        self.check_supply()?;
        let owner = channel as u8;
        let ticket = self.start_keepalive(owner)?;
        self.channels[usize::from(owner)] = Channel::opened(ticket);
        Ok(Action::Opened { channel: owner })
    }

    /// Sends a new word and starts its resend timer.
    pub fn send(&mut self, channel: u32, word: u32) -> Result<Action, RigFault> {
        let owner = self.open_channel(channel)?;
        self.check_supply()?;
        let record = &mut self.channels[usize::from(owner)];
        if record.next == u32::MAX {
            return Err(RigFault::Spent);
        }
        if record.is_full() {
            return Err(RigFault::Window);
        }
        let sent = self.wire.now();
        let segment = Segment {
            sequence: record.next,
            word,
        };
        let attempt = Attempt {
            segment,
            tries: 0,
            sent,
        };
        let deadline = sent.saturating_add(record.estimator.wait(0));
        let ticket = self
            .resend
            .start(deadline, owner, attempt)
            .map_err(refused_by(Queue::Resend))?;
        record.send(ticket);
        let transmission = self.transmit(owner, Packet::Data(segment));
        Ok(Action::Sent {
            channel: owner,
            segment,
            transmission,
        })
    }

    /// Takes the next word of a channel, if it is there.
    pub fn take(&mut self, channel: u32) -> Result<Action, RigFault> {
        let owner = self.open_channel(channel)?;
        Ok(Action::Taken {
            channel: owner,
            segment: self.channels[usize::from(owner)].take(),
        })
    }

    /// Does the first that is due, or lets the tick go on.
    pub fn step(&mut self) -> Result<Action, RigFault> {
        self.check_supply()?;
        if let Some(entry) = self.wire.take() {
            return Ok(self.arrive(entry));
        }
        if let Some(entry) = self.resend.take() {
            return self.time_out(entry);
        }
        if let Some(entry) = self.keepalive.take() {
            return self.beat(entry);
        }
        if self.wire.now().saturating_add(MARGIN) >= self.wire.last() {
            return Err(RigFault::Ending);
        }
        self.wire.advance().map_err(refused_by(Queue::Wire))?;
        self.resend.advance().map_err(refused_by(Queue::Resend))?;
        self.keepalive
            .advance()
            .map_err(refused_by(Queue::Keepalive))?;
        Ok(Action::Advanced)
    }

    // The owner that stands for an open channel in the stores.
    fn open_channel(&self, channel: u32) -> Result<u8, RigFault> {
        let record = self.channels.get(channel as usize);
        if record.ok_or(RigFault::Channel)?.is_open() {
            Ok(channel as u8)
        } else {
            Err(RigFault::State)
        }
    }

    // The record of the open channel that owns an entry.
    fn open_record(&mut self, owner: u8) -> Option<&mut Channel> {
        self.channels
            .get_mut(usize::from(owner))
            .filter(|record| record.is_open())
    }

    // Whether the stores have tickets left, and the link packet numbers.
    fn check_supply(&self) -> Result<(), RigFault> {
        if is_worn(&self.wire)
            || is_worn(&self.resend)
            || is_worn(&self.keepalive)
            || self.link.is_spent()
        {
            return Err(RigFault::Spent);
        }
        Ok(())
    }

    fn transmit(&mut self, owner: u8, packet: Packet) -> Transmission {
        self.link.send(&mut self.wire, owner, packet)
    }

    fn start_keepalive(&mut self, owner: u8) -> Result<u32, RigFault> {
        let deadline = self.wire.now().saturating_add(self.interval);
        self.keepalive
            .start(deadline, owner, owner)
            .map_err(refused_by(Queue::Keepalive))
    }

    // A packet arrives.
    fn arrive(&mut self, entry: Expired<Packet>) -> Action {
        let channel = entry.owner;
        match entry.payload {
            Packet::Data(segment) => {
                let acknowledgement = self
                    .open_record(channel)
                    .is_some_and(|record| record.receive(segment))
                    .then_some(Packet::Acknowledgement {
                        sequence: segment.sequence,
                    })
                    .map(|packet| self.transmit(channel, packet));
                Action::DataArrived {
                    channel,
                    segment,
                    acknowledgement,
                }
            }
            Packet::Acknowledgement { sequence } => {
                self.acknowledge(channel, sequence);
                Action::AcknowledgementArrived { channel, sequence }
            }
            Packet::Keepalive { sequence } => Action::KeepaliveArrived { channel, sequence },
        }
    }

    // A word was acknowledged: its timer stops, and may tell the round-trip time.
    fn acknowledge(&mut self, owner: u8, sequence: u32) -> Option<()> {
        let now = self.wire.now();
        let ticket = self.open_record(owner)?.acknowledge(sequence)?;
        let (_, attempt) = self.resend.stop(ticket).ok()?;
        if attempt.tries == 0 {
            let ticks = now.saturating_sub(attempt.sent);
            self.open_record(owner)?.estimator.sample(ticks);
        }
        Some(())
    }

    // A word was not acknowledged in time: it is sent again, and its timer starts anew.
    fn time_out(&mut self, entry: Expired<Attempt>) -> Result<Action, RigFault> {
        let channel = entry.owner;
        let segment = entry.payload.segment;
        let Some(record) = self.open_record(channel) else {
            return Ok(Action::Resent {
                channel,
                segment,
                transmission: None,
            });
        };
        let tries = (entry.payload.tries + 1).min(MOST_TRIES);
        let wait = record.estimator.wait(tries);
        let deadline = self.wire.now().saturating_add(wait);
        let transmission = self.transmit(channel, Packet::Data(segment));
        let attempt = Attempt {
            tries,
            ..entry.payload
        };
        let ticket = self
            .resend
            .start(deadline, channel, attempt)
            .map_err(refused_by(Queue::Resend))?;
        self.channels[usize::from(channel)].resend(segment.sequence, ticket);
        Ok(Action::Resent {
            channel,
            segment,
            transmission: Some(transmission),
        })
    }

    // A channel's turn to give a sign of life has come: it is sent, and the timer starts anew.
    fn beat(&mut self, entry: Expired<u8>) -> Result<Action, RigFault> {
        let channel = entry.owner;
        let Some(record) = self.open_record(channel) else {
            return Ok(Action::KeepaliveSent {
                channel,
                heartbeat: None,
            });
        };
        let sequence = record.next;
        let transmission = self.transmit(channel, Packet::Keepalive { sequence });
        let ticket = self.start_keepalive(channel)?;
        self.channels[usize::from(channel)].keepalive = ticket;
        Ok(Action::KeepaliveSent {
            channel,
            heartbeat: Some((sequence, transmission)),
        })
    }
}

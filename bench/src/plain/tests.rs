//! What no workload comes to: the refusals at their edges, calls at random beside a model, and a short session of the rig.

use super::heap::{self, Heap};
use super::rig::action::{Action, RigFault, Segment, Transmission};
use super::rig::{Attempt, Channel, Draft, Packet, CHANNELS};
use super::rows::MOST_ROWS;
use super::store::{Expired, Fault, Store};
use super::wheel::{self, Wheel, LAST_TICK};
use crate::random::Random;
use std::collections::BTreeMap;

fn refuses_at_the_edges(mut store: impl Store<u32>) {
    assert_eq!(store.start(0, 0, 7), Err(Fault::Past));
    assert_eq!(store.start(LAST_TICK + 1, 64, 7), Err(Fault::Late));
    assert_eq!(store.start(LAST_TICK, 64, 7), Err(Fault::Owner));
    assert_eq!(store.start(LAST_TICK, 63, 7), Ok(1));
    assert_eq!(store.start(1, 0, 8), Ok(2));
    assert_eq!(store.start(1, 0, 9), Err(Fault::Full));
    assert_eq!(store.stop(3), Err(Fault::Missing));
    assert_eq!(store.stop(0), Err(Fault::Missing));
    assert_eq!(store.take(), None);
    assert_eq!(store.advance(), Ok(()));
    assert_eq!(store.advance(), Err(Fault::Due));
    assert!(store.is_due());
    let expired = Expired {
        ticket: 2,
        owner: 0,
        payload: 8,
    };
    assert_eq!(store.take(), Some(expired));
    assert_eq!(store.stop(2), Err(Fault::Missing));
    assert_eq!(store.stop(1), Ok((63, 7)));
    assert_eq!((store.now(), store.given(), store.pending()), (1, 2, 0));
}

fn ends(mut store: impl Store<u32>) {
    assert_eq!(store.start(LAST_TICK, 0, 7), Ok(1));
    assert_eq!(store.advance(), Ok(()));
    assert_eq!(store.advance(), Err(Fault::Due));
    assert_eq!(store.stop(1), Ok((0, 7)));
    assert_eq!(store.advance(), Err(Fault::Ended));
}

// Entries of one tick fire in the order of their tickets, from whatever distance they were started.
fn fires_in_order(mut store: impl Store<u32>) {
    assert_eq!(store.start(4_160, 0, 0), Ok(1));
    for _ in 0..4_100 {
        assert_eq!(store.advance(), Ok(()));
    }
    assert_eq!(store.start(4_160, 0, 0), Ok(2));
    for _ in 4_100..4_160 {
        assert_eq!(store.advance(), Ok(()));
    }
    let tickets = [store.take(), store.take()].map(|entry| entry.map(|entry| entry.ticket));
    assert_eq!(tickets, [Some(1), Some(2)]);
}

/// The rules themselves: the pending entries by their tickets.
struct Model {
    now: u32,
    given: u32,
    capacity: usize,
    pending: BTreeMap<u32, (u32, u8, u32)>,
}

impl Model {
    fn due(&self) -> Option<u32> {
        let mut entries = self.pending.iter();
        let (ticket, _) = entries.find(|(_, (deadline, ..))| *deadline == self.now)?;
        Some(*ticket)
    }
}

impl Store<u32> for Model {
    fn now(&self) -> u32 {
        self.now
    }

    fn last(&self) -> u32 {
        LAST_TICK
    }

    fn given(&self) -> u32 {
        self.given
    }

    fn pending(&self) -> usize {
        self.pending.len()
    }

    fn is_due(&self) -> bool {
        self.due().is_some()
    }

    fn start(&mut self, deadline: u32, owner: u8, payload: u32) -> Result<u32, Fault> {
        if deadline <= self.now {
            return Err(Fault::Past);
        }
        if deadline > LAST_TICK {
            return Err(Fault::Late);
        }
        if owner > 63 {
            return Err(Fault::Owner);
        }
        if self.pending.len() == self.capacity {
            return Err(Fault::Full);
        }
        self.given += 1;
        self.pending.insert(self.given, (deadline, owner, payload));
        Ok(self.given)
    }

    fn stop(&mut self, ticket: u32) -> Result<(u8, u32), Fault> {
        let (_, owner, payload) = self.pending.remove(&ticket).ok_or(Fault::Missing)?;
        Ok((owner, payload))
    }

    fn take(&mut self) -> Option<Expired<u32>> {
        let ticket = self.due()?;
        let (_, owner, payload) = self.pending.remove(&ticket)?;
        Some(Expired {
            ticket,
            owner,
            payload,
        })
    }

    fn advance(&mut self) -> Result<(), Fault> {
        if self.is_due() {
            return Err(Fault::Due);
        }
        if self.now == LAST_TICK {
            return Err(Fault::Ended);
        }
        self.now += 1;
        Ok(())
    }
}

// Calls at random, with deadlines near and far: the store answers what the model does.
fn does_as_the_model(mut store: impl Store<u32>, capacity: usize) {
    let mut model = Model {
        now: store.now(),
        given: 0,
        capacity,
        pending: BTreeMap::new(),
    };
    let mut random = Random::new();
    for step in 0..60_000 {
        match random.below(8) {
            0..=1 => {
                let span = [2, 70, 300, 5_000, LAST_TICK][random.below(5) as usize];
                let deadline = model.now + random.below(span);
                let owner = random.below(66) as u8;
                let answer = store.start(deadline, owner, step);
                assert_eq!(answer, model.start(deadline, owner, step));
            }
            2 => {
                let recent = random.below(2 * capacity as u32);
                let ticket = model.given.saturating_sub(recent);
                assert_eq!(store.stop(ticket), model.stop(ticket));
            }
            3..=4 => assert_eq!(store.take(), model.take()),
            _ => assert_eq!(store.advance(), model.advance()),
        }
        assert_eq!(store.is_due(), model.is_due());
        let counts = (store.now(), store.given(), store.pending());
        assert_eq!(counts, (model.now(), model.given(), model.pending()));
    }
}

#[test]
fn the_wheel_does_as_the_model() {
    for capacity in [1, 5, 100] {
        for first in [0, 4_000, LAST_TICK - 9_000] {
            let mut rows = vec![wheel::Row::vacant(0); capacity];
            does_as_the_model(Wheel::new(&mut rows, first), capacity);
        }
    }
}

#[test]
fn the_heap_does_as_the_model() {
    for capacity in [1, 5, 100] {
        let mut rows = vec![heap::Row::vacant(0); capacity];
        let mut nodes = vec![heap::Node::default(); capacity];
        does_as_the_model(Heap::new(&mut rows, &mut nodes, 0, LAST_TICK), capacity);
    }
}

// Stops find every ticket in a full store, whichever entries went before.
fn finds_every_ticket(mut store: impl Store<u32>, capacity: u32) {
    let mut random = Random::new();
    let mut live: Vec<u32> = (1..=capacity).collect();
    for ticket in 1..=capacity {
        assert_eq!(store.start(LAST_TICK, 0, ticket), Ok(ticket));
    }
    for ticket in capacity + 1..=10 * capacity {
        let stopped = &mut live[random.below(capacity) as usize];
        assert_eq!(store.start(LAST_TICK, 0, 0), Err(Fault::Full));
        assert_eq!(store.stop(*stopped), Ok((0, *stopped)));
        assert_eq!(store.stop(*stopped), Err(Fault::Missing));
        assert_eq!(store.start(LAST_TICK, 0, ticket), Ok(ticket));
        *stopped = ticket;
    }
    for ticket in live {
        assert_eq!(store.stop(ticket), Ok((0, ticket)));
    }
    assert_eq!(store.pending(), 0);
}

#[test]
fn every_ticket_is_found() {
    let mut rows = vec![wheel::Row::vacant(0); MOST_ROWS + 1];
    finds_every_ticket(Wheel::new(&mut rows, 0), MOST_ROWS as u32);
    let mut rows = vec![heap::Row::vacant(0); MOST_ROWS];
    let mut nodes = vec![heap::Node::default(); MOST_ROWS];
    let heap = Heap::new(&mut rows, &mut nodes, 0, LAST_TICK);
    finds_every_ticket(heap, MOST_ROWS as u32);
}

#[test]
fn the_wheel_keeps_the_rules() {
    let mut rows = [wheel::Row::vacant(0); 2];
    refuses_at_the_edges(Wheel::new(&mut rows, 0));
    ends(Wheel::new(&mut rows, LAST_TICK - 1));
    fires_in_order(Wheel::new(&mut rows, 0));
    assert_eq!(
        Wheel::<u32>::new(&mut [], 0).start(1, 0, 7),
        Err(Fault::Full)
    );
}

// The last tick of all has no next one.
#[test]
fn the_heap_ends_with_the_last_number() {
    let mut rows = [heap::Row::vacant(0); 2];
    let mut nodes = [heap::Node::default(); 2];
    let mut heap = Heap::new(&mut rows, &mut nodes, u32::MAX - 1, u32::MAX);
    assert_eq!(heap.start(u32::MAX, 0, 7), Ok(1));
    assert_eq!(heap.advance(), Ok(()));
    assert_eq!(heap.advance(), Err(Fault::Due));
    assert_eq!(heap.take().map(|entry| entry.ticket), Some(1));
    assert_eq!(heap.take(), None);
    assert_eq!(heap.advance(), Err(Fault::Ended));
    assert_eq!(heap.now(), u32::MAX);
}

#[test]
fn the_heap_keeps_the_rules() {
    let mut rows = [heap::Row::vacant(0); 2];
    let mut nodes = [heap::Node::default(); 2];
    refuses_at_the_edges(Heap::new(&mut rows, &mut nodes, 0, LAST_TICK));
    ends(Heap::new(&mut rows, &mut nodes, LAST_TICK - 1, LAST_TICK));
    fires_in_order(Heap::new(&mut rows, &mut nodes, 0, LAST_TICK));
    assert_eq!(
        Heap::<u32>::new(&mut [], &mut [], 0, LAST_TICK).start(1, 0, 7),
        Err(Fault::Full)
    );
}

// The second packet is lost, and goes out again once its timeout has passed.
#[test]
fn a_lost_word_is_sent_again() -> Result<(), RigFault> {
    let mut wire = [wheel::Row::vacant(Packet::NONE); 8];
    let mut resend = [wheel::Row::vacant(Attempt::NONE); 8];
    let mut keepalive = [wheel::Row::vacant(0); 1];
    let mut table = [Channel::unused(); CHANNELS];
    let mut draft = Draft::new(10, 5_000);
    draft.add_fate(10)?;
    draft.add_fate(0)?;
    let mut rig = draft.begin(
        Wheel::new(&mut wire, 0),
        Wheel::new(&mut resend, 0),
        Wheel::new(&mut keepalive, 0),
        &mut table,
    )?;
    let channel = 3;
    let first = Segment {
        sequence: 0,
        word: 700,
    };
    let second = Segment {
        sequence: 1,
        word: 701,
    };
    let sent = |packet, delay, copies| Transmission {
        packet,
        delay,
        copies,
    };
    assert_eq!(rig.open(3)?, Action::Opened { channel });
    assert_eq!(rig.open(3), Err(RigFault::State));
    assert_eq!(rig.open(64), Err(RigFault::Channel));
    rig.send(3, 700)?;
    let lost = Action::Sent {
        channel,
        segment: second,
        transmission: sent(1, 0, 0),
    };
    assert_eq!(rig.send(3, 701)?, lost);
    let mut told = Vec::new();
    while rig.now() < 1_030 {
        let action = rig.step()?;
        if action != Action::Advanced {
            told.push((rig.now(), action));
        }
    }
    let expected = [
        (
            10,
            Action::DataArrived {
                channel,
                segment: first,
                acknowledgement: Some(sent(2, 10, 1)),
            },
        ),
        (
            20,
            Action::AcknowledgementArrived {
                channel,
                sequence: 0,
            },
        ),
        (
            1_000,
            Action::Resent {
                channel,
                segment: second,
                transmission: Some(sent(3, 10, 1)),
            },
        ),
        (
            1_010,
            Action::DataArrived {
                channel,
                segment: second,
                acknowledgement: Some(sent(4, 10, 1)),
            },
        ),
        (
            1_020,
            Action::AcknowledgementArrived {
                channel,
                sequence: 1,
            },
        ),
    ];
    assert_eq!(told, expected);
    for segment in [Some(first), Some(second), None] {
        assert_eq!(rig.take(3)?, Action::Taken { channel, segment });
    }
    Ok(())
}

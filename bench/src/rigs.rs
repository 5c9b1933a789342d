//! The workload of a rig: 64 channels keep four words under way each, over a link that loses every seventh packet.

use crate::checksum::{mix, Checksum, Sum};
use crate::plain::heap::{self, Heap};
use crate::plain::rig::action::{Action, RigFault};
use crate::plain::rig::{Attempt, Channel, Draft, Packet, Rig, CHANNELS};
use crate::plain::store::Store;
use crate::plain::wheel::{self, Wheel, LAST_TICK};
#[cfg(proved)]
use crate::proved::{self, Kind};
use crate::trial::{Entrant, Trial};
use std::hint::black_box;

/// How many steps a run has.
const STEPS: u64 = 10_000;

/// How many runs are measured together, each with a rig of its own.
const RUNS: u64 = 20;

const DEFAULT_DELAY: u32 = 10;
const INTERVAL: u32 = 5_000;
const FATES: u16 = 4_095;
const WIRE_ROWS: usize = 4_096;
const RESEND_ROWS: usize = 4_096;
const KEEPALIVE_ROWS: usize = 64;

/// How many words of a channel are under way.
const UNDER_WAY: u32 = 4;

// Every seventh packet is lost, and the others arrive within twenty ticks.
fn fate(packet: u16) -> u16 {
    if packet % 7 == 6 {
        0
    } else {
        1 + packet % 20
    }
}

fn draft() -> Result<Draft, RigFault> {
    let mut draft = Draft::new(DEFAULT_DELAY, INTERVAL);
    for packet in 0..FATES {
        draft.add_fate(fate(packet))?;
    }
    Ok(draft)
}

// The number by which a sum knows what a step did.
fn kind(answer: Result<Action, RigFault>) -> u32 {
    match answer {
        Ok(Action::Advanced) => 0,
        Ok(Action::DataArrived { .. }) => 1,
        Ok(Action::AcknowledgementArrived { .. }) => 2,
        Ok(Action::KeepaliveArrived { .. }) => 3,
        Ok(Action::Resent { .. }) => 4,
        Ok(Action::KeepaliveSent { .. }) => 5,
        Ok(_) => 6,
        Err(_) => 7,
    }
}

// The words of a session: which one is next, and how many of each channel are under way.
struct Words {
    next: u32,
    under_way: [u32; CHANNELS],
}

impl Words {
    // Sends words on a channel until enough are under way or one is refused.
    fn send<W: Store<Packet>, R: Store<Attempt>, K: Store<u8>>(
        &mut self,
        rig: &mut Rig<W, R, K>,
        channel: u32,
    ) {
        let under_way = &mut self.under_way[channel as usize];
        while *under_way < UNDER_WAY && rig.send(channel, self.next).is_ok() {
            *under_way += 1;
            self.next = self.next.wrapping_add(1);
        }
    }

    // Takes all words of a channel that are there.
    fn take<W: Store<Packet>, R: Store<Attempt>, K: Store<u8>>(
        &mut self,
        rig: &mut Rig<W, R, K>,
        channel: u32,
        checksum: &mut Checksum,
    ) {
        while let Ok(Action::Taken {
            segment: Some(segment),
            ..
        }) = rig.take(channel)
        {
            self.under_way[channel as usize] -= 1;
            checksum.add(mix(segment.word, channel));
        }
    }
}

// A session of so many steps over three stores.
fn session<W: Store<Packet>, R: Store<Attempt>, K: Store<u8>>(
    wire: W,
    resend: R,
    keepalive: K,
    steps: u64,
) -> Result<Checksum, RigFault> {
    let mut table = [Channel::unused(); CHANNELS];
    let mut rig = draft()?.begin(wire, resend, keepalive, &mut table)?;
    for channel in 0..CHANNELS as u32 {
        rig.open(channel)?;
    }
    let mut words = Words {
        next: 0,
        under_way: [0; CHANNELS],
    };
    let mut checksum = Checksum::default();
    for step in 0..steps {
        let channel = (step % CHANNELS as u64) as u32;
        words.send(&mut rig, channel);
        words.take(&mut rig, channel, &mut checksum);
        let answer = black_box(rig.step());
        checksum.add(mix(rig.now(), kind(answer)));
    }
    Ok(checksum)
}

fn over_wheels(steps: u64) -> Checksum {
    let mut wire = vec![wheel::Row::vacant(Packet::NONE); WIRE_ROWS];
    let mut resend = vec![wheel::Row::vacant(Attempt::NONE); RESEND_ROWS];
    let mut keepalive = vec![wheel::Row::vacant(0); KEEPALIVE_ROWS];
    session(
        Wheel::new(&mut wire, 0),
        Wheel::new(&mut resend, 0),
        Wheel::new(&mut keepalive, 0),
        steps,
    )
    .expect("a session over wheels")
}

fn over_heaps(steps: u64) -> Checksum {
    let mut wire = vec![heap::Row::vacant(Packet::NONE); WIRE_ROWS];
    let mut resend = vec![heap::Row::vacant(Attempt::NONE); RESEND_ROWS];
    let mut keepalive = vec![heap::Row::vacant(0); KEEPALIVE_ROWS];
    let mut wire_nodes = vec![heap::Node::default(); WIRE_ROWS];
    let mut resend_nodes = vec![heap::Node::default(); RESEND_ROWS];
    let mut keepalive_nodes = vec![heap::Node::default(); KEEPALIVE_ROWS];
    session(
        Heap::new(&mut wire, &mut wire_nodes, 0, LAST_TICK),
        Heap::new(&mut resend, &mut resend_nodes, 0, LAST_TICK),
        Heap::new(&mut keepalive, &mut keepalive_nodes, 0, LAST_TICK),
        steps,
    )
    .expect("a session over heaps")
}

// So many runs of a rig, which all give the same sum.
fn entrant(name: &'static str, run: impl Fn(u64) -> u64 + 'static) -> Entrant {
    Entrant {
        name,
        units: STEPS * RUNS,
        expected: over_wheels(STEPS),
        run: Box::new(move || {
            let first = run(STEPS);
            let same = (1..RUNS).all(|_| run(STEPS) == first);
            Sum::Ordered(if same { first } else { u64::MAX })
        }),
    }
}

/// The session over all rigs that are there.
pub fn trial() -> Trial {
    Trial {
        title: "rig".to_string(),
        unit: "step",
        entrants: vec![
            entrant("plain Rust rig over wheels", |steps| {
                over_wheels(steps).ordered
            }),
            #[cfg(proved)]
            entrant("proved rig over wheels", |steps| {
                proved::rig(Kind::Wheel, steps)
            }),
            entrant("plain Rust rig over heaps", |steps| {
                over_heaps(steps).ordered
            }),
            #[cfg(proved)]
            entrant("proved rig over heaps", |steps| {
                proved::rig(Kind::Heap, steps)
            }),
            #[cfg(proved)]
            entrant("proved rig over lists", |steps| {
                proved::rig(Kind::List, steps)
            }),
        ],
    }
}

//! The workloads. Each draws the same numbers for every store, and its sum tells whether the store did what it should.

use crate::checksum::{mix, Checksum};
use crate::random::Random;
use crate::timers::{Timers, OWNERS};

/// How many rows a store has where a workload does not say it.
const ROWS: u32 = 4_096;

/// How many timers the restart storm has.
const RESTARTED: u32 = 1_024;

/// The longest delay of the restart storm.
const LONGEST_RESTART: u32 = 60_000;

/// The span within which the timers of a round fire.
const FIRE_SPAN: u32 = 100_000;

/// How many timers wait while the idle tick goes on.
const IDLE_TIMERS: u32 = 64;

/// The tick before which no idle timer fires.
const IDLE_TICKS: u32 = 10_000_000;

/// What a store is measured by.
#[derive(Clone, Copy, PartialEq, Eq, Debug)]
pub enum Workload {
    /// Timers are stopped and started again at random, with a tick after every eighth; those that fire start again.
    Restart {
        /// How many stop and start again.
        operations: u32,
    },
    /// Timers with random deadlines are started, and the tick goes on until all have fired.
    Fire {
        /// How many timers.
        timers: u32,
        /// How often.
        rounds: u32,
    },
    /// The tick goes on while far timers wait.
    Idle {
        /// How many ticks, at most ten million.
        ticks: u32,
    },
    /// Timers are stopped and started again at random, and the tick stands still.
    StartStop {
        /// How many timers are pending.
        pending: u32,
        /// How many stop and start again.
        operations: u32,
    },
    /// Some timers are stopped one after the other, and as many are started, again and again; the tick stands still.
    Bursts {
        /// How many rows the store has.
        rows: u32,
        /// How many timers are pending before and after a burst.
        pending: u32,
        /// How many of them are stopped, and then started, in a burst.
        burst: u32,
        /// How many bursts.
        bursts: u32,
    },
}

fn owner(payload: u32) -> u8 {
    (payload % OWNERS) as u8
}

impl Workload {
    /// The workload's name.
    pub fn name(self) -> String {
        match self {
            Workload::Restart { .. } => "restart storm".to_string(),
            Workload::Fire { timers, .. } => format!("fire, {timers} timers"),
            Workload::Idle { .. } => "idle advance".to_string(),
            Workload::StartStop { pending, .. } => format!("start and stop, {pending} pending"),
            Workload::Bursts {
                rows,
                pending,
                burst,
                ..
            } => format!("bursts of {burst}, {pending} pending of {rows}"),
        }
    }

    /// What its time is divided by.
    pub fn unit(self) -> &'static str {
        match self {
            Workload::Restart { .. } | Workload::StartStop { .. } | Workload::Bursts { .. } => {
                "stop and start"
            }
            Workload::Fire { .. } => "timer",
            Workload::Idle { .. } => "tick",
        }
    }

    /// How many of these units it has.
    pub fn units(self) -> u32 {
        match self {
            Workload::Restart { operations } | Workload::StartStop { operations, .. } => operations,
            Workload::Fire { timers, rounds } => timers * rounds,
            Workload::Idle { ticks } => ticks,
            Workload::Bursts { burst, bursts, .. } => burst * bursts,
        }
    }

    /// How many rows a store needs for it.
    pub fn rows(self) -> usize {
        match self {
            Workload::Bursts { rows, .. } => rows as usize,
            _ => ROWS as usize,
        }
    }

    /// The same with only one part in `divisor` of the work, for a store that is slow.
    pub fn divided(self, divisor: u32) -> Workload {
        match self {
            Workload::Restart { operations } => Workload::Restart {
                operations: operations / divisor,
            },
            Workload::Fire { timers, rounds } => Workload::Fire {
                timers,
                rounds: rounds.div_ceil(divisor),
            },
            Workload::Idle { ticks } => Workload::Idle { ticks },
            Workload::StartStop {
                pending,
                operations,
            } => Workload::StartStop {
                pending,
                operations: operations / divisor,
            },
            Workload::Bursts {
                rows,
                pending,
                burst,
                bursts,
            } => Workload::Bursts {
                rows,
                pending,
                burst,
                bursts: bursts / divisor,
            },
        }
    }

    /// Runs the workload on a store with nothing pending.
    pub fn run<S: Timers>(self, timers: S) -> Checksum {
        match self {
            Workload::Restart { operations } => restart(timers, operations),
            Workload::Fire {
                timers: count,
                rounds,
            } => fire(timers, count, rounds),
            Workload::Idle { ticks } => idle(timers, ticks),
            Workload::StartStop {
                pending,
                operations,
            } => start_stop(timers, pending, operations),
            Workload::Bursts {
                pending,
                burst,
                bursts,
                ..
            } => in_bursts(timers, pending, burst, bursts),
        }
    }
}

fn restart<S: Timers>(mut timers: S, operations: u32) -> Checksum {
    let mut random = Random::new();
    let mut checksum = Checksum::default();
    let mut handles: Vec<S::Handle> = (0..RESTARTED)
        .map(|k| timers.start(1 + random.below(LONGEST_RESTART), owner(k), k))
        .collect();
    let mut now = 0;
    for operation in 0..operations {
        let k = random.below(RESTARTED);
        timers.stop(handles[k as usize]);
        let deadline = now + 1 + random.below(LONGEST_RESTART);
        handles[k as usize] = timers.start(deadline, owner(k), k);
        if operation % 8 == 7 {
            timers.advance();
            now += 1;
            while let Some(k) = timers.take() {
                let mixed = mix(now, k);
                checksum.add(mixed);
                let delay = (mixed >> 40) as u32 % LONGEST_RESTART;
                handles[k as usize] = timers.start(now + 1 + delay, owner(k), k);
            }
        }
    }
    checksum
}

fn fire<S: Timers>(mut timers: S, count: u32, rounds: u32) -> Checksum {
    let mut random = Random::new();
    let mut checksum = Checksum::default();
    let mut now = 0;
    for _ in 0..rounds {
        for k in 0..count {
            timers.start(now + 1 + random.below(FIRE_SPAN), owner(k), k);
        }
        let mut pending = count;
        while pending > 0 {
            timers.advance();
            now += 1;
            while let Some(k) = timers.take() {
                checksum.add(mix(now, k));
                pending -= 1;
            }
        }
    }
    checksum
}

fn idle<S: Timers>(mut timers: S, ticks: u32) -> Checksum {
    let mut random = Random::new();
    let mut checksum = Checksum::default();
    for k in 0..IDLE_TIMERS {
        timers.start(IDLE_TICKS + 1 + random.below(6_000_000), owner(k), k);
    }
    let mut now = 0;
    for _ in 0..ticks {
        timers.advance();
        now += 1;
        while let Some(k) = timers.take() {
            checksum.add(mix(now, k));
        }
    }
    checksum.add(mix(now, 0));
    checksum
}

// Starts timers far ahead, and knows their tickets.
struct Starter {
    random: Random,
    started: u32,
}

impl Starter {
    fn new() -> Starter {
        Starter {
            random: Random::new(),
            started: 0,
        }
    }

    fn start<S: Timers>(&mut self, timers: &mut S, payload: u32) -> (S::Handle, u32) {
        self.started += 1;
        let deadline = 1_000_000 + self.random.below(1_000_000);
        let handle = timers.start(deadline, owner(payload), payload);
        (handle, S::ticket(handle).unwrap_or(self.started))
    }
}

fn start_stop<S: Timers>(mut timers: S, pending: u32, operations: u32) -> Checksum {
    let mut starter = Starter::new();
    let mut checksum = Checksum::default();
    let mut handles: Vec<S::Handle> = (0..pending)
        .map(|k| starter.start(&mut timers, k).0)
        .collect();
    for _ in 0..operations {
        let k = starter.random.below(pending);
        timers.stop(handles[k as usize]);
        let (handle, ticket) = starter.start(&mut timers, k);
        handles[k as usize] = handle;
        checksum.add(mix(ticket, k));
    }
    checksum
}

// Those that a burst stops come to the front of the list, and start again there.
fn in_bursts<S: Timers>(mut timers: S, pending: u32, burst: u32, bursts: u32) -> Checksum {
    let mut starter = Starter::new();
    let mut checksum = Checksum::default();
    let mut live: Vec<(S::Handle, u32)> = (0..pending)
        .map(|k| (starter.start(&mut timers, k).0, k))
        .collect();
    for _ in 0..bursts {
        for i in 0..burst {
            let chosen = i + starter.random.below(pending - i);
            live.swap(i as usize, chosen as usize);
            timers.stop(live[i as usize].0);
        }
        for (handle, k) in &mut live[..burst as usize] {
            let (again, ticket) = starter.start(&mut timers, *k);
            *handle = again;
            checksum.add(mix(ticket, *k));
        }
    }
    checksum
}

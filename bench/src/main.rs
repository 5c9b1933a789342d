//! Timer stores and rigs side by side: the same work, checked by the same sums, measured in one run.

mod checksum;
mod clock;
mod contenders;
mod options;
mod plain;
#[cfg(proved)]
mod proved;
mod random;
mod report;
mod rigs;
mod timers;
mod trial;
mod workloads;

/// What the source of tokio-util's wheel takes to be its own crate's module.
#[cfg(tokio_util)]
#[allow(dead_code, unexpected_cfgs)]
mod time {
    include!(concat!(env!("OUT_DIR"), "/tokio_util.rs"));
}

use options::Options;
use std::iter;
use std::process::ExitCode;
use trial::{Measured, Trial};
use workloads::Workload;

const RESTART: [Workload; 1] = [Workload::Restart {
    operations: 2_000_000,
}];

const FIRE: [Workload; 3] = [
    Workload::Fire {
        timers: 64,
        rounds: 150,
    },
    Workload::Fire {
        timers: 512,
        rounds: 100,
    },
    Workload::Fire {
        timers: 4_096,
        rounds: 40,
    },
];

const IDLE: [Workload; 1] = [Workload::Idle { ticks: 10_000_000 }];

const START_STOP: [Workload; 3] = [
    Workload::StartStop {
        pending: 64,
        operations: 2_000_000,
    },
    Workload::StartStop {
        pending: 2_048,
        operations: 2_000_000,
    },
    Workload::StartStop {
        pending: 4_096,
        operations: 500_000,
    },
];

/// In which stores bursts are measured: the number of rows, and how many timers are pending.
const BURST_STORES: [(u32, u32); 4] = [(4_096, 4_096), (4_096, 3_686), (512, 512), (512, 460)];

/// How long the bursts are.
const BURSTS: [u32; 5] = [1, 2, 4, 16, 64];

/// How many timers are stopped and started in all bursts of a length.
const IN_BURSTS: u32 = 262_144;

fn bursts((rows, pending): (u32, u32)) -> [Workload; BURSTS.len()] {
    BURSTS.map(|burst| Workload::Bursts {
        rows,
        pending,
        burst,
        bursts: IN_BURSTS / burst,
    })
}

fn main() -> ExitCode {
    let options = match Options::from_arguments() {
        Ok(options) => options,
        Err(usage) => {
            eprintln!("{usage}");
            return ExitCode::FAILURE;
        }
    };
    let is_asked = |title: &str| title.contains(&options.trial);
    let measured = |mut trials: Vec<Trial>| {
        for trial in &mut trials {
            trial.keep(&options.contender);
        }
        let measured = trial::measure(trials, options.rounds);
        measured.iter().for_each(report::list);
        measured
    };
    let over_stores = |workloads: &[Workload]| {
        let asked = workloads
            .iter()
            .filter(|workload| is_asked(&workload.name()));
        measured(asked.map(|workload| contenders::trial(*workload)).collect())
    };
    let mut stores = over_stores(&RESTART);
    stores.extend(over_stores(&FIRE));
    stores.extend(over_stores(&IDLE));
    stores.extend(over_stores(&START_STOP));
    let in_bursts = BURST_STORES.map(|store| over_stores(&bursts(store)));
    let asked = iter::once(rigs::trial()).filter(|trial| is_asked(&trial.title));
    let rigs = measured(asked.collect());
    report::table(&stores);
    for many in ["2048 pending", "4096 pending"] {
        report::growth(&stores, "start and stop, 64 pending", many);
    }
    for bursts in &in_bursts {
        report::table(bursts);
        for long in ["bursts of 16,", "bursts of 64,"] {
            report::growth(bursts, "bursts of 1,", long);
        }
    }
    let all = stores.iter().chain(in_bursts.iter().flatten()).chain(&rigs);
    if all.into_iter().all(Measured::is_right) {
        ExitCode::SUCCESS
    } else {
        ExitCode::FAILURE
    }
}

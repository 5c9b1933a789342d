//! The proved stores and the proved rig, in the static library that exports them: whole workloads in one call.

use crate::checksum::Sum;
use crate::workloads::Workload;

extern "C" {
    fn bench_restart(store: u32, operations: u64) -> u64;
    fn bench_fire(store: u32, timers: u32, rounds: u64) -> u64;
    fn bench_idle(store: u32, ticks: u64) -> u64;
    fn bench_start_stop(store: u32, pending: u32, operations: u64) -> u64;
    fn bench_bursts(store: u32, rows: u32, pending: u32, burst: u32, bursts: u64) -> u64;
    fn bench_rig(store: u32, steps: u64) -> u64;
}

/// A kind of store, by its number in the library.
#[derive(Clone, Copy)]
pub enum Kind {
    Wheel = 0,
    Heap = 1,
    List = 2,
    /// The wheel, whose calls are not inlined into the workload.
    CalledWheel = 3,
    /// The heap likewise.
    CalledHeap = 4,
}

/// A workload over a proved store.
pub fn sum(kind: Kind, workload: Workload) -> Sum {
    let store = kind as u32;
    Sum::Ordered(match workload {
        Workload::Restart { operations } => unsafe { bench_restart(store, operations.into()) },
        Workload::Fire { timers, rounds } => unsafe { bench_fire(store, timers, rounds.into()) },
        Workload::Idle { ticks } => unsafe { bench_idle(store, ticks.into()) },
        Workload::StartStop {
            pending,
            operations,
        } => unsafe { bench_start_stop(store, pending, operations.into()) },
        Workload::Bursts {
            rows,
            pending,
            burst,
            bursts,
        } => unsafe { bench_bursts(store, rows, pending, burst, bursts.into()) },
    })
}

/// The ordered sum of a session of the proved rig over proved stores.
pub fn rig(kind: Kind, steps: u64) -> u64 {
    unsafe { bench_rig(kind as u32, steps) }
}

//! The timer stores that are compared.

#[cfg(any(libuv, libevent, libev))]
mod c_library;
mod plain;
mod std_heap;
mod std_tree;
#[cfg(tokio_util)]
mod tokio_util;

use crate::checksum::{Checksum, Sum};
#[cfg(proved)]
use crate::proved::{self, Kind};
use crate::timers::Timers;
use crate::trial::{Entrant, Trial};
use crate::workloads::Workload;
#[cfg(any(libuv, libevent, libev))]
use c_library::CTimers;

/// A timer store that is compared.
struct Contender {
    name: &'static str,
    /// By what its work is divided, for a store that would take too long.
    divisor: u32,
    run: fn(Workload) -> Sum,
}

impl Contender {
    const fn new(name: &'static str, run: fn(Workload) -> Sum) -> Contender {
        Contender {
            name,
            divisor: 1,
            run,
        }
    }

    // The contender's share of a workload, of which the sum is known.
    fn entrant(&self, whole: Workload, sum_of_whole: Checksum) -> Entrant {
        let run = self.run;
        let workload = whole.divided(self.divisor);
        let expected = if workload == whole {
            sum_of_whole
        } else {
            plain::wheel(workload)
        };
        Entrant {
            name: self.name,
            units: u64::from(workload.units()),
            expected,
            run: Box::new(move || run(workload)),
        }
    }
}

// Runs a workload, and answers the sum that this kind of store is compared by.
fn sum_of<S: Timers>(workload: Workload, timers: S) -> Sum {
    let Checksum { ordered, unordered } = workload.run(timers);
    if S::IN_ORDER {
        Sum::Ordered(ordered)
    } else {
        Sum::Unordered(unordered)
    }
}

/// All that are there, first the one that the others are compared with.
fn contenders() -> Vec<Contender> {
    vec![
        Contender::new("plain Rust wheel", |workload| {
            Sum::Ordered(plain::wheel(workload).ordered)
        }),
        #[cfg(proved)]
        Contender::new("proved wheel", |workload| {
            proved::sum(Kind::Wheel, workload)
        }),
        Contender::new("plain Rust heap", |workload| {
            Sum::Ordered(plain::heap(workload).ordered)
        }),
        #[cfg(proved)]
        Contender::new("proved heap", |workload| proved::sum(Kind::Heap, workload)),
        #[cfg(proved)]
        Contender {
            divisor: 20,
            ..Contender::new("proved list", |workload| proved::sum(Kind::List, workload))
        },
        #[cfg(proved)]
        Contender::new("proved wheel, called", |workload| {
            proved::sum(Kind::CalledWheel, workload)
        }),
        #[cfg(proved)]
        Contender::new("proved heap, called", |workload| {
            proved::sum(Kind::CalledHeap, workload)
        }),
        Contender::new("std BinaryHeap, lazy deletion", |workload| {
            sum_of(workload, std_heap::StdHeap::new(workload.rows()))
        }),
        Contender::new("std BTreeMap", |workload| {
            sum_of(workload, std_tree::StdTree::new())
        }),
        #[cfg(tokio_util)]
        Contender::new("tokio-util wheel", |workload| {
            sum_of(workload, tokio_util::TokioUtil::new(workload.rows()))
        }),
        #[cfg(libuv)]
        Contender::new("libuv timers", |workload| {
            sum_of(workload, CTimers::<c_library::Libuv>::new(workload.rows()))
        }),
        #[cfg(libevent)]
        Contender::new("libevent min heap", |workload| {
            sum_of(
                workload,
                CTimers::<c_library::Libevent>::new(workload.rows()),
            )
        }),
        #[cfg(libev)]
        Contender::new("libev 4-heap", |workload| {
            sum_of(workload, CTimers::<c_library::Libev>::new(workload.rows()))
        }),
    ]
}

/// A workload over all stores that are there.
pub fn trial(workload: Workload) -> Trial {
    let sum = plain::wheel(workload);
    Trial {
        title: workload.name(),
        unit: workload.unit(),
        entrants: contenders()
            .iter()
            .map(|contender| contender.entrant(workload, sum))
            .collect(),
    }
}

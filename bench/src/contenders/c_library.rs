//! The timers of C libraries, with one C call for each operation.

use crate::timers::Timers;
use std::ffi::c_void;
use std::marker::PhantomData;

// What TAKE answers if nothing is due.
const NOTHING: u32 = u32::MAX;

/// The functions of a file in c/.
pub trait Library {
    const NEW: unsafe extern "C" fn(count: u32) -> *mut c_void;
    const FREE: unsafe extern "C" fn(timers: *mut c_void);
    const START: unsafe extern "C" fn(timers: *mut c_void, deadline: u32, payload: u32);
    const STOP: unsafe extern "C" fn(timers: *mut c_void, payload: u32);
    const ADVANCE: unsafe extern "C" fn(timers: *mut c_void);
    const TAKE: unsafe extern "C" fn(timers: *mut c_void) -> u32;

    /// Whether the timers of one tick fire in the order in which they were started.
    const IN_ORDER: bool;
}

macro_rules! library {
    ($name:ident, in_order: $in_order:literal, $new:ident, $free:ident, $start:ident, $stop:ident, $advance:ident, $take:ident) => {
        extern "C" {
            fn $new(count: u32) -> *mut c_void;
            fn $free(timers: *mut c_void);
            fn $start(timers: *mut c_void, deadline: u32, payload: u32);
            fn $stop(timers: *mut c_void, payload: u32);
            fn $advance(timers: *mut c_void);
            fn $take(timers: *mut c_void) -> u32;
        }

        pub struct $name;

        impl Library for $name {
            const NEW: unsafe extern "C" fn(u32) -> *mut c_void = $new;
            const FREE: unsafe extern "C" fn(*mut c_void) = $free;
            const START: unsafe extern "C" fn(*mut c_void, u32, u32) = $start;
            const STOP: unsafe extern "C" fn(*mut c_void, u32) = $stop;
            const ADVANCE: unsafe extern "C" fn(*mut c_void) = $advance;
            const TAKE: unsafe extern "C" fn(*mut c_void) -> u32 = $take;
            const IN_ORDER: bool = $in_order;
        }
    };
}

#[cfg(libuv)]
library!(
    Libuv,
    in_order: true,
    libuv_new,
    libuv_free,
    libuv_start,
    libuv_stop,
    libuv_advance,
    libuv_take
);

#[cfg(libevent)]
library!(
    Libevent,
    in_order: false,
    libevent_new,
    libevent_free,
    libevent_start,
    libevent_stop,
    libevent_advance,
    libevent_take
);

#[cfg(libev)]
library!(
    Libev,
    in_order: false,
    libev_new,
    libev_free,
    libev_start,
    libev_stop,
    libev_advance,
    libev_take
);

/// Timers of a C library.
pub struct CTimers<L: Library> {
    timers: *mut c_void,
    library: PhantomData<L>,
}

impl<L: Library> CTimers<L> {
    /// A store with nothing pending and room for so many timers.
    pub fn new(capacity: usize) -> CTimers<L> {
        CTimers {
            timers: unsafe { L::NEW(capacity as u32) },
            library: PhantomData,
        }
    }
}

impl<L: Library> Drop for CTimers<L> {
    fn drop(&mut self) {
        unsafe { L::FREE(self.timers) }
    }
}

impl<L: Library> Timers for CTimers<L> {
    type Handle = u32;

    const IN_ORDER: bool = L::IN_ORDER;

    fn start(&mut self, deadline: u32, _owner: u8, payload: u32) -> u32 {
        unsafe { L::START(self.timers, deadline, payload) }
        payload
    }

    fn stop(&mut self, payload: u32) {
        unsafe { L::STOP(self.timers, payload) }
    }

    fn advance(&mut self) {
        unsafe { L::ADVANCE(self.timers) }
    }

    fn take(&mut self) -> Option<u32> {
        let payload = unsafe { L::TAKE(self.timers) };
        (payload != NOTHING).then_some(payload)
    }
}

// SPDX-License-Identifier: MIT OR Apache-2.0
//! A plug-in for `plugin_host`: a counter. After `dlclose()` its code and data are unmapped.

use std::ffi::c_void;
use std::sync::atomic::{AtomicI64, Ordering::Relaxed};

/// What a host calls. `c/tests/plugin.h` has the same for C, so each host loads each plug-in.
#[repr(C)]
pub struct Table {
    start: extern "C" fn() -> *mut c_void,
    call: unsafe extern "C" fn(*mut c_void, i64) -> i64,
    stop: unsafe extern "C" fn(*mut c_void),
}

struct Counter {
    value: AtomicI64,
    inside: AtomicI64,
}

/// In the plug-in's own data: a late call would read a page that is not mapped.
static CALLS: AtomicI64 = AtomicI64::new(0);

extern "C" fn start() -> *mut c_void {
    Box::into_raw(Box::new(Counter { value: AtomicI64::new(0), inside: AtomicI64::new(0) })).cast()
}

unsafe extern "C" fn call(counter: *mut c_void, by: i64) -> i64 {
    let counter = unsafe { &*counter.cast::<Counter>() };
    counter.inside.fetch_add(1, Relaxed);
    CALLS.fetch_add(1, Relaxed);
    let before = counter.value.fetch_add(by, Relaxed);
    counter.inside.fetch_sub(1, Relaxed);
    before
}

unsafe extern "C" fn stop(counter: *mut c_void) {
    let counter = unsafe { Box::from_raw(counter.cast::<Counter>()) };
    if counter.inside.load(Relaxed) != 0 {
        std::process::abort();
    }
}

#[no_mangle]
pub static PLUGIN: Table = Table { start, call, stop };

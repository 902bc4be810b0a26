//! A step over a fence stops the program: tell the call that did it before ending with status 1.

use crate::request::{told, Request};
use std::ffi::c_int;
use std::ptr::null;
use std::sync::atomic::{AtomicPtr, Ordering};

extern "C" {
    fn signal(number: c_int, handler: extern "C" fn(c_int)) -> usize;
    fn _exit(status: c_int) -> !;
}

const SIGNALS: [c_int; 4] = [4, 7, 8, 11];

/// The request that is being tried.
static NOW: AtomicPtr<Request> = AtomicPtr::new(null::<Request>().cast_mut());

pub fn watch() {
    for number in SIGNALS {
        unsafe { signal(number, stopped) };
    }
}

/// Do something with this request: if the program is stopped meanwhile, it is told.
pub fn during<T>(request: &Request, act: impl FnOnce() -> T) -> T {
    NOW.store(std::ptr::from_ref(request).cast_mut(), Ordering::SeqCst);
    let done = act();
    NOW.store(null::<Request>().cast_mut(), Ordering::SeqCst);
    done
}

extern "C" fn stopped(number: c_int) {
    let now = NOW.swap(null::<Request>().cast_mut(), Ordering::SeqCst);
    if !now.is_null() {
        println!("DIFFERENCE: stopped by signal {number}, as by a step over a slice's end");
        println!("{}", told(unsafe { &*now }));
        println!("differences 1 (stopped at the first)");
    }
    unsafe { _exit(1) }
}

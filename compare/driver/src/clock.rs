//! The Rust asks the system's clock: here it gets the time that a call is given.
use std::sync::atomic::{AtomicBool, AtomicI64, Ordering::Relaxed};

static STOPPED: AtomicBool = AtomicBool::new(false);
static SECONDS: AtomicI64 = AtomicI64::new(0);
static NANOSECONDS: AtomicI64 = AtomicI64::new(0);

/// The pair as the Rust stores it: before 1970 the nanoseconds too count backward.
pub fn set((s, ns): (i64, u32)) {
    let (s, ns) = if s < 0 && ns > 0 { (s - 1, 1_000_000_000 - ns) } else { (s, ns) };
    SECONDS.store(s, Relaxed);
    NANOSECONDS.store(ns.into(), Relaxed);
    STOPPED.store(true, Relaxed);
}

pub fn unset() {
    STOPPED.store(false, Relaxed);
}

extern "C" {
    fn syscall(number: i64, ...) -> i64;
}

/// Stands before the C library's. 228 is its number on x86-64, which is where the port's libraries run.
///
/// # Safety
/// As C's: `to` is a timespec.
#[no_mangle]
pub unsafe extern "C" fn clock_gettime(clock: i32, to: *mut [i64; 2]) -> i32 {
    if clock == 0 && STOPPED.load(Relaxed) {
        *to = [SECONDS.load(Relaxed), NANOSECONDS.load(Relaxed)];
        return 0;
    }
    syscall(228, clock, to) as i32
}

//! Processor time of this program, which other programs beside it do not count
//! in.

use std::ffi::{c_int, c_long};

const CLOCK_PROCESS_CPUTIME_ID: c_int = 2;

extern "C" {
    fn clock_gettime(clock: c_int, time: *mut [c_long; 2]) -> c_int;
    fn getrusage(who: c_int, usage: *mut [c_long; 18]) -> c_int;
}

const RUSAGE_CHILDREN: c_int = -1;

/// Milliseconds that the processor has worked for programs which this one started and
/// which have ended.
pub fn of_others() -> f64 {
    let mut usage = [0; 18];
    // SAFETY: an rusage is 18 longs on Linux, first two timevals, each of seconds and
    // microseconds: the program's own work, and the system's for it.
    let told = unsafe { getrusage(RUSAGE_CHILDREN, &mut usage) };
    assert_eq!(told, 0, "the clock of processor time");
    (usage[0] + usage[2]) as f64 * 1e3 + (usage[1] + usage[3]) as f64 / 1e3
}

/// Nanoseconds that the processor has worked for this program.
fn now() -> f64 {
    let mut time = [0; 2];
    // SAFETY: a timespec is two longs on Linux, seconds and nanoseconds.
    let told = unsafe { clock_gettime(CLOCK_PROCESS_CPUTIME_ID, &mut time) };
    assert_eq!(told, 0, "the clock of processor time");
    time[0] as f64 * 1e9 + time[1] as f64
}

/// Nanoseconds that the work took.
pub fn busy(work: impl FnOnce()) -> f64 {
    let begin = now();
    work();
    now() - begin
}

/// The better of each two figures, kept.
pub fn best<const N: usize>(kept: &mut [f64; N], new: [f64; N]) {
    for (kept, new) in kept.iter_mut().zip(new) {
        *kept = kept.min(new);
    }
}

//! Processor time, which other programs on the machine lengthen less than they lengthen the time on the clock.
use std::mem::MaybeUninit;

/// The kernel's `struct rusage`: user and system time in seconds and microseconds, then fourteen counts.
#[repr(C)]
struct Usage {
    times: [i64; 4],
    counts: [i64; 14],
}

extern "C" {
    fn getrusage(who: i32, usage: *mut Usage) -> i32;
}

fn seconds(who: i32) -> f64 {
    let mut usage = MaybeUninit::<Usage>::zeroed();
    // SAFETY: the kernel fills the structure, whose every bit pattern is a value.
    let [user, user_micros, system, system_micros] = unsafe {
        assert_eq!(getrusage(who, usage.as_mut_ptr()), 0);
        usage.assume_init().times
    };
    (user + system) as f64 + (user_micros + system_micros) as f64 / 1e6
}

/// Seconds of the processor that this process took until now.
pub fn own() -> f64 {
    seconds(0)
}

/// Seconds of the processor that the processes took which it started, and which have ended.
pub fn children() -> f64 {
    seconds(-1)
}

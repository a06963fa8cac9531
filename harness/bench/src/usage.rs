//! Processor time, of this thread and of a process that has ended. Other work on the
//! machine hardly shows in it, as it would in the time of day.

#![allow(unsafe_code)]

use std::io;
use std::process::Child;
use std::time::Duration;

/// What a process has used.
pub struct Usage {
    pub time: Duration,
    /// Peak memory.
    pub kibibytes: i64,
}

/// `struct timeval` and `struct timespec` of Linux, 64 bits: seconds and their parts.
type Time = [i64; 2];

/// `struct rusage` of Linux, 64 bits.
#[repr(C)]
#[derive(Default)]
struct Resources {
    user: Time,
    system: Time,
    kibibytes: i64,
    others: [i64; 13],
}

unsafe extern "C" {
    fn wait4(pid: i32, status: *mut i32, options: i32, used: *mut Resources) -> i32;
    fn clock_gettime(clock: i32, time: *mut Time) -> i32;
}

const CLOCK_THREAD_CPUTIME_ID: i32 = 3;

/// A statement that has a refusal or stops at a line ends with a status of its own, up to this one; above it a run has failed.
const HIGHEST_STATUS: i32 = 2;

/// Waits until the child has ended; nothing where it fails.
pub fn of(child: Child) -> io::Result<Option<Usage>> {
    let mut status = 0;
    let mut used = Resources::default();
    // SAFETY: both pointers are to values of the layout that the call writes, and the
    // child is waited for only here.
    let waited = unsafe { wait4(child.id() as i32, &mut status, 0, &mut used) };
    if waited < 0 {
        return Err(io::Error::last_os_error());
    }
    let micros = |[seconds, micros]: Time| 1_000_000 * seconds as u64 + micros as u64;
    let (signal, code) = (status & 0x7f, status >> 8);
    Ok((signal == 0 && code <= HIGHEST_STATUS).then_some(Usage {
        time: Duration::from_micros(micros(used.user) + micros(used.system)),
        kibibytes: used.kibibytes,
    }))
}

/// The processor time of this thread so far.
pub fn so_far() -> Duration {
    let mut time = [0; 2];
    // SAFETY: the pointer is to a value of the layout that the call writes.
    let failed = unsafe { clock_gettime(CLOCK_THREAD_CPUTIME_ID, &mut time) };
    assert!(failed == 0, "the system has no such clock");
    Duration::new(time[0] as u64, time[1] as u32)
}

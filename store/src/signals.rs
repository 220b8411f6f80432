//! Signals. The standard library has no call for them, so this file calls the C library; it is the only file of the package with `unsafe`.
//!
//! The signals that stop the server are blocked in each thread, and one thread waits for them. No handler runs, so no code has to be safe
//! inside one. The signal of a file size limit is ignored, so that the write that exceeds the limit fails.

use std::io;

/// A signal set as the C library defines it on Linux: 1,024 bits.
#[repr(C)]
struct Set([u64; 16]);

const BLOCK: i32 = 0;
const INTERRUPT: i32 = 2;
const TERMINATE: i32 = 15;
const FILE_TOO_LARGE: i32 = 25;

/// The action of `signal` that ignores a signal.
const IGNORE: usize = 1;
/// The result of a call of `signal` that fails.
const FAILED: usize = usize::MAX;

extern "C" {
    fn sigemptyset(set: *mut Set) -> i32;
    fn sigaddset(set: *mut Set, signal: i32) -> i32;
    fn pthread_sigmask(how: i32, set: *const Set, old: *mut Set) -> i32;
    fn sigwait(set: *const Set, signal: *mut i32) -> i32;
    fn signal(signal: i32, action: usize) -> usize;
}

/// SIGTERM and SIGINT, blocked in the thread that made this and in the threads that it starts afterwards.
pub struct Stop {
    set: Set,
}

impl Stop {
    /// Blocks the signals, and ignores that of a file size limit. The main thread must call this before it starts another thread.
    pub fn block() -> io::Result<Stop> {
        // SAFETY: no handler is set, and the standard library sets none for this signal.
        if unsafe { signal(FILE_TOO_LARGE, IGNORE) } == FAILED {
            return Err(io::Error::last_os_error());
        }
        let mut stop = Stop { set: Set([0; 16]) };
        // SAFETY: the set is valid for writes and larger than the system's, and no old mask is requested.
        let failed = unsafe {
            sigemptyset(&mut stop.set);
            sigaddset(&mut stop.set, INTERRUPT);
            sigaddset(&mut stop.set, TERMINATE);
            pthread_sigmask(BLOCK, &stop.set, std::ptr::null_mut())
        };
        if failed == 0 {
            Ok(stop)
        } else {
            Err(io::Error::from_raw_os_error(failed))
        }
    }

    /// Waits for one of the signals and returns its name.
    pub fn wait(&self) -> io::Result<&'static str> {
        let mut signal = 0;
        // SAFETY: the set was filled by `block`, and the number is valid for a write.
        match unsafe { sigwait(&self.set, &mut signal) } {
            0 if signal == INTERRUPT => Ok("SIGINT"),
            0 => Ok("SIGTERM"),
            failed => Err(io::Error::from_raw_os_error(failed)),
        }
    }
}

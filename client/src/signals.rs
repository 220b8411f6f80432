//! Signals, for packages that run an archive of proved code on a thread. The standard library has no call for them, so this file calls the
//! C library. `unix` is the only other source file of the package that does.

use std::ptr;

/// A signal set as the C library defines it on Linux: 1,024 bits.
#[repr(C)]
struct Set([u64; 16]);

const BLOCK: i32 = 0;
/// SIGILL, SIGBUS, SIGFPE and SIGSEGV. If a thread raises one of these while it blocks it, the behavior is undefined.
const FAULTS: [i32; 4] = [4, 7, 8, 11];

extern "C" {
    fn sigfillset(set: *mut Set) -> i32;
    fn sigdelset(set: *mut Set, signal: i32) -> i32;
    fn pthread_sigmask(how: i32, set: *const Set, old: *mut Set) -> i32;
}

/// Blocks all signals of the calling thread, except those of its own faults. No handler runs in the thread, so none interrupts a read or a
/// write, which an archive would take for the end of its input or output. A write without a reader fails and does not end the process.
pub fn block() {
    let mut set = Set([0; 16]);
    // SAFETY: the set is valid for writes and larger than the system's, and no old mask is requested.
    let failed = unsafe {
        sigfillset(&mut set);
        for fault in FAULTS {
            sigdelset(&mut set, fault);
        }
        pthread_sigmask(BLOCK, &set, ptr::null_mut())
    };
    debug_assert_eq!(failed, 0, "the system refuses nothing but another number than that of `BLOCK`");
}

#[cfg(test)]
mod tests {
    use super::*;
    use std::io::{self, ErrorKind, Write};
    use std::sync::atomic::{AtomicBool, Ordering};
    use std::thread;

    const SIGUSR1: i32 = 10;
    const SIGPIPE: i32 = 13;
    const DEFAULT: usize = 0;

    extern "C" {
        fn signal(signal: i32, handler: usize) -> usize;
        fn raise(signal: i32) -> i32;
    }

    static HAS_COME: AtomicBool = AtomicBool::new(false);

    extern "C" fn note(_signal: i32) {
        HAS_COME.store(true, Ordering::Relaxed);
    }

    #[test]
    fn a_thread_that_blocks_them_runs_no_handler() {
        // SAFETY: the handler only sets a flag, and each signal is raised in the calling thread.
        unsafe { signal(SIGUSR1, note as extern "C" fn(i32) as usize) };
        let raised = || unsafe { raise(SIGUSR1) };
        let blocked = move || {
            block();
            (raised(), HAS_COME.load(Ordering::Relaxed))
        };
        assert_eq!(thread::spawn(blocked).join().unwrap(), (0, false));
        assert_eq!((raised(), HAS_COME.load(Ordering::Relaxed)), (0, true), "other threads run it");
    }

    #[test]
    fn a_pipe_without_a_reader_ends_no_process() {
        let written = || {
            block();
            let (reader, mut writer) = io::pipe().unwrap();
            drop(reader);
            writer.write(b"x").map_err(|error| error.kind())
        };
        // SAFETY: it sets no handler. A host in C has this disposition, and a program in Rust does not.
        unsafe { signal(SIGPIPE, DEFAULT) };
        assert_eq!(thread::spawn(written).join().unwrap(), Err(ErrorKind::BrokenPipe));
    }
}

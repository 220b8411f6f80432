//! The thread of the package in `c/` that calls the archive of the machine, with a function in place of it that ends as the archive does:
//! where a signal interrupts its read. No archive is needed.

#[path = "../c/src/proved.rs"]
mod proved;
mod waiting;

use proved::Proved;
use std::sync::atomic::{AtomicBool, AtomicUsize, Ordering};
use std::thread;
use std::time::Duration;
use waiting::until;
use yieldcleat_volume::{Action, Event, Fault, Machine};

const SIGPIPE: i32 = 13;
const SIGUSR1: i32 = 10;
const DEFAULT: usize = 0;

extern "C" {
    fn signal(signal: i32, handler: usize) -> usize;
    fn siginterrupt(signal: i32, is_interrupting: i32) -> i32;
    fn pthread_self() -> usize;
    fn pthread_kill(thread: usize, signal: i32) -> i32;
    fn read(descriptor: i32, bytes: *mut u8, most: usize) -> isize;
    fn write(descriptor: i32, bytes: *const u8, count: usize) -> isize;
}

/// The thread of a machine that answers; 0 before it is there.
static ANSWERING: AtomicUsize = AtomicUsize::new(0);
/// Whether a machine of one node, which answers nothing, has ended.
static HAS_ENDED: AtomicBool = AtomicBool::new(false);

/// In place of the archive: answers each event by no action, until a read brings no byte. With one node it ends at once.
#[no_mangle]
extern "C" fn yieldcleat_decide(input: i32, output: i32, nodes: u8, _quorum: u8) -> u8 {
    if nodes == 1 {
        HAS_ENDED.store(true, Ordering::Relaxed);
        return 2;
    }
    // SAFETY: both descriptors stay open until this returns, and the bytes are valid for what is read and written.
    unsafe {
        ANSWERING.store(pthread_self(), Ordering::Relaxed);
        let mut bytes = [0; 4096];
        while read(input, bytes.as_mut_ptr(), bytes.len()) > 0 {
            write(output, [0; 4].as_ptr(), 4);
        }
    }
    0
}

extern "C" fn nothing(_signal: i32) {}

#[test]
fn a_signal_does_not_end_the_machine() {
    // SAFETY: the handler does nothing, so it may run at any moment.
    unsafe {
        signal(SIGUSR1, nothing as extern "C" fn(i32) as usize);
        assert_eq!(siginterrupt(SIGUSR1, 1), 0);
    }
    let mut machine = Proved::start(3, 2).unwrap();
    assert_eq!(machine.step(Event::Failed { node: 0 }), Ok(vec![]));
    for _ in 0..5 {
        // It is in its next read by then.
        thread::sleep(Duration::from_millis(50));
        // SAFETY: the thread is not joined before the machine is dropped.
        unsafe { pthread_kill(ANSWERING.load(Ordering::Relaxed), SIGUSR1) };
        assert_eq!(machine.step(Event::Failed { node: 0 }), Ok(vec![]));
    }
}

#[test]
fn a_machine_that_has_ended_does_not_end_its_host() {
    // SAFETY: the default is no handler; a host in C has it, a program in Rust does not.
    unsafe { signal(SIGPIPE, DEFAULT) };
    let mut machine = Proved::start(1, 1).unwrap();
    until(|| HAS_ENDED.load(Ordering::Relaxed));
    for _ in 0..3 {
        assert_eq!(machine.step(Event::Create), Ok(vec![Action::Refused(Fault::Damaged)]));
        thread::sleep(Duration::from_millis(50));
    }
}

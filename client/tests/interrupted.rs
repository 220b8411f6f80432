//! A call to a silent node times out although signals interrupt its thread again and again.

use std::io::Read;
use std::os::unix::net::UnixStream;
use std::sync::atomic::{AtomicBool, AtomicUsize, Ordering};
use std::thread;
use std::time::{Duration, Instant};
use yieldcleat_client::{Calls, Connection, Error, Limits, Stream};

const SIGUSR1: i32 = 10;

extern "C" {
    fn signal(signal: i32, handler: usize) -> usize;
    fn pthread_self() -> usize;
    fn pthread_kill(thread: usize, signal: i32) -> i32;
}

extern "C" fn nothing(_signal: i32) {}

/// Runs a call in a thread that receives a signal every 20 milliseconds. Returns its result and duration; `None` if it takes 5 seconds.
fn interrupted<T: Send>(call: impl FnOnce() -> T + Send) -> Option<(T, Duration)> {
    let (target, is_over) = (AtomicUsize::new(0), AtomicBool::new(false));
    // SAFETY: the handler does nothing, so it may run at any moment.
    unsafe { signal(SIGUSR1, nothing as extern "C" fn(i32) as usize) };
    thread::scope(|scope| {
        let calling = scope.spawn(|| {
            // SAFETY: it only returns the identifier of the calling thread.
            target.store(unsafe { pthread_self() }, Ordering::SeqCst);
            let (begun, result) = (Instant::now(), call());
            let time = begun.elapsed();
            is_over.store(true, Ordering::SeqCst);
            while target.load(Ordering::SeqCst) != 0 {
                thread::yield_now();
            }
            (result, time)
        });
        let begun = Instant::now();
        while !is_over.load(Ordering::SeqCst) && begun.elapsed() < Duration::from_secs(5) {
            thread::sleep(Duration::from_millis(20));
            if let thread @ 1.. = target.load(Ordering::SeqCst) {
                // SAFETY: the thread does not end before the target is 0 again.
                unsafe { pthread_kill(thread, SIGUSR1) };
            }
        }
        let has_ended = is_over.load(Ordering::SeqCst);
        target.store(0, Ordering::SeqCst);
        calling.join().ok().filter(|_| has_ended)
    })
}

fn limits() -> Limits {
    Limits { answer: Duration::from_millis(300), ..Limits::default() }
}

#[test]
fn a_silent_node_is_given_up() {
    let (own, _other) = UnixStream::pair().unwrap();
    let mut connection = Connection::over(Stream::Unix(own), limits()).unwrap();
    let (answer, time) = interrupted(|| connection.front()).expect("the call ends while signals come");
    assert_eq!(answer, Err(Error::TimedOut));
    assert!(time >= limits().answer && time < Duration::from_secs(2), "{time:?}");
}

#[test]
fn a_node_that_reads_nothing_is_given_up() {
    let (own, mut other) = UnixStream::pair().unwrap();
    let mut connection = Connection::over(Stream::Unix(own), limits()).unwrap();
    let (answer, time) = interrupted(|| connection.take(&vec![0; 8 << 20])).expect("the call ends while signals come");
    assert_eq!(answer, Err(Error::TimedOut));
    assert!(time >= limits().answer && time < Duration::from_secs(2), "{time:?}");
    other.read_exact(&mut [0; 4]).unwrap();
}

//! A segment at the other end of a stream.

use std::fs::File;
use std::io::{self, BufReader, PipeReader, PipeWriter, Write};
use std::net::Shutdown;
use std::os::fd::{AsRawFd, OwnedFd};
use std::os::unix::net::UnixStream;
use std::thread::{self, JoinHandle};
use yieldcleat_client::{answers, frames, requests, signals, Calls, Error, Status};

extern "C" {
    /// Defined in `crates/node_c/src/lib.rt` and declared in `include/yieldcleat.h`. Nothing compares the declarations.
    fn yieldcleat_serve_as(input: i32, output: i32, birth: u64) -> u8;
}

/// The stack size of a segment's thread, in bytes.
const STACK: usize = 1 << 20;

/// A segment that is not shared with other threads or processes.
///
/// Each call waits for its answer, and may return `Stopped`, `Memory` or `LongFrame`; each call lists its other errors. After `Stopped` the
/// node cannot be used.
///
/// Only one frame of requests is in flight at a time, and a call returns only after it has read the whole answer. So the two sides never
/// block each other by writing, however few bytes a pipe holds (past a user's soft limit, one page), and no code of the caller runs while
/// an answer is unread.
pub struct Node {
    ends: Option<Ends>,
    thread: Option<JoinHandle<u8>>,
    /// The next frame to send.
    request: Vec<u8>,
    answer: Vec<u8>,
    /// Whether a request was sent and its answer is unread. If it is set when a call begins, a panic ended an earlier call, or the segment
    /// has stopped.
    is_waiting: bool,
}

/// This side's ends of the stream.
struct Ends {
    reader: BufReader<File>,
    writer: File,
    /// The socket, if both ends are one: it must be shut down for the other side to read the end.
    socket: Option<UnixStream>,
}

impl Ends {
    fn new(reader: impl Into<OwnedFd>, writer: impl Into<OwnedFd>, socket: Option<UnixStream>) -> Ends {
        Ends { reader: BufReader::new(File::from(reader.into())), writer: File::from(writer.into()), socket }
    }
}

impl Drop for Ends {
    fn drop(&mut self) {
        // An error means that the stream has ended already.
        let _ = self.socket.as_ref().map(|socket| socket.shutdown(Shutdown::Both));
    }
}

impl Node {
    /// Starts an empty segment of `readers` readers, 1 to 15, on a thread of its own.
    ///
    /// Errors: `NotStarted`, `BadRequest` for another number of readers, and `Stopped` if memory runs out at the start.
    pub fn open(readers: u8) -> Result<Node, Error> {
        Node::open_as(readers, 0)
    }

    /// Like `open`, for a node that several engines use. No earlier life of the node may have had this birth.
    pub fn open_as(readers: u8, birth: u64) -> Result<Node, Error> {
        let not_started = |error: io::Error| Error::NotStarted(error.kind());
        Node::over(io::pipe().map_err(not_started)?, io::pipe().map_err(not_started)?, readers, birth)
    }

    /// Like `open_as`, over these pipes for requests and answers.
    fn over(requests: (PipeReader, PipeWriter), answers: (PipeReader, PipeWriter), readers: u8, birth: u64) -> Result<Node, Error> {
        let serve = move || {
            signals::block();
            // SAFETY: the declaration is that of the archive, and both descriptors stay open until the call returns.
            unsafe { yieldcleat_serve_as(requests.0.as_raw_fd(), answers.1.as_raw_fd(), birth) }
        };
        let mut node = Node::at(Ends::new(answers.0, requests.1, None));
        let named = thread::Builder::new().name("segment".into()).stack_size(STACK);
        node.thread = Some(named.spawn(serve).map_err(|error| Error::NotStarted(error.kind()))?);
        answers::done(node.ask(&requests::open(readers))?, "opened")?;
        Ok(node)
    }

    /// Makes a node of a segment that serves the other end of the stream, such as a process of `fleet-node --frames`. The segment is used
    /// as it is: it may have facts.
    ///
    /// Errors: `NotStarted`.
    pub fn behind(stream: UnixStream) -> Result<Node, Error> {
        let again = || stream.try_clone().map_err(|error| Error::NotStarted(error.kind()));
        Ok(Node::at(Ends::new(again()?, again()?, Some(stream))))
    }

    fn at(ends: Ends) -> Node {
        Node { ends: Some(ends), thread: None, request: Vec::new(), answer: Vec::new(), is_waiting: false }
    }

    /// Ends the segment. Returns its status if this node runs its thread and the segment had not ended before.
    pub fn close(mut self) -> Option<Status> {
        self.end()
    }

    fn end(&mut self) -> Option<Status> {
        self.ends = None;
        self.thread.take()?.join().ok().map(Status::of)
    }

    // Requests and answers

    fn stopped(&mut self) -> Error {
        Error::Stopped(self.end())
    }

    /// Builds the next frame of these parts, and replaces what a failed call may have left.
    fn prepare(&mut self, parts: &[&[u8]]) -> Result<(), Error> {
        self.request.clear();
        frames::append(&mut self.request, parts).map_err(|_| Error::LongFrame)
    }

    /// Sends the frame and reads its answer.
    fn exchange(&mut self) -> Result<&[u8], Error> {
        if self.is_waiting {
            return Err(self.stopped());
        }
        self.is_waiting = true;
        let Some(ends) = self.ends.as_mut() else {
            return Err(self.stopped());
        };
        let is_sent = ends.writer.write_all(&self.request).is_ok();
        if !is_sent || !frames::read(&mut ends.reader, &mut self.answer).unwrap_or(false) {
            return Err(self.stopped());
        }
        self.is_waiting = false;
        Ok(&self.answer)
    }
}

impl Calls for Node {
    fn ask_parts(&mut self, parts: &[&[u8]]) -> Result<&[u8], Error> {
        self.prepare(parts)?;
        self.exchange()
    }
}

impl Drop for Node {
    fn drop(&mut self) {
        self.end();
    }
}

#[cfg(test)]
mod tests {
    use super::*;
    use std::os::fd::AsFd;
    use std::os::unix::thread::{JoinHandleExt, RawPthread};
    use std::panic::{catch_unwind, AssertUnwindSafe};
    use std::sync::mpsc;
    use std::time::Duration;
    use yieldcleat_client::{Front, Patch, Record, Refused, Taken, MOST};

    extern "C" {
        fn fcntl(descriptor: i32, command: i32, argument: i32) -> i32;
        fn signal(signal: i32, handler: usize) -> usize;
        fn siginterrupt(signal: i32, is_interrupting: i32) -> i32;
        fn pthread_kill(thread: RawPthread, signal: i32) -> i32;
    }

    /// The command that sets the capacity of a pipe.
    const F_SETPIPE_SZ: i32 = 1031;
    const SIGUSR1: i32 = 10;

    /// Makes a pipe that holds one page, as the system does past a user's soft limit.
    fn narrow() -> (PipeReader, PipeWriter) {
        let pipe = io::pipe().unwrap();
        // SAFETY: the descriptor is open, and the command takes one number.
        assert_eq!(unsafe { fcntl(pipe.1.as_fd().as_raw_fd(), F_SETPIPE_SZ, 4096) }, 4096);
        pipe
    }

    fn record(number: u64, byte: u8) -> Vec<u8> {
        let patches = vec![Patch::write(0, &[byte])];
        let record = Record { epoch: 0, number, back: number - 1, page: 1, block_back: number - 1, begins_anew: false, patches };
        record.encode().unwrap()
    }

    /// Returns the result of a call that must end soon.
    fn soon<T: Send + 'static>(call: impl FnOnce() -> T + Send + 'static) -> T {
        let (sender, receiver) = mpsc::channel();
        thread::spawn(move || sender.send(call()));
        receiver.recv_timeout(Duration::from_secs(60)).expect("the call hangs, or it has failed")
    }

    #[test]
    fn refused_facts_do_not_block_in_narrow_pipes() {
        soon(|| {
            let mut node = Node::over(narrow(), narrow(), 1, 0).unwrap();
            let (facts, others): (Vec<_>, Vec<_>) = (1..=3000).map(|number| (record(number, 1), record(number, 2))).unzip();
            let taken = node.take_all(facts.iter().map(Vec::as_slice)).unwrap();
            assert_eq!(taken, vec![Ok(Taken::Changed); 3000]);
            let taken = node.take_all(others.iter().map(Vec::as_slice)).unwrap();
            assert_eq!(taken, vec![Err(Error::Refused(Refused::Record)); 3000]);
            // Requests and answers with more bytes than such a pipe holds.
            let fact = record(3001, 1);
            let request = requests::many(std::iter::repeat_n(&b"read 1 3000 0 4096"[..], 100)).unwrap();
            assert_eq!(node.ask(&request).unwrap().len(), 100 * (4 + 5 + 4096));
            assert_eq!(node.take(&fact), Ok(Taken::Changed));
        });
    }

    /// Yields facts, then panics.
    fn panicking(facts: &[Vec<u8>]) -> impl Iterator<Item = &[u8]> {
        let panic = std::iter::from_fn(|| panic!("the caller's iterator"));
        facts.iter().map(Vec::as_slice).chain(panic)
    }

    #[test]
    fn a_panic_of_the_iterator_leaves_no_answer_unread() {
        soon(|| {
            let mut node = Node::open(1).unwrap();
            let facts: Vec<_> = (1..=600).map(|number| record(number, 1)).collect();
            assert!(catch_unwind(AssertUnwindSafe(|| node.take_all(panicking(&facts)))).is_err());
            assert!(catch_unwind(AssertUnwindSafe(|| node.ask_all(panicking(&[b"front".to_vec()])))).is_err());
            // Whole frames were taken, and each later answer belongs to its request.
            let front = node.front().unwrap();
            assert_eq!(front, Front { epoch: 0, complete: 2 * MOST as u64, min: 0 });
            assert_eq!(node.take_all(facts.iter().map(Vec::as_slice)).unwrap().len(), 600);
            assert_eq!(node.front(), Ok(Front { complete: 600, ..front }));
        });
    }

    extern "C" fn nothing(_signal: i32) {}

    #[test]
    fn a_signal_does_not_end_the_segment() {
        // SAFETY: the handler does nothing, so it may run at any moment.
        unsafe {
            signal(SIGUSR1, nothing as extern "C" fn(i32) as usize);
            assert_eq!(siginterrupt(SIGUSR1, 1), 0);
        }
        let mut node = Node::open(1).unwrap();
        for _ in 0..5 {
            // The segment is in its next read by now.
            thread::sleep(Duration::from_millis(50));
            let segment = node.thread.as_ref().map(JoinHandle::as_pthread_t).unwrap();
            // SAFETY: the thread is not joined before the node is dropped.
            assert_eq!(unsafe { pthread_kill(segment, SIGUSR1) }, 0);
            assert_eq!(node.front(), Ok(Front { epoch: 0, complete: 0, min: 0 }));
        }
    }

    #[test]
    fn a_call_that_a_panic_has_ended_stops_the_node() {
        let mut node = Node::open(1).unwrap();
        node.is_waiting = true;
        assert_eq!(node.front(), Err(Error::Stopped(Some(Status::InputEnded))));
        assert_eq!(node.front(), Err(Error::Stopped(None)));
    }
}

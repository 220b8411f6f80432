//! The proved machine: the archive of `crates/volume_c`, on a thread of its own, connected by a socket. The standard library writes to a
//! socket without SIGPIPE, which would end a host in C; it writes to a pipe with it.

use std::io::{self, BufReader};
use std::net::Shutdown;
use std::os::fd::AsRawFd;
use std::os::unix::net::UnixStream;
use std::thread::{self, JoinHandle};
use yieldcleat_client::signals;
use yieldcleat_volume::{Action, Event, Framed, Machine, OutOfMemory, VolumeError};

extern "C" {
    /// Defined in `crates/volume_c/src/lib.rt`. Answers events until the input ends, and returns why it ended.
    fn yieldcleat_decide(input: i32, output: i32, nodes: u8, quorum: u8) -> u8;
}

/// The stack size of the machine's thread, in bytes.
const STACK: usize = 1 << 20;

/// A machine that is not shared.
pub struct Proved {
    machine: Framed<BufReader<UnixStream>, UnixStream>,
    /// Another handle of the same socket.
    socket: UnixStream,
    thread: Option<JoinHandle<u8>>,
}

impl Proved {
    /// Starts a machine without any events, for this many nodes and this write quorum.
    ///
    /// Errors: `Thread`, and `Argument` for more than 255 nodes.
    pub fn start(nodes: usize, quorum: u8) -> Result<Proved, VolumeError> {
        let failed = |error: io::Error| VolumeError::Thread(error.kind());
        let (socket, other) = UnixStream::pair().map_err(failed)?;
        let (answers, events) = (socket.try_clone().map_err(failed)?, socket.try_clone().map_err(failed)?);
        let nodes = u8::try_from(nodes).map_err(|_| VolumeError::Argument("a number of nodes"))?;
        let decide = move || {
            signals::block();
            // SAFETY: the declaration is that of the archive, and the descriptor stays open until the call returns.
            unsafe { yieldcleat_decide(other.as_raw_fd(), other.as_raw_fd(), nodes, quorum) }
        };
        let thread = thread::Builder::new().name("decide".into()).stack_size(STACK).spawn(decide).map_err(failed)?;
        Ok(Proved { machine: Framed::over(BufReader::new(answers), events), socket, thread: Some(thread) })
    }
}

impl Machine for Proved {
    fn step(&mut self, event: Event<'_>) -> Result<Vec<Action>, OutOfMemory> {
        self.machine.step(event)
    }
}

impl Drop for Proved {
    fn drop(&mut self) {
        // This ends the thread's input, even if a forked child has the socket. An error means that it has ended already.
        let _ = self.socket.shutdown(Shutdown::Both);
        if let Some(thread) = self.thread.take() {
            // The status of the thread does not matter here.
            let _ = thread.join();
        }
    }
}

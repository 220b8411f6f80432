//! The connection to one node, on a thread of its own, which connects, sends queued requests, and passes the answers on.

use crate::options::Options;
use crate::progress::Progress;
use std::io;
use std::sync::mpsc::{Receiver, Sender};
use std::sync::{mpsc, Arc, Mutex, MutexGuard, PoisonError};
use std::thread::{self, JoinHandle};
use std::time::{Duration, Instant};
use yieldcleat_client::{frames, requests, Address, Connection, Error, Limits, Stream};

/// The greatest number of requests in one frame.
const MOST: usize = 256;
/// The number of bytes after which no request is added to a frame. A larger request is not added either: a node would drop a frame that it
/// makes too long.
const ENOUGH: usize = 1 << 18;
/// A request or an answer of more bytes is long: an opening that moves one is making progress.
pub const LONG: usize = 1 << 16;

/// A report of a link.
pub enum Heard {
    /// The node is connected. Requests go into this queue; unanswered ones of the queue before are lost.
    Up {
        node: u8,
        queue: Sender<Vec<u8>>,
    },
    /// The node is not connected: the connection has ended, or the first attempt to connect failed.
    Down {
        node: u8,
    },
    Answered {
        node: u8,
        request: Vec<u8>,
        answer: Vec<u8>,
    },
}

/// What a link and its thread share.
#[derive(Default)]
struct Shared {
    /// The socket, so that another thread can end it.
    stream: Option<Stream>,
    /// Whether the thread is waiting for a connection. No other thread can end that: a node may not respond to the attempt.
    is_connecting: bool,
    is_stopped: bool,
}

impl Shared {
    /// Notes that the thread begins to connect. `None` if the link must end.
    fn begin(&mut self) -> Option<()> {
        (self.stream, self.is_connecting) = (None, !self.is_stopped);
        self.is_connecting.then_some(())
    }

    /// Notes the socket of the connection, if there is one. `None` if the link must end.
    fn end(&mut self, stream: Option<Stream>) -> Option<()> {
        (self.stream, self.is_connecting) = (stream, false);
        (!self.is_stopped).then_some(())
    }
}

/// A thread with the connection to one node. Dropping it ends the thread and waits for that, unless the thread is connecting: then it ends
/// by itself, and sends the node nothing. The thread borrows nothing, so it may outlive all else.
pub struct Link {
    shared: Arc<Mutex<Shared>>,
    thread: Option<JoinHandle<()>>,
}

fn lock(shared: &Mutex<Shared>) -> MutexGuard<'_, Shared> {
    shared.lock().unwrap_or_else(PoisonError::into_inner)
}

impl Link {
    /// Starts the thread for a node. It passes its reports to `heard` until that returns `None`, and notes in `progress` when long messages
    /// move.
    pub fn start<H>(node: u8, options: &Options, progress: &Arc<Progress>, heard: H) -> io::Result<Link>
    where
        H: Fn(Heard) -> Option<()> + Send + 'static,
    {
        let shared = Arc::new(Mutex::new(Shared::default()));
        let worker = Worker {
            node,
            address: options.nodes[usize::from(node)].clone(),
            limits: options.of_links(),
            retry: options.retry,
            shared: shared.clone(),
            progress: progress.clone(),
            heard,
        };
        let thread = thread::Builder::new().name(format!("node {node}")).spawn(move || worker.run())?;
        Ok(Link { shared, thread: Some(thread) })
    }
}

impl Link {
    /// Signals the thread to end, and does not wait for it.
    pub fn stop(&self) {
        let mut shared = lock(&self.shared);
        shared.is_stopped = true;
        if let Some(stream) = &shared.stream {
            // An error means that the connection has ended already.
            let _ = stream.shutdown();
        }
        drop(shared);
        self.thread.iter().for_each(|thread| thread.thread().unpark());
    }
}

impl Drop for Link {
    fn drop(&mut self) {
        self.stop();
        // After `stop` the thread begins no connection.
        let is_connecting = lock(&self.shared).is_connecting;
        if let Some(thread) = self.thread.take().filter(|_| !is_connecting) {
            // A link that panicked has printed that; the others continue.
            let _ = thread.join();
        }
    }
}

struct Worker<H> {
    node: u8,
    address: Address,
    limits: Limits,
    retry: Duration,
    shared: Arc<Mutex<Shared>>,
    progress: Arc<Progress>,
    heard: H,
}

impl<H: Fn(Heard) -> Option<()>> Worker<H> {
    fn run(&self) {
        while let Some(connection) = self.connect() {
            let Some(answered) = self.serve(connection) else {
                return;
            };
            if (self.heard)(Heard::Down { node: self.node }).is_none() {
                return;
            }
            if answered == 0 {
                // The node accepts connections and answers no requests, or has too many connections.
                self.pause(self.retry);
            }
        }
    }

    /// Waits, unless the link must end.
    fn pause(&self, time: Duration) {
        if !lock(&self.shared).is_stopped {
            thread::park_timeout(time);
        }
    }

    /// Connects, however long that takes. `None` if the link must end.
    fn connect(&self) -> Option<Connection> {
        let (begun, mut has_failed) = (Instant::now(), false);
        loop {
            if let Some(connection) = self.try_connect()? {
                return Some(connection);
            }
            if !has_failed {
                (self.heard)(Heard::Down { node: self.node })?;
                has_failed = true;
            }
            // The pause grows while a node cannot be reached.
            self.pause(self.retry.max(begun.elapsed() / 8).min(self.retry * 10));
        }
    }

    /// Tries to connect once. `None` if the link must end, `Some(None)` if the attempt failed.
    fn try_connect(&self) -> Option<Option<Connection>> {
        lock(&self.shared).begin()?;
        let connected = Stream::connect(&self.address, self.limits.connect).and_then(|stream| Ok((stream.try_clone()?, stream)));
        let (shared, stream) = connected.ok().unzip();
        lock(&self.shared).end(shared)?;
        Some(stream.and_then(|stream| Connection::over(stream, self.limits).ok()))
    }

    /// Sends queued requests until the connection fails or the queue is dropped, and returns how many were answered. `None` if the receiver
    /// of the reports has ended.
    fn serve(&self, mut connection: Connection) -> Option<usize> {
        let (mut answered, mut next, (queue, queued)) = (0, None, mpsc::channel());
        (self.heard)(Heard::Up { node: self.node, queue })?;
        while let Some(first) = next.take().or_else(|| queued.recv().ok()) {
            let (batch, long) = gather(first, &queued);
            next = long;
            let Ok(answers) = self.ask(&mut connection, &batch) else {
                break;
            };
            answered += answers.len();
            for (request, answer) in batch.into_iter().zip(answers) {
                (self.heard)(Heard::Answered { node: self.node, request, answer })?;
            }
        }
        Some(answered)
    }

    /// Sends requests in one frame, and returns the answer to each.
    fn ask(&self, connection: &mut Connection, batch: &[Vec<u8>]) -> Result<Vec<Vec<u8>>, Error> {
        if let [request] = batch {
            return self.ask_one(connection, request).map(|answer| vec![answer]);
        }
        let request = requests::many(batch.iter().map(Vec::as_slice)).map_err(|_| Error::LongFrame)?;
        let answer = self.ask_one(connection, &request)?;
        match frames::inside(&answer) {
            Some(answers) if answers.len() == batch.len() => self.again_alone(connection, batch, answers),
            // The node answered the whole frame, for example that its disk is full.
            _ => Ok(vec![answer; batch.len()]),
        }
    }

    /// Returns the answers, after it has sent again, alone, each request whose answer was too long beside the others. Such requests have
    /// changed no facts.
    fn again_alone(&self, connection: &mut Connection, batch: &[Vec<u8>], answers: Vec<&[u8]>) -> Result<Vec<Vec<u8>>, Error> {
        let is_long = |answer: &[u8]| answer == b"long" || (answer.starts_with(b"as ") && answer.len() < 64 && answer.ends_with(b" long"));
        let each = batch.iter().zip(answers);
        each.map(|(request, answer)| if is_long(answer) { self.ask_one(connection, request) } else { Ok(answer.to_vec()) }).collect()
    }

    /// Sends one frame and returns its answer.
    fn ask_one(&self, connection: &mut Connection, request: &[u8]) -> Result<Vec<u8>, Error> {
        connection.send(&[request])?;
        if request.len() > LONG {
            self.progress.note_moved();
        }
        let mut total = 0;
        let answer = connection.receive_with(|count| {
            total += count;
            if total > LONG {
                self.progress.note_moved();
            }
        })?;
        match answer {
            // The node has too many connections, and answers no request on this one.
            b"busy" => Err(Error::Busy),
            _ => Ok(answer.to_vec()),
        }
    }
}

/// Gathers the requests of the next frame from the queue, and a large request that must have the frame after it alone.
fn gather(first: Vec<u8>, queued: &Receiver<Vec<u8>>) -> (Vec<Vec<u8>>, Option<Vec<u8>>) {
    let (mut bytes, mut batch) = (first.len(), vec![first]);
    while batch.len() < MOST && bytes < ENOUGH {
        let Ok(request) = queued.try_recv() else {
            break;
        };
        if request.len() > ENOUGH {
            return (batch, Some(request));
        }
        bytes += request.len();
        batch.push(request);
    }
    (batch, None)
}

#[cfg(test)]
mod tests {
    use super::*;

    #[test]
    fn a_long_request_has_a_frame_of_its_own() {
        let (queue, queued) = mpsc::channel();
        let long = vec![0; ENOUGH + 1];
        [b"b".to_vec(), long.clone(), b"c".to_vec()].into_iter().for_each(|request| queue.send(request).unwrap());
        assert_eq!(gather(b"a".to_vec(), &queued), (vec![b"a".to_vec(), b"b".to_vec()], Some(long.clone())));
        assert_eq!(gather(long.clone(), &queued), (vec![long], None));
        assert_eq!(gather(b"a".to_vec(), &queued), (vec![b"a".to_vec(), b"c".to_vec()], None));
    }
}

//! One connection of a client: frames in, answers out, in order.

use crate::budget::Share;
use crate::engine::{Handle, Portion, Refusal};
use crate::gate::{judge, Verdict};
use crate::metrics::Metrics;
use crate::snapshots::{Owner, Snapshots};
use std::collections::VecDeque;
use std::io::{self, BufRead, BufReader, ErrorKind, Read, Write};
use std::sync::atomic::{AtomicBool, AtomicU64, AtomicUsize, Ordering::Relaxed, Ordering::SeqCst};
use std::sync::Arc;
use std::time::{Duration, Instant};
use yieldcleat_client::{frames, Stream};

/// The number of bytes that a connection reads ahead, and the number of bytes of a frame that it reads before it takes a share of the
/// memory. So a client that announces a long frame and sends little of it takes no memory from others.
const AHEAD: usize = 1 << 16;

/// What all connections share.
pub struct Service {
    pub handle: Handle,
    pub metrics: Arc<Metrics>,
    pub snapshots: Arc<Snapshots>,
    /// The number of connections so far, which gives each its number.
    pub connections: AtomicU64,
    /// The greatest length of a frame that is accepted, in bytes.
    pub longest: u32,
    pub delta_bytes: u32,
    /// How long a client may stall within a frame, take to send a short one, or leave an answer unread.
    pub patience: Duration,
    /// How long a client may be silent between frames.
    pub idle: Duration,
    pub is_stopping: AtomicBool,
    /// The number of connections with a request whose answer is not written.
    pub busy: AtomicUsize,
}

impl Service {
    /// Ends the server, after the pending requests.
    pub fn stop(&self) {
        self.is_stopping.store(true, SeqCst);
        self.handle.stop();
    }
}

/// A frame of a client.
enum Frame<'a> {
    /// A request, with its share of the memory for long requests.
    Whole(Vec<u8>, Option<Share<'a>>),
    /// A frame that is too long, whose bytes are dropped.
    TooLong,
}

/// Serves a connection until it ends.
///
/// Errors: those of the socket: the client has disconnected, or stalls.
pub fn serve(stream: Stream, service: &Service) -> io::Result<()> {
    let connection = service.connections.fetch_add(1, Relaxed);
    let ended = serve_as(connection, stream, service);
    service.snapshots.release(Owner::Connection(connection));
    ended
}

fn serve_as(connection: u64, stream: Stream, service: &Service) -> io::Result<()> {
    stream.set_timeouts(Some(service.patience), Some(service.patience))?;
    let mut writer = stream.try_clone()?;
    let mut reader = BufReader::with_capacity(AHEAD, stream);
    while wait(&mut reader, service)? {
        let frames = gather(&mut reader, service)?;
        service.busy.fetch_add(1, SeqCst);
        let answered = answer(connection, frames, service, &mut writer);
        service.busy.fetch_sub(1, SeqCst);
        if !answered? {
            return Ok(());
        }
    }
    Ok(())
}

/// Waits for the first byte of a frame. Returns false if the client has disconnected or was silent for too long, or if the server is about
/// to end.
fn wait(reader: &mut BufReader<Stream>, service: &Service) -> io::Result<bool> {
    let (begin, patience) = (Instant::now(), service.patience);
    loop {
        let left = service.idle.saturating_sub(begin.elapsed());
        if service.is_stopping.load(SeqCst) || left.is_zero() {
            return Ok(false);
        }
        let is_last = left < patience;
        if is_last {
            reader.get_ref().set_timeouts(Some(left), Some(patience))?;
        }
        match reader.fill_buf().map(|bytes| !bytes.is_empty()) {
            Ok(is_there) => {
                if is_last {
                    reader.get_ref().set_timeouts(Some(patience), Some(patience))?;
                }
                return Ok(is_there);
            }
            Err(error) if matches!(error.kind(), ErrorKind::WouldBlock | ErrorKind::TimedOut | ErrorKind::Interrupted) => {}
            Err(error) => return Err(error),
        }
    }
}

/// Reads the next frame, and those that have arrived whole with it.
fn gather<'a>(reader: &mut BufReader<Stream>, service: &'a Service) -> io::Result<Vec<Frame<'a>>> {
    let mut length = [0; 4];
    reader.read_exact(&mut length)?;
    let mut gathered = vec![read(reader, u32::from_be_bytes(length), service)?];
    while let Some(length) = next_whole(reader.buffer(), service.longest) {
        reader.consume(4);
        gathered.push(read(reader, length, service)?);
    }
    Ok(gathered)
}

/// Returns the length of the next frame, if all of it has arrived and it is not too long.
fn next_whole(buffer: &[u8], longest: u32) -> Option<u32> {
    let length = u32::from_be_bytes(*buffer.first_chunk()?);
    (frames::is_whole(buffer) && length <= longest).then_some(length)
}

/// Reads the bytes of a frame of this length, or drops those of one that is too long. All of them must arrive within a time limit, which
/// does not include the wait for memory.
fn read<'a>(reader: &mut BufReader<Stream>, length: u32, service: &'a Service) -> io::Result<Frame<'a>> {
    service.metrics.frames.fetch_add(1, Relaxed);
    service.metrics.received.fetch_add(u64::from(length) + 4, Relaxed);
    let length = length as usize;
    let mut end = Instant::now() + time_for(length, service.patience);
    if length > service.longest as usize {
        pull(reader, length, end, |_| {})?;
        return Ok(Frame::TooLong);
    }
    let mut bytes = Vec::new();
    pull(reader, length.min(AHEAD), end, |some| bytes.extend_from_slice(some))?;
    let left = length - bytes.len();
    if left == 0 {
        return Ok(Frame::Whole(bytes, None));
    }
    let waiting = Instant::now();
    let share = service.metrics.budget.take(length).ok_or(ErrorKind::OutOfMemory)?;
    end += waiting.elapsed();
    bytes.reserve_exact(left);
    pull(reader, left, end, |some| bytes.extend_from_slice(some))?;
    Ok(Frame::Whole(bytes, Some(share)))
}

/// Returns how long the bytes of a frame may take: the patience, and a second for each megabyte.
fn time_for(length: usize, patience: Duration) -> Duration {
    patience + Duration::from_micros(length as u64)
}

/// Passes `count` bytes to `each` as they arrive.
///
/// Errors: those of the socket, and `TimedOut` for a client that sends bytes, but not all of them before `end`.
fn pull(reader: &mut impl BufRead, count: usize, end: Instant, mut each: impl FnMut(&[u8])) -> io::Result<()> {
    let mut left = count;
    while left > 0 {
        let come = match reader.fill_buf() {
            Err(error) if error.kind() == ErrorKind::Interrupted => continue,
            come => come?,
        };
        if come.is_empty() {
            return Err(ErrorKind::UnexpectedEof.into());
        }
        let taken = come.len().min(left);
        each(&come[..taken]);
        reader.consume(taken);
        left -= taken;
        if left > 0 && Instant::now() >= end {
            return Err(ErrorKind::TimedOut.into());
        }
    }
    Ok(())
}

/// Answers frames in order, in portions. Returns false if the server is about to end; the connection must end then, so that a later answer
/// is not taken for a missing one.
fn answer(connection: u64, frames: Vec<Frame>, service: &Service, writer: &mut impl Write) -> io::Result<bool> {
    let (mut verdicts, mut asked, mut shares) = (VecDeque::new(), Vec::new(), Vec::new());
    for frame in frames {
        verdicts.push_back(match frame {
            Frame::TooLong => Some(b"long frame".to_vec()),
            Frame::Whole(request, share) => {
                shares.push(share);
                own_answer(connection, request, &mut asked, service)
            }
        });
    }
    while !verdicts.is_empty() {
        let Some(portion) = ask(asked, service) else {
            return Ok(false);
        };
        asked = portion.rest;
        if asked.is_empty() {
            // The requests are dropped by now. A client that reads its answers slowly must not keep a share of the memory from others.
            shares.clear();
        }
        let bytes = settle(&mut verdicts, portion.answers)?;
        service.metrics.sent.fetch_add(bytes.len() as u64, Relaxed);
        writer.write_all(&bytes)?;
    }
    Ok(true)
}

/// Sends requests to the segment. `None` if the server is about to end.
fn ask(asked: Vec<Vec<u8>>, service: &Service) -> Option<Portion> {
    if asked.is_empty() {
        return Some(Portion::default());
    }
    let count = asked.len();
    match service.handle.ask_some(asked) {
        Ok(portion) => Some(portion),
        Err(Refusal::DiskFull) => Some(Portion { answers: vec![b"disk full".to_vec(); count], rest: Vec::new() }),
        Err(Refusal::Stopped) => None,
    }
}

/// Encodes the next answers: those of the server, and those of the segment while there are any. Removes their verdicts.
fn settle(verdicts: &mut VecDeque<Option<Vec<u8>>>, answers: Vec<Vec<u8>>) -> io::Result<Vec<u8>> {
    let (mut answers, mut bytes) = (answers.into_iter(), Vec::new());
    while let Some(verdict) = verdicts.pop_front() {
        let Some(answer) = verdict.or_else(|| answers.next()) else {
            verdicts.push_front(None);
            break;
        };
        frames::append(&mut bytes, &[&answer])?;
    }
    Ok(bytes)
}

/// Returns the server's own answer to a request, or adds the request to those for the segment.
fn own_answer(connection: u64, request: Vec<u8>, asked: &mut Vec<Vec<u8>>, service: &Service) -> Option<Vec<u8>> {
    if !service.snapshots.allows(connection, &request) {
        return Some(b"busy".to_vec());
    }
    match judge(request, service.delta_bytes) {
        Verdict::Answer(answer) => Some(answer),
        Verdict::Report => Some(service.metrics.report().into_bytes()),
        Verdict::Metrics => Some(service.metrics.text().into_bytes()),
        Verdict::Ask(request) => {
            asked.push(request);
            None
        }
    }
}

#[cfg(test)]
mod tests {
    use super::*;

    #[test]
    fn who_sends_too_slowly_is_left() {
        let bytes = [7; 100];
        let slow = || BufReader::with_capacity(10, &bytes[..]);
        let (now, late) = (Instant::now(), Instant::now() + Duration::from_secs(3600));
        let mut come = Vec::new();
        assert!(pull(&mut slow(), 100, late, |some| come.extend_from_slice(some)).is_ok());
        assert_eq!(come, bytes);
        let error = |count, end| pull(&mut slow(), count, end, |_| {}).map_err(|error| error.kind());
        assert_eq!(error(100, now), Err(ErrorKind::TimedOut));
        assert_eq!(error(101, late), Err(ErrorKind::UnexpectedEof));
        assert_eq!(error(10, now), Ok(()), "all of it comes at once");
        assert_eq!(time_for(2_000_000, Duration::from_millis(300)), Duration::from_millis(2300));
    }

    #[test]
    fn answers_come_in_portions() {
        let mut verdicts = VecDeque::from([None, Some(b"busy".to_vec()), None, Some(b"own".to_vec()), None]);
        let mut next = |answers: &[&[u8]]| settle(&mut verdicts, answers.iter().map(|it| it.to_vec()).collect()).unwrap();
        assert_eq!(next(&[b"a"]), b"\0\0\0\x01a\0\0\0\x04busy");
        assert_eq!(next(&[b"b", b"c"]), b"\0\0\0\x01b\0\0\0\x03own\0\0\0\x01c");
        assert!(verdicts.is_empty());
    }
}

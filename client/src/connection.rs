//! A connection to a node.

use crate::address::Address;
use crate::calls::Calls;
use crate::errors::Error;
use crate::frames::{self, Next};
use crate::stream::Stream;
use std::io::{self, BufReader, ErrorKind, Read};
use std::time::{Duration, Instant};

/// The timeouts of a connection, and the size of an answer.
#[derive(Debug, Clone, Copy, PartialEq, Eq)]
pub struct Limits {
    /// The timeout of a connection attempt.
    pub connect: Duration,
    /// The timeout for the next bytes of an answer, and for room to send.
    pub answer: Duration,
    /// The greatest number of bytes of an answer.
    pub longest: u32,
}

impl Default for Limits {
    fn default() -> Limits {
        Limits { connect: Duration::from_secs(5), answer: Duration::from_secs(30), longest: frames::LONGEST }
    }
}

/// The limit of each wait for bytes or for room: `answer`, and not beyond `end` if there is one.
#[derive(Debug, Clone, Copy)]
struct Patience {
    answer: Duration,
    end: Option<Instant>,
}

impl Patience {
    /// Returns how long a read or write that begins at this moment may wait.
    ///
    /// Errors: `TimedOut` if no time is left.
    fn left(self, now: Instant) -> io::Result<Duration> {
        let left = self.end.map_or(self.answer, |end| self.answer.min(end.saturating_duration_since(now)));
        if left.is_zero() {
            Err(ErrorKind::TimedOut.into())
        } else {
            Ok(left)
        }
    }

    /// Reads or writes some bytes, and repeats that after a signal while time is left. Each repetition starts the socket's timeout again,
    /// so signals may extend the wait to almost twice the time. A long write to a Unix socket may wait for room several times.
    fn wait(self, stream: &Stream, mut step: impl FnMut() -> io::Result<usize>) -> io::Result<usize> {
        let begun = Instant::now();
        let left = self.left(begun)?;
        if self.end.is_some() {
            stream.set_timeouts(Some(left), Some(left))?;
        }
        loop {
            match step() {
                Err(error) if error.kind() == ErrorKind::Interrupted && begun.elapsed() < left => {}
                Err(error) if error.kind() == ErrorKind::Interrupted => return Err(ErrorKind::TimedOut.into()),
                done => return done,
            }
        }
    }
}

/// A connection to a node. `TimedOut`, `Lost`, and `LongAnswer` for an answer over the limit close it, and each later call returns `Lost`:
/// open another one. Whether a request that was sent is carried out is not known then.
#[derive(Debug)]
pub struct Connection {
    reader: BufReader<Stream>,
    writer: Stream,
    patience: Patience,
    longest: u32,
    request: Vec<u8>,
    answer: Vec<u8>,
    is_open: bool,
}

impl Connection {
    /// Connects to a node.
    ///
    /// Errors: `NotConnected`.
    pub fn open(address: &Address, limits: Limits) -> Result<Connection, Error> {
        let not_connected = |error: io::Error| Error::NotConnected(error.kind());
        Connection::over(Stream::connect(address, limits.connect).map_err(not_connected)?, limits)
    }

    /// Makes a connection of a connected socket.
    ///
    /// Errors: `NotConnected`.
    pub fn over(stream: Stream, limits: Limits) -> Result<Connection, Error> {
        let not_connected = |error: io::Error| Error::NotConnected(error.kind());
        stream.set_timeouts(Some(limits.answer), Some(limits.answer)).map_err(not_connected)?;
        let writer = stream.try_clone().map_err(not_connected)?;
        let (request, answer) = (Vec::new(), Vec::new());
        let patience = Patience { answer: limits.answer, end: None };
        Ok(Connection { reader: BufReader::new(stream), writer, patience, longest: limits.longest, request, answer, is_open: true })
    }

    /// Returns whether the connection can carry another call.
    pub fn is_open(&self) -> bool {
        self.is_open
    }

    /// Sets a deadline for all later calls: a call that reaches it returns `TimedOut`, even while an answer arrives slowly. A signal, or a
    /// node that reads a long frame slowly, may delay that. With `None`, only the timeouts of the limits apply.
    pub fn end_at(&mut self, end: Option<Instant>) -> io::Result<()> {
        if end.is_none() && self.patience.end.is_some() {
            self.writer.set_timeouts(Some(self.patience.answer), Some(self.patience.answer))?;
        }
        self.patience.end = end;
        Ok(())
    }

    /// Sends a frame without waiting for its answer. The caller must call `receive` once for each frame, in order, and must leave only a
    /// few answers unread: a node that cannot write its answers stops reading.
    ///
    /// Errors: `LongFrame`, `TimedOut` and `Lost`.
    pub fn send(&mut self, parts: &[&[u8]]) -> Result<(), Error> {
        if !self.is_open {
            return Err(Error::Lost(ErrorKind::NotConnected));
        }
        self.request.clear();
        frames::append(&mut self.request, parts).map_err(|_| Error::LongFrame)?;
        self.write_request().map_err(|error| self.close(error.kind()))
    }

    fn write_request(&mut self) -> io::Result<()> {
        let (mut rest, writer) = (self.request.as_slice(), &self.writer);
        while !rest.is_empty() {
            match self.patience.wait(writer, || writer.write_some(rest))? {
                0 => return Err(ErrorKind::WriteZero.into()),
                count => rest = &rest[count..],
            }
        }
        Ok(())
    }

    /// Returns the next answer.
    ///
    /// Errors: `TimedOut`, `Lost`, and `LongAnswer` if the answer exceeds the limit.
    pub fn receive(&mut self) -> Result<&[u8], Error> {
        self.receive_with(|_| ())
    }

    /// Like `receive`, for an answer that may take long: calls `came` with the number of bytes whenever some of them arrive.
    ///
    /// Errors: those of `receive`.
    pub fn receive_with(&mut self, came: impl FnMut(usize)) -> Result<&[u8], Error> {
        if !self.is_open {
            return Err(Error::Lost(ErrorKind::NotConnected));
        }
        let mut reader = Counted { reader: &mut self.reader, stream: &self.writer, patience: self.patience, came };
        match frames::read_within(&mut reader, &mut self.answer, self.longest) {
            Ok(Next::Frame) => Ok(&self.answer),
            Ok(Next::End) => Err(self.close(ErrorKind::UnexpectedEof)),
            Ok(Next::TooLong(_)) => {
                self.close(ErrorKind::InvalidData);
                Err(Error::LongAnswer)
            }
            Err(error) => Err(self.close(error.kind())),
        }
    }

    /// Closes the connection, because its next bytes are not an answer to the next request.
    fn close(&mut self, kind: ErrorKind) -> Error {
        self.is_open = false;
        // An error means that the connection has ended already.
        let _ = self.writer.shutdown();
        match kind {
            ErrorKind::WouldBlock | ErrorKind::TimedOut => Error::TimedOut,
            other => Error::Lost(other),
        }
    }
}

/// A reader that limits each wait, and reports the number of bytes of each read.
struct Counted<'a, F> {
    reader: &'a mut BufReader<Stream>,
    stream: &'a Stream,
    patience: Patience,
    came: F,
}

impl<F: FnMut(usize)> Read for Counted<'_, F> {
    fn read(&mut self, bytes: &mut [u8]) -> io::Result<usize> {
        let has_some = !self.reader.buffer().is_empty();
        let mut read = || self.reader.read(bytes);
        let count = if has_some { read()? } else { self.patience.wait(self.stream, read)? };
        (self.came)(count);
        Ok(count)
    }
}

impl Calls for Connection {
    fn ask_parts(&mut self, parts: &[&[u8]]) -> Result<&[u8], Error> {
        self.send(parts)?;
        self.receive()
    }
}

#[cfg(test)]
mod tests {
    use super::*;
    use crate::answers::Front;
    use std::io::Write;
    use std::os::unix::net::UnixStream;
    use std::thread;

    fn pair(limits: Limits) -> (Connection, UnixStream) {
        let (own, other) = UnixStream::pair().unwrap();
        (Connection::over(Stream::Unix(own), limits).unwrap(), other)
    }

    fn limits(milliseconds: u64, longest: u32) -> Limits {
        Limits { answer: Duration::from_millis(milliseconds), longest, ..Limits::default() }
    }

    #[test]
    fn requests_are_answered() {
        let (mut connection, mut other) = pair(Limits::default());
        let served = thread::spawn(move || {
            let mut frame = Vec::new();
            while frames::read(&mut other, &mut frame).unwrap() {
                frames::write(&mut other, if frame == b"front" { b"front 1 2 3" } else { b"bad request" }).unwrap();
            }
        });
        assert_eq!(connection.front(), Ok(Front { epoch: 1, complete: 2, min: 3 }));
        assert_eq!(connection.tidy(), Err(Error::BadRequest));
        connection.send(&[b"fro", b"nt"]).unwrap();
        connection.send(&[b"front"]).unwrap();
        assert_eq!(connection.receive(), Ok(&b"front 1 2 3"[..]));
        assert_eq!(connection.receive(), Ok(&b"front 1 2 3"[..]));
        drop(connection);
        served.join().unwrap();
    }

    #[test]
    fn a_long_answer_is_reported_while_it_comes() {
        let (mut connection, mut other) = pair(Limits::default());
        let served = thread::spawn(move || {
            let mut frame = Vec::new();
            assert!(frames::read(&mut other, &mut frame).unwrap());
            frames::write(&mut other, &vec![7; 1 << 20]).unwrap();
        });
        let (mut total, mut parts) = (0, 0);
        connection.send(&[b"front"]).unwrap();
        let answer = connection.receive_with(|count| (total, parts) = (total + count, parts + 1));
        assert_eq!(answer.map(<[u8]>::len), Ok(1 << 20));
        assert!(total == (1 << 20) + 4 && parts > 2, "{total} {parts}");
        served.join().unwrap();
    }

    #[test]
    fn a_silent_node_is_given_up() {
        let (mut connection, _other) = pair(limits(20, 100));
        assert_eq!(connection.front(), Err(Error::TimedOut));
        assert!(!connection.is_open());
        assert_eq!(connection.front(), Err(Error::Lost(ErrorKind::NotConnected)));
    }

    #[test]
    fn a_slow_answer_ends_in_time() {
        let (mut connection, mut other) = pair(limits(5000, 100));
        let served = thread::spawn(move || {
            // An answer that arrives one byte at a time.
            let parts = [&b"\0\0\0\x64"[..]].into_iter().chain([&b"x"[..]; 100]);
            parts.take_while(|part| other.write_all(part).is_ok()).for_each(|_| thread::sleep(Duration::from_millis(20)));
        });
        let begun = Instant::now();
        connection.end_at(Some(begun + Duration::from_millis(200))).unwrap();
        assert_eq!(connection.front(), Err(Error::TimedOut));
        assert!(begun.elapsed() < Duration::from_secs(1), "{:?}", begun.elapsed());
        served.join().unwrap();
    }

    #[test]
    fn a_call_without_an_end_waits_as_long_as_before() {
        let (mut connection, mut other) = pair(limits(5000, 100));
        let served = thread::spawn(move || {
            let mut frame = Vec::new();
            while frames::read(&mut other, &mut frame).unwrap() {
                frames::write(&mut other, b"front 1 2 3").unwrap();
                thread::sleep(Duration::from_millis(300));
            }
        });
        connection.end_at(Some(Instant::now() + Duration::from_millis(200))).unwrap();
        assert!(connection.front().is_ok());
        connection.end_at(None).unwrap();
        assert!(connection.front().is_ok());
        drop(connection);
        served.join().unwrap();
    }

    #[test]
    fn a_node_that_reads_nothing_is_given_up() {
        let (mut connection, _other) = pair(limits(20, 100));
        assert_eq!(connection.take(&vec![0; 8 << 20]), Err(Error::TimedOut));
    }

    #[test]
    fn torn_and_long_answers_end_a_connection() {
        for (told, error) in [
            (&b""[..], Error::Lost(ErrorKind::UnexpectedEof)),
            (b"\0\0\0\x05fro", Error::Lost(ErrorKind::UnexpectedEof)),
            (b"\0\0\0\x65", Error::LongAnswer),
            (b"\xff\xff\xff\xff", Error::LongAnswer),
        ] {
            let (mut connection, mut other) = pair(limits(5000, 100));
            other.write_all(told).unwrap();
            other.shutdown(std::net::Shutdown::Write).unwrap();
            assert_eq!(connection.front(), Err(error));
            assert!(!connection.is_open());
            let mut sent = Vec::new();
            other.read_to_end(&mut sent).unwrap();
            assert_eq!(sent, b"\0\0\0\x05front");
        }
    }

    #[test]
    fn a_node_is_reached_over_tcp() {
        let listener = std::net::TcpListener::bind("127.0.0.1:0").unwrap();
        let address = listener.local_addr().unwrap().to_string().parse().unwrap();
        let served = thread::spawn(move || {
            let (mut stream, mut frame) = (listener.accept().unwrap().0, Vec::new());
            assert!(frames::read(&mut stream, &mut frame).unwrap());
            frames::write(&mut stream, b"disk full").unwrap();
            frame
        });
        let mut connection = Connection::open(&address, Limits::default()).unwrap();
        assert_eq!(connection.take(&[3]), Err(Error::DiskFull));
        assert_eq!(served.join().unwrap(), b"take \x03");
        assert!(matches!(Connection::open(&address, Limits::default()), Err(Error::NotConnected(ErrorKind::ConnectionRefused))));
    }

    #[test]
    fn nobody_listens() {
        let address = "unix:/nowhere/at/all".parse().unwrap();
        assert_eq!(Connection::open(&address, Limits::default()).err(), Some(Error::NotConnected(ErrorKind::NotFound)));
    }
}

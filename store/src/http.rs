//! The part of HTTP that a scraper needs: GET of /metrics and /report.

use crate::listener::Listener;
use crate::metrics::Metrics;
use std::io::{self, BufRead, BufReader, Read, Write};
use std::time::{Duration, Instant};
use yieldcleat_client::Stream;

/// The greatest number of bytes of a request's head.
const MOST: u64 = 8192;
/// The time limit for the whole head of a request, and for each write of the answer.
const PATIENCE: Duration = Duration::from_secs(5);

/// Answers connections one after another.
///
/// Errors: those of the socket.
pub fn serve(listener: &Listener, metrics: &Metrics) -> io::Result<()> {
    loop {
        let stream = listener.accept()?;
        // An error is the scraper's: it has disconnected, or stalls.
        let _ = answer(stream, metrics);
    }
}

/// A socket whose reads time out at `end`.
struct Until {
    stream: Stream,
    end: Instant,
}

impl Read for Until {
    fn read(&mut self, bytes: &mut [u8]) -> io::Result<usize> {
        let left = self.end.saturating_duration_since(Instant::now());
        if left.is_zero() {
            return Err(io::ErrorKind::TimedOut.into());
        }
        self.stream.set_timeouts(Some(left), Some(PATIENCE))?;
        self.stream.read(bytes)
    }
}

fn answer(stream: Stream, metrics: &Metrics) -> io::Result<()> {
    let mut writer = stream.try_clone()?;
    let head = Until { stream, end: Instant::now() + PATIENCE };
    let mut reader = BufReader::new(head.take(MOST));
    let mut line = String::new();
    reader.read_line(&mut line)?;
    let reply = reply(&line, metrics);
    // Unread bytes of a request would reset the connection before the answer is read.
    while !matches!(line.as_str(), "" | "\n" | "\r\n") {
        line.clear();
        reader.read_line(&mut line)?;
    }
    writer.write_all(reply.as_bytes())
}

fn reply(line: &str, metrics: &Metrics) -> String {
    let (status, body) = match line.split(' ').collect::<Vec<_>>()[..] {
        ["GET", "/metrics", ..] => ("200 OK", metrics.text()),
        ["GET", "/report", ..] => ("200 OK", metrics.report()),
        ["GET", ..] => ("404 Not Found", "the paths are /metrics and /report\n".to_string()),
        _ => ("405 Method Not Allowed", "only GET\n".to_string()),
    };
    let kind = "text/plain; version=0.0.4; charset=utf-8";
    format!("HTTP/1.1 {status}\r\nContent-Type: {kind}\r\nContent-Length: {}\r\nConnection: close\r\n\r\n{body}", body.len())
}

#[cfg(test)]
mod tests {
    use super::*;

    #[test]
    fn paths_have_their_texts() {
        let metrics = Metrics::new(100, std::iter::empty());
        assert!(reply("GET /metrics HTTP/1.1\r\n", &metrics).contains("yieldcleat_disk_full 0"));
        assert!(reply("GET /report HTTP/1.1\r\n", &metrics).starts_with("HTTP/1.1 200 OK\r\n"));
        assert!(reply("GET / HTTP/1.1\r\n", &metrics).starts_with("HTTP/1.1 404 "));
        assert!(reply("POST /metrics HTTP/1.1\r\n", &metrics).starts_with("HTTP/1.1 405 "));
        assert!(reply("", &metrics).starts_with("HTTP/1.1 405 "));
    }
}

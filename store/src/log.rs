//! The server's log: lines on standard error. One thread writes them, so no other thread waits for the reader of standard error.

use std::fmt::Arguments;
use std::io::{self, Write};
use std::sync::mpsc::{sync_channel, SyncSender};
use std::sync::OnceLock;
use std::thread::Builder;
use std::time::Duration;

/// The greatest number of lines that wait for the thread.
const LINES: usize = 256;
/// How long the end of the program waits for these lines to be written.
const GRACE: Duration = Duration::from_secs(1);

enum Message {
    Line(String),
    /// Requests a reply once all earlier lines are written.
    End(SyncSender<()>),
}

static THREAD: OnceLock<SyncSender<Message>> = OnceLock::new();

/// Starts the thread. Before that, `say` writes each line itself.
pub fn start() -> io::Result<()> {
    let (sender, messages) = sync_channel(LINES);
    Builder::new().name("log".into()).spawn(move || {
        for message in messages {
            match message {
                Message::Line(line) => write(&line),
                // An error means that `end` has timed out.
                Message::End(sender) => drop(sender.send(())),
            }
        }
    })?;
    // An error means that there is a thread already.
    let _ = THREAD.set(sender);
    Ok(())
}

/// Writes a line to the log. If `LINES` lines wait already, the line is dropped.
pub fn say(what: Arguments) {
    let line = format!("yieldcleat-store: {what}\n");
    match THREAD.get() {
        Some(thread) => drop(thread.try_send(Message::Line(line))),
        None => write(&line),
    }
}

/// Waits until the lines are written, at most `GRACE`. If `LINES` lines wait, it returns at once.
pub fn end() {
    let (sender, done) = sync_channel(1);
    let is_sent = THREAD.get().is_some_and(|thread| thread.try_send(Message::End(sender)).is_ok());
    if is_sent {
        // An error means that `GRACE` has passed.
        let _ = done.recv_timeout(GRACE);
    }
}

fn write(line: &str) {
    // A log that cannot be written does not stop the server.
    let _ = io::stderr().write_all(line.as_bytes());
}

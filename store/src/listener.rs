//! Listening sockets.

use std::fs;
use std::io::{self, ErrorKind};
use std::net::{TcpListener, TcpStream};
use std::os::unix::fs::FileTypeExt;
use std::os::unix::net::{UnixListener, UnixStream};
use std::path::{Path, PathBuf};
use std::thread;
use std::time::Duration;
use yieldcleat_client::{Address, Stream};

/// The stack size of a connection's thread, in bytes.
pub const STACK: usize = 1 << 18;
/// The pause after an error that may pass.
const PAUSE: Duration = Duration::from_millis(50);
/// The number of such errors in a row that is logged.
const MANY: u32 = 20;

/// A listening socket.
pub enum Listener {
    Unix(UnixListener, PathBuf),
    Tcp(TcpListener),
}

impl Listener {
    /// Listens at an address. A Unix socket without a listening process is replaced.
    pub fn bind(address: &Address) -> io::Result<Listener> {
        match address {
            Address::Unix(path) => {
                remove_stale(path)?;
                Ok(Listener::Unix(UnixListener::bind(path)?, path.clone()))
            }
            Address::Tcp(text) => TcpListener::bind(text.as_str()).map(Listener::Tcp),
        }
    }

    /// Returns the address, with the port that the system chose for port 0.
    pub fn address(&self) -> String {
        match self {
            Listener::Unix(_, path) => format!("unix:{}", path.display()),
            Listener::Tcp(listener) => listener.local_addr().map_or_else(|error| error.to_string(), |it| it.to_string()),
        }
    }

    /// Removes the file of a Unix socket when the server ends.
    pub fn remove(&self) {
        if let Listener::Unix(_, path) = self {
            // After an error the next start replaces the socket.
            let _ = fs::remove_file(path);
        }
    }

    /// Waits for the next connection. After an error of a client or of the system, such as too many open files, it pauses and tries again.
    ///
    /// Errors: those of the socket itself, which can accept no further connection.
    pub fn accept(&self) -> io::Result<Stream> {
        let mut errors = 0;
        loop {
            let accepted = match self {
                Listener::Unix(listener, _) => listener.accept().map(|it| Stream::Unix(it.0)),
                Listener::Tcp(listener) => listener.accept().map(|it| prompt(it.0)),
            };
            match accepted {
                Err(error) if !is_of_socket(&error) => {
                    errors += 1;
                    if errors == MANY {
                        crate::say(format_args!("warning: cannot accept connections at {} for now: {error}", self.address()));
                    }
                    thread::sleep(PAUSE);
                }
                other => return other,
            }
        }
    }
}

/// Returns whether an error means that the socket does not listen, so each later `accept` fails too.
fn is_of_socket(error: &io::Error) -> bool {
    const BAD_FILE: i32 = 9;
    const BAD_ADDRESS: i32 = 14;
    const NOT_LISTENING: i32 = 22;
    const NO_SOCKET: i32 = 88;
    matches!(error.raw_os_error(), Some(BAD_FILE | BAD_ADDRESS | NOT_LISTENING | NO_SOCKET))
}

/// Makes a connection whose answers do not wait for one another. If the system refuses that, they do.
fn prompt(stream: TcpStream) -> Stream {
    let _ = stream.set_nodelay(true);
    Stream::Tcp(stream)
}

/// Removes the socket of a process that was killed. Any other file stays, and `bind` fails.
fn remove_stale(path: &Path) -> io::Result<()> {
    let is_socket = fs::symlink_metadata(path).is_ok_and(|it| it.file_type().is_socket());
    match is_socket.then(|| UnixStream::connect(path)) {
        Some(Err(error)) if error.kind() == ErrorKind::ConnectionRefused => fs::remove_file(path),
        _ => Ok(()),
    }
}

#[cfg(test)]
mod tests {
    use super::*;

    #[test]
    fn only_errors_of_the_socket_end_it() {
        let is_of_socket = |number| is_of_socket(&io::Error::from_raw_os_error(number));
        assert!([9, 14, 22, 88].into_iter().all(is_of_socket));
        // EPERM, EINTR, ENOMEM, ENFILE, EMFILE, EPROTO, ENETDOWN, ECONNABORTED, ENOBUFS, ETIMEDOUT.
        assert!(![1, 4, 12, 23, 24, 71, 100, 103, 105, 110].into_iter().any(is_of_socket));
    }

    #[test]
    fn a_stale_socket_is_replaced_and_no_other_file() {
        let folder = std::env::temp_dir().join(format!("yieldcleat-listener-{}", std::process::id()));
        let _ = fs::remove_dir_all(&folder);
        fs::create_dir(&folder).unwrap();
        let path = folder.join("node.sock");
        drop(UnixListener::bind(&path).unwrap());
        let address = Address::Unix(path.clone());
        let listener = Listener::bind(&address).unwrap();
        assert!(Listener::bind(&address).is_err(), "somebody listens");
        listener.remove();
        assert!(!path.exists());
        fs::write(&path, "a file").unwrap();
        assert!(Listener::bind(&address).is_err());
        assert_eq!(fs::read(&path).unwrap(), b"a file");
        fs::remove_dir_all(&folder).unwrap();
    }
}

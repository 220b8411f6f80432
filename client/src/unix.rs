//! Connections to Unix sockets with a timeout. The standard library's call blocks while the server's queue of pending connections is full,
//! so this file calls the C library.

use std::io::{self, ErrorKind};
use std::os::fd::{AsRawFd, FromRawFd};
use std::os::unix::ffi::OsStrExt;
use std::os::unix::net::UnixStream;
use std::path::Path;
use std::time::{Duration, Instant};

const UNIX: u16 = 1;
/// A stream socket, which closes when the process executes another program.
const STREAM: i32 = 0o2000001;

/// The name of a Unix socket as the C library defines it on Linux: a zero byte ends the path.
#[repr(C)]
struct Name {
    family: u16,
    path: [u8; 108],
}

extern "C" {
    fn socket(domain: i32, kind: i32, protocol: i32) -> i32;
    fn connect(socket: i32, name: *const Name, length: u32) -> i32;
}

impl Name {
    fn of(path: &Path) -> io::Result<Name> {
        let (bytes, mut name) = (path.as_os_str().as_bytes(), Name { family: UNIX, path: [0; 108] });
        if bytes.is_empty() || bytes.contains(&0) || bytes.len() >= name.path.len() {
            return Err(ErrorKind::InvalidInput.into());
        }
        name.path[..bytes.len()].copy_from_slice(bytes);
        Ok(name)
    }
}

/// Connects to a socket. `patience` is the timeout, at least a millisecond.
///
/// Errors: `TimedOut` if the server's queue of pending connections stays full, `InvalidInput` for a path that is not a name, and those of
/// the system.
pub fn connect_within(path: &Path, patience: Duration) -> io::Result<UnixStream> {
    let (name, patience, begun) = (Name::of(path)?, patience.max(Duration::from_millis(1)), Instant::now());
    // SAFETY: all arguments are numbers.
    let descriptor = unsafe { socket(UNIX.into(), STREAM, 0) };
    if descriptor < 0 {
        return Err(io::Error::last_os_error());
    }
    // SAFETY: the descriptor is open, and nothing else owns it.
    let stream = unsafe { UnixStream::from_raw_fd(descriptor) };
    // The timeout for writes also limits `connect`.
    stream.set_write_timeout(Some(patience))?;
    // SAFETY: the name is valid for reads of its length, and the descriptor stays open.
    while unsafe { connect(stream.as_raw_fd(), &name, size_of::<Name>() as u32) } != 0 {
        let error = io::Error::last_os_error();
        match error.kind() {
            ErrorKind::Interrupted if begun.elapsed() < patience => {}
            ErrorKind::Interrupted | ErrorKind::WouldBlock => return Err(ErrorKind::TimedOut.into()),
            _ => return Err(error),
        }
    }
    stream.set_write_timeout(None)?;
    Ok(stream)
}

#[cfg(test)]
mod tests {
    use super::*;
    use std::io::{Read, Write};
    use std::os::unix::net::UnixListener;
    use std::{env, fs, process};

    extern "C" {
        fn listen(socket: i32, waiting: i32) -> i32;
    }

    #[test]
    fn a_server_that_takes_no_connections_is_given_up() {
        let path = env::temp_dir().join(format!("yieldcleat-unix-{}", process::id()));
        let _ = fs::remove_file(&path);
        let listener = UnixListener::bind(&path).unwrap();
        // SAFETY: the descriptor is open.
        assert_eq!(unsafe { listen(listener.as_raw_fd(), 0) }, 0);
        let mut first = connect_within(&path, Duration::from_secs(5)).unwrap();
        let begun = Instant::now();
        let second = connect_within(&path, Duration::from_millis(100)).map_err(|error| error.kind());
        assert_eq!(second.err(), Some(ErrorKind::TimedOut));
        assert!(begun.elapsed() >= Duration::from_millis(100) && begun.elapsed() < Duration::from_secs(3));
        let mut taken = listener.accept().unwrap().0;
        first.write_all(b"x").unwrap();
        taken.read_exact(&mut [0]).unwrap();
        fs::remove_file(&path).unwrap();
    }

    #[test]
    fn what_is_no_name() {
        let long = "x".repeat(108);
        for path in ["", "a\0b", &long] {
            let connected = connect_within(Path::new(path), Duration::from_secs(1));
            assert_eq!(connected.err().map(|error| error.kind()), Some(ErrorKind::InvalidInput));
        }
        let nobody = connect_within(Path::new(&long[1..]), Duration::from_secs(1));
        assert_eq!(nobody.err().map(|error| error.kind()), Some(ErrorKind::NotFound));
    }
}

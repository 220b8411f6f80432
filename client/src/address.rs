//! The address at which a node listens.

use std::fmt;
use std::path::PathBuf;
use std::str::FromStr;

/// A Unix socket, written `unix:PATH`, or a TCP port, written `HOST:PORT`.
#[derive(Debug, Clone, PartialEq, Eq, Hash)]
pub enum Address {
    Unix(PathBuf),
    /// The host's name or number and its port, as `ToSocketAddrs` reads them.
    Tcp(String),
}

/// The error for a text that is not an address.
#[derive(Debug, Clone, PartialEq, Eq)]
pub struct BadAddress(String);

impl fmt::Display for BadAddress {
    fn fmt(&self, f: &mut fmt::Formatter<'_>) -> fmt::Result {
        write!(f, "`{}` is not an address: write unix:PATH or HOST:PORT", self.0)
    }
}

impl std::error::Error for BadAddress {}

impl FromStr for Address {
    type Err = BadAddress;

    fn from_str(text: &str) -> Result<Address, BadAddress> {
        let bad = || BadAddress(text.to_string());
        if let Some(path) = text.strip_prefix("unix:") {
            return if path.is_empty() { Err(bad()) } else { Ok(Address::Unix(path.into())) };
        }
        let (host, port) = text.rsplit_once(':').ok_or_else(bad)?;
        port.parse::<u16>().map_err(|_| bad())?;
        if host.is_empty() {
            Err(bad())
        } else {
            Ok(Address::Tcp(text.to_string()))
        }
    }
}

impl fmt::Display for Address {
    fn fmt(&self, f: &mut fmt::Formatter<'_>) -> fmt::Result {
        match self {
            Address::Unix(path) => write!(f, "unix:{}", path.display()),
            Address::Tcp(text) => f.write_str(text),
        }
    }
}

#[cfg(test)]
mod tests {
    use super::*;

    #[test]
    fn addresses_are_read_and_written() {
        for text in ["unix:/run/node.sock", "unix:node", "127.0.0.1:7000", "[::1]:7000", "store-3.example:0"] {
            assert_eq!(text.parse::<Address>().unwrap().to_string(), text);
        }
        for text in ["", "unix:", "7000", ":7000", "host:", "host:70000", "host:7x", "/run/node.sock"] {
            assert_eq!(text.parse::<Address>(), Err(BadAddress(text.into())));
        }
    }
}

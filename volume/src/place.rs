//! The file that lists the nodes of a volume.

use crate::options::{BadOptions, Options};
use std::path::Path;
use std::{fmt, fs, io};
use yieldcleat_client::{Address, BadAddress};

/// Why a file does not describe a volume.
#[derive(Debug)]
pub enum BadPlace {
    Io(io::Error),
    /// A line that is not an address, `quorum W` or a comment.
    Line {
        line: usize,
        why: BadAddress,
    },
    /// A quorum that is not a number.
    Quorum {
        line: usize,
    },
    Options(BadOptions),
}

impl fmt::Display for BadPlace {
    fn fmt(&self, f: &mut fmt::Formatter<'_>) -> fmt::Result {
        match self {
            BadPlace::Io(error) => write!(f, "{error}"),
            BadPlace::Line { line, why } => write!(f, "line {line}: {why}"),
            BadPlace::Quorum { line } => write!(f, "line {line}: a quorum is a number of nodes"),
            BadPlace::Options(bad) => write!(f, "{bad}"),
        }
    }
}

impl std::error::Error for BadPlace {}

impl Options {
    /// Reads the volume that a file describes. Each line is the address of a node, in the order of their numbers. A line `quorum W` sets
    /// the write quorum; empty lines and lines that begin with `#` are ignored.
    pub fn at(place: &Path) -> Result<Options, BadPlace> {
        Options::of_text(&fs::read_to_string(place).map_err(BadPlace::Io)?)
    }

    fn of_text(text: &str) -> Result<Options, BadPlace> {
        let (mut nodes, mut quorum) = (Vec::new(), None);
        for (place, line) in text.lines().map(str::trim).enumerate() {
            let line_number = place + 1;
            if line.is_empty() || line.starts_with('#') {
                continue;
            }
            match line.strip_prefix("quorum ") {
                Some(number) => quorum = Some(number.trim().parse().map_err(|_| BadPlace::Quorum { line: line_number })?),
                None => nodes.push(line.parse::<Address>().map_err(|why| BadPlace::Line { line: line_number, why })?),
            }
        }
        let mut options = Options::new(nodes);
        options.quorum = quorum.unwrap_or(options.quorum);
        options.check().map_err(BadPlace::Options)?;
        Ok(options)
    }
}

#[cfg(test)]
mod tests {
    use super::*;

    #[test]
    fn nodes_are_read() {
        let options = Options::of_text("# a volume\nunix:/run/1\n\n127.0.0.1:7000\nunix:/run/3\n").unwrap();
        assert_eq!((options.nodes.len(), options.quorum), (3, 2));
        let options = Options::of_text("unix:a\nunix:b\nunix:c\nquorum 3\n").unwrap();
        assert_eq!(options.quorum, 3);
    }

    #[test]
    fn what_names_no_volume() {
        for (text, why) in [
            ("", "0 nodes: a volume has 1 to 15"),
            ("unix:a\nnowhere\n", "line 2: `nowhere` is not an address: write unix:PATH or HOST:PORT"),
            ("unix:a\nquorum two\n", "line 2: a quorum is a number of nodes"),
            ("unix:a\nunix:b\nquorum 1\n", "1 of 2 nodes cannot be a write quorum"),
        ] {
            assert_eq!(Options::of_text(text).err().map(|bad| bad.to_string()), Some(why.to_string()));
        }
        assert!(matches!(Options::at(Path::new("/nowhere/at/all")), Err(BadPlace::Io(_))));
    }
}

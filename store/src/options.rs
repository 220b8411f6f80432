//! The command line.

use std::ffi::OsString;
use std::fmt;
use std::path::PathBuf;
use std::str::FromStr;
use std::time::Duration;
use yieldcleat_client::{frames, Address};

pub const HELP: &str = "\
usage: yieldcleat-store --data DIR --listen ADDR [OPTION VALUE]...

Serves one storage segment from the files in DIR. ADDR is unix:PATH or HOST:PORT.

  --data DIR             the files of this node; created if missing
  --listen ADDR          accept connections here; may be given several times
  --peer ADDR            gossip with the node at ADDR; may be given several times
  --metrics ADDR         answer HTTP requests for /metrics and /report here
  --readers R            readers of the log, 1 to 15, for a new DIR (1)
  --connections N        at most so many connections at a time (64)
  --frame-bytes N        at most so many bytes in a request (67108864)
  --memory-bytes N       at most so many bytes in memory of requests above 64 KiB (268435456)
  --queue N              at most so many requests wait for the segment (1024)
  --patience MS          how long a peer or a client may stall within a frame (30000); a
                         frame may take this long, and a second more for each megabyte
  --idle MS              how long a client may be silent between frames (3600000)
  --gossip-every MS      the pause between two rounds of gossip with a peer (200)
  --gossip-bytes N       at most so many bytes in a delta; above that, a snapshot (8000000)
  --fold-every MS        the pause between two slices of folding (50)
  --snapshot-after N     a snapshot replaces a log of at least so many bytes (67108864)
  --help, --version

Exit status: 0 stopped by SIGTERM or SIGINT, 2 bad command line, 3 DIR is in use,
4 a file cannot be read or written or is damaged, 5 the segment does not run,
6 it cannot listen on an address, or has lost one.
";

/// The options of the server.
#[derive(Debug, Clone, PartialEq, Eq)]
pub struct Options {
    pub data: PathBuf,
    pub listen: Vec<Address>,
    pub peers: Vec<Address>,
    pub metrics: Option<Address>,
    pub readers: u8,
    pub connections: usize,
    pub frame_bytes: u32,
    pub memory_bytes: usize,
    pub queue: usize,
    pub patience: Duration,
    pub idle: Duration,
    pub gossip_every: Duration,
    pub gossip_bytes: u32,
    pub fold_every: Duration,
    pub snapshot_after: u64,
}

/// The task that the command line requests.
#[derive(Debug, Clone, PartialEq, Eq)]
pub enum Command {
    Help,
    Version,
    Serve(Box<Options>),
}

/// Why a command line is invalid.
#[derive(Debug, Clone, PartialEq, Eq)]
pub enum BadOption {
    NoText(OsString),
    Unknown(String),
    NoValue(String),
    Twice(String),
    Missing(&'static str),
    Value { option: String, value: String, why: String },
}

impl fmt::Display for BadOption {
    fn fmt(&self, f: &mut fmt::Formatter<'_>) -> fmt::Result {
        match self {
            BadOption::NoText(word) => write!(f, "`{}` is not UTF-8", word.to_string_lossy()),
            BadOption::Unknown(word) => write!(f, "unknown option `{word}`"),
            BadOption::NoValue(option) => write!(f, "{option} needs a value"),
            BadOption::Twice(option) => write!(f, "{option} is given twice"),
            BadOption::Missing(option) => write!(f, "{option} is required"),
            BadOption::Value { option, value, why } => write!(f, "{option} cannot be `{value}`: {why}"),
        }
    }
}

/// The options as read, in order.
#[derive(Default)]
struct Given {
    values: Vec<(String, String)>,
}

const NAMES: [&str; 15] = [
    "--data",
    "--listen",
    "--peer",
    "--metrics",
    "--readers",
    "--connections",
    "--frame-bytes",
    "--memory-bytes",
    "--queue",
    "--patience",
    "--idle",
    "--gossip-every",
    "--gossip-bytes",
    "--fold-every",
    "--snapshot-after",
];
const REPEATED: [&str; 2] = ["--listen", "--peer"];

impl Given {
    fn read(words: impl Iterator<Item = String>) -> Result<Given, BadOption> {
        let (mut given, mut words) = (Given::default(), words);
        while let Some(word) = words.next() {
            let (name, inline) = match word.split_once('=') {
                Some((name, value)) => (name.to_string(), Some(value.to_string())),
                None => (word, None),
            };
            if !NAMES.contains(&name.as_str()) {
                return Err(BadOption::Unknown(name));
            }
            if !REPEATED.contains(&name.as_str()) && given.values.iter().any(|it| it.0 == name) {
                return Err(BadOption::Twice(name));
            }
            let value = inline.or_else(|| words.next()).ok_or_else(|| BadOption::NoValue(name.clone()))?;
            given.values.push((name, value));
        }
        Ok(given)
    }

    /// Returns the values of an option, each parsed as its type.
    fn all<T: FromStr<Err: fmt::Display>>(&self, option: &str) -> Result<Vec<T>, BadOption> {
        let read = |value: &String| {
            let bad = |why: T::Err| BadOption::Value { option: option.into(), value: value.clone(), why: why.to_string() };
            value.parse().map_err(bad)
        };
        self.values.iter().filter(|it| it.0 == option).map(|it| read(&it.1)).collect()
    }

    fn one<T: FromStr<Err: fmt::Display>>(&self, option: &str) -> Result<Option<T>, BadOption> {
        Ok(self.all(option)?.pop())
    }

    /// Returns a number within a range, or its default.
    fn number(&self, option: &str, default: u64, least: u64, most: u64) -> Result<u64, BadOption> {
        let number = self.one(option)?.unwrap_or(default);
        if (least..=most).contains(&number) {
            Ok(number)
        } else {
            Err(BadOption::Value { option: option.into(), value: number.to_string(), why: format!("it must be {least} to {most}") })
        }
    }

    fn milliseconds(&self, option: &str, default: u64) -> Result<Duration, BadOption> {
        self.number(option, default, 1, 86_400_000).map(Duration::from_millis)
    }
}

impl Command {
    /// Parses the words after the program's name, as the system passes them.
    pub fn of_system(words: impl Iterator<Item = OsString>) -> Result<Command, BadOption> {
        let words: Result<Vec<String>, OsString> = words.map(OsString::into_string).collect();
        Command::read(words.map_err(BadOption::NoText)?.into_iter())
    }

    /// Parses the words after the program's name.
    pub fn read(words: impl Iterator<Item = String>) -> Result<Command, BadOption> {
        let words: Vec<String> = words.collect();
        if words.iter().any(|word| word == "--help" || word == "-h") {
            return Ok(Command::Help);
        }
        if words.iter().any(|word| word == "--version" || word == "-V") {
            return Ok(Command::Version);
        }
        let given = Given::read(words.into_iter())?;
        let longest = u64::from(frames::LONGEST);
        let options = Options {
            data: given.one("--data")?.ok_or(BadOption::Missing("--data"))?,
            listen: given.all("--listen")?,
            peers: given.all("--peer")?,
            metrics: given.one("--metrics")?,
            readers: given.number("--readers", 1, 1, 15)? as u8,
            connections: given.number("--connections", 64, 1, 100_000)? as usize,
            frame_bytes: given.number("--frame-bytes", longest, 64, longest)? as u32,
            memory_bytes: given.number("--memory-bytes", 4 * longest, 4096, 1 << 40)? as usize,
            queue: given.number("--queue", 1024, 1, 1 << 20)? as usize,
            patience: given.milliseconds("--patience", 30_000)?,
            idle: given.milliseconds("--idle", 3_600_000)?,
            gossip_every: given.milliseconds("--gossip-every", 200)?,
            gossip_bytes: given.number("--gossip-bytes", 8_000_000, 64, longest - 65_536)? as u32,
            fold_every: given.milliseconds("--fold-every", 50)?,
            snapshot_after: given.number("--snapshot-after", longest, 4096, 1 << 50)?,
        };
        if options.listen.is_empty() {
            return Err(BadOption::Missing("--listen"));
        }
        Ok(Command::Serve(Box::new(options)))
    }
}

#[cfg(test)]
mod tests {
    use super::*;
    use std::os::unix::ffi::OsStringExt;

    fn read(line: &str) -> Result<Command, BadOption> {
        Command::read(line.split_whitespace().map(String::from))
    }

    #[test]
    fn options_are_read() {
        let line = "--data d --listen unix:a --listen=127.0.0.1:0 --peer unix:b --readers 3 --gossip-every 7 --metrics 127.0.0.1:9";
        let Ok(Command::Serve(options)) = read(line) else { panic!("{line}") };
        assert_eq!((options.listen.len(), options.peers.len(), options.readers), (2, 1, 3));
        assert_eq!((options.gossip_every, options.queue), (Duration::from_millis(7), 1024));
        assert_eq!(read("--data x --help"), Ok(Command::Help));
        assert_eq!(read("-V"), Ok(Command::Version));
    }

    #[test]
    fn bad_options_are_named() {
        assert_eq!(read(""), Err(BadOption::Missing("--data")));
        assert_eq!(read("--data d"), Err(BadOption::Missing("--listen")));
        assert_eq!(read("--data d --data e"), Err(BadOption::Twice("--data".into())));
        assert_eq!(read("--data d --dta e"), Err(BadOption::Unknown("--dta".into())));
        assert_eq!(read("--data d --listen"), Err(BadOption::NoValue("--listen".into())));
        for value in ["0", "16", "x", "-1", "99999999999999999999"] {
            let line = format!("--data d --listen unix:a --readers {value}");
            assert!(matches!(read(&line), Err(BadOption::Value { .. })), "{line}");
        }
        assert!(matches!(read("--data d --listen nowhere"), Err(BadOption::Value { .. })));
        let word = OsString::from_vec(b"d\xff".to_vec());
        assert_eq!(Command::of_system(["--data".into(), word.clone()].into_iter()), Err(BadOption::NoText(word)));
    }

    #[test]
    fn the_help_names_each_option() {
        NAMES.iter().for_each(|name| assert!(HELP.contains(name), "{name}"));
    }
}

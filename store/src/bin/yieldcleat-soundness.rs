//! `yieldcleat-soundness`: checks that the facts in the request logs of some stores are a sound log.
//!
//! No node notices an engine that breaks a law of redo logs: each takes what it is sent. This program collects the facts that the nodes
//! took, and gives them to the proved checker, `fleet check`.

#![deny(unsafe_code)]

use std::collections::BTreeSet;
use std::io::{self, Write};
use std::path::{Path, PathBuf};
use std::process::{Command, ExitCode, Output, Stdio};
use std::{env, fmt, thread};
use yieldcleat::{read_log, requests, StoreError};

const HELP: &str = "\
usage: yieldcleat-soundness [--fleet PROGRAM] DIR...

Checks with `fleet check` that the facts in the request logs of these stores are a sound log, which
means that the database that wrote them kept the laws of redo logs. DIR is the --data of a stopped
store. The answer is that of `fleet check --explain` for the facts in the order of epochs and LSNs.

  --fleet PROGRAM        the program `fleet` (./fleet)
  --print                print the facts instead of checking them
  --help

A log that begins after a snapshot lacks the facts before it. Give the stores of a test a large
--snapshot-after.

Exit status: 0 sound, 2 bad command line, 3 unsound, 4 a file or a program fails.
";

/// The options of the command line.
struct Options {
    fleet: PathBuf,
    prints: bool,
    folders: Vec<PathBuf>,
}

/// Why there is no answer.
#[derive(Debug)]
enum Failure {
    CommandLine(String),
    Store(StoreError),
    /// Two logs are of segments with different numbers of readers.
    Readers(u64, u64),
    Program(PathBuf, io::Error),
    /// The program ended with a status that is not one of its answers.
    Status(PathBuf, String),
    Output(io::Error),
}

impl fmt::Display for Failure {
    fn fmt(&self, f: &mut fmt::Formatter<'_>) -> fmt::Result {
        match self {
            Failure::CommandLine(why) => write!(f, "{why}; --help shows the options"),
            Failure::Store(error) => write!(f, "{error}"),
            Failure::Readers(one, other) => write!(f, "the logs have {one} and {other} readers"),
            Failure::Program(program, error) => write!(f, "{}: {error}", program.display()),
            Failure::Status(program, status) => write!(f, "{} ends with {status}", program.display()),
            Failure::Output(error) => write!(f, "output failed: {error}"),
        }
    }
}

/// The facts of all logs, each once, in hexadecimal digits, and the number of readers.
#[derive(Default)]
struct Facts {
    digits: BTreeSet<String>,
    readers: Option<u64>,
}

impl Facts {
    /// Adds the facts of a store's log. Returns false if the log begins after a snapshot.
    fn add_log(&mut self, folder: &Path) -> Result<bool, Failure> {
        let mut differing = None;
        let is_whole = read_log(folder, |request| differing = differing.or(self.add(request))).map_err(Failure::Store)?;
        match differing {
            Some((one, other)) => Err(Failure::Readers(one, other)),
            None => Ok(is_whole),
        }
    }

    /// Adds the fact or the number of readers in a request. Returns both numbers of readers if they differ.
    fn add(&mut self, request: &[u8]) -> Option<(u64, u64)> {
        // An engine's takes name its generation first.
        if let Some(fact) = requests::heading(request).1.strip_prefix(b"take ") {
            self.digits.insert(fact.iter().map(|byte| format!("{byte:02x}")).collect());
        }
        let opened = std::str::from_utf8(request.strip_prefix(b"open ")?).ok()?.parse().ok()?;
        let readers = *self.readers.get_or_insert(opened);
        (readers != opened).then_some((readers, opened))
    }

    /// Returns the text for `fleet check`.
    fn text(&self, fleet: &Path) -> Result<String, Failure> {
        let capture = self.digits.iter().fold(String::new(), |text, digits| text + digits + "\n");
        let inspected = run(fleet, &["inspect"], capture)?;
        if !inspected.status.success() {
            return Err(Failure::Status(fleet.to_path_buf(), inspected.status.to_string()));
        }
        let lines = String::from_utf8_lossy(&inspected.stdout).into_owned();
        let mut lines: Vec<_> = lines.lines().collect();
        lines.sort_by_key(|line| place(line));
        let roster = self.readers.filter(|readers| *readers > 1).map(|readers| format!("roster {readers}"));
        let lines = roster.iter().map(String::as_str).chain(lines);
        Ok(lines.fold(String::new(), |text, line| text + line + "\n"))
    }
}

/// Returns the position of a fact line in the log: by epoch, and in an epoch the truncation, the records by LSN, and the advances.
fn place(line: &str) -> (u64, u8, u64) {
    let words: Vec<_> = line.split(' ').collect();
    let number = |place: usize| words.get(place).and_then(|word| word.parse().ok()).unwrap_or(0);
    match words[0] {
        "cut" => (number(1), 0, 0),
        "rec" => (number(1), 1, number(2)),
        _ => (number(1), 2, number(2)),
    }
}

/// Runs `fleet` with an input and returns its output. It inherits standard error.
fn run(fleet: &Path, words: &[&str], input: String) -> Result<Output, Failure> {
    let failure = |error| Failure::Program(fleet.to_path_buf(), error);
    let mut command = Command::new(fleet);
    let mut child = command.args(words).stdin(Stdio::piped()).stdout(Stdio::piped()).spawn().map_err(failure)?;
    let stdin = child.stdin.take();
    // A program that ends early reads no more; its status is the reason.
    let writer = thread::spawn(move || stdin.map(|mut stdin| stdin.write_all(input.as_bytes())));
    let output = child.wait_with_output().map_err(failure)?;
    // The result of the writer does not matter, and it does not panic.
    let _ = writer.join();
    Ok(output)
}

fn read_options(words: impl Iterator<Item = String>) -> Result<Option<Options>, Failure> {
    let mut options = Options { fleet: PathBuf::from("./fleet"), prints: false, folders: Vec::new() };
    let mut words = words;
    while let Some(word) = words.next() {
        match word.as_str() {
            "--help" => return Ok(None),
            "--print" => options.prints = true,
            "--fleet" => options.fleet = words.next().ok_or_else(|| Failure::CommandLine("--fleet needs a value".into()))?.into(),
            option if option.starts_with("--") => return Err(Failure::CommandLine(format!("unknown option `{option}`"))),
            _ => options.folders.push(word.into()),
        }
    }
    if options.folders.is_empty() {
        return Err(Failure::CommandLine("a folder is needed".into()));
    }
    Ok(Some(options))
}

/// Returns the exit status of the program.
fn answer(options: &Options) -> Result<ExitCode, Failure> {
    let mut facts = Facts::default();
    for folder in &options.folders {
        if !facts.add_log(folder)? {
            say(&format!("{}: its log begins after a snapshot, and the facts before it are missing", folder.display()));
        }
    }
    let text = facts.text(&options.fleet)?;
    if options.prints {
        print(text.as_bytes())?;
        return Ok(ExitCode::SUCCESS);
    }
    let checked = run(&options.fleet, &["check", "--explain"], text)?;
    print(&checked.stdout)?;
    match checked.status.code() {
        Some(0) => Ok(ExitCode::SUCCESS),
        Some(3) => Ok(ExitCode::from(3)),
        _ => Err(Failure::Status(options.fleet.clone(), checked.status.to_string())),
    }
}

fn print(bytes: &[u8]) -> Result<(), Failure> {
    io::stdout().write_all(bytes).map_err(Failure::Output)
}

fn say(what: &str) {
    // A message that cannot be written changes no answer.
    let _ = writeln!(io::stderr(), "yieldcleat-soundness: {what}");
}

fn main() -> ExitCode {
    let answered = match read_options(env::args().skip(1)) {
        Ok(Some(options)) => answer(&options),
        Ok(None) => print(HELP.as_bytes()).map(|()| ExitCode::SUCCESS),
        Err(failure) => Err(failure),
    };
    answered.unwrap_or_else(|failure| {
        say(&failure.to_string());
        ExitCode::from(if matches!(failure, Failure::CommandLine(_)) { 2 } else { 4 })
    })
}

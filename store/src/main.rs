//! `yieldcleat-store`: one proved storage segment as a server.
//!
//! The segment is the archive of `crates/node_c`; nothing in this package is proved. `engine` owns the segment and its files, `session` and
//! `listener` receive requests, `gossip` fetches what the segment lacks, and `housekeeping` folds and makes snapshots. `docs/OPERATING.md`
//! is for operators.

#![deny(unsafe_code)]

mod budget;
mod engine;
mod gate;
mod gossip;
mod histogram;
mod housekeeping;
mod http;
mod listener;
mod log;
mod metrics;
mod options;
mod server;
mod session;
#[allow(unsafe_code)]
mod signals;
mod snapshots;

use log::say;
use options::{Command, HELP};
use std::io::{self, Write};
use std::process::ExitCode;

fn main() -> ExitCode {
    let status = status();
    log::end();
    status
}

/// Runs the program, and returns its exit status.
fn status() -> ExitCode {
    match Command::of_system(std::env::args_os().skip(1)) {
        Ok(Command::Help) => print(HELP),
        Ok(Command::Version) => print(concat!("yieldcleat-store ", env!("CARGO_PKG_VERSION"), "\n")),
        Ok(Command::Serve(options)) => match server::run(&options) {
            Ok(()) => ExitCode::SUCCESS,
            Err(failure) => {
                say(format_args!("error: {failure}"));
                ExitCode::from(failure.status())
            }
        },
        Err(bad) => {
            say(format_args!("error: {bad}; --help shows the options"));
            ExitCode::from(2)
        }
    }
}

fn print(text: &str) -> ExitCode {
    match io::stdout().write_all(text.as_bytes()) {
        Ok(()) => ExitCode::SUCCESS,
        Err(_) => ExitCode::from(4),
    }
}

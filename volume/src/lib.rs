//! A volume of N storage nodes. One engine writes mini-transactions to it, and each is durable once a write quorum of the nodes stores it.
//!
//! [`Volume`] is the engine's handle, for many threads; [`Reader`] is the handle of a process that only reads. A [`Machine`] decides who
//! may write, what the last commit is and what is durable, one step for each event; it has no clock, socket or thread. This package
//! provides them: a thread for each node, which connects, sends and reads, and a thread that steps the machine. Nothing in this package is
//! proved.

#![deny(unsafe_code)]

mod driver;
mod errors;
mod framed;
mod known;
mod link;
mod machine;
mod newest;
mod nodes;
mod options;
mod page_zero;
mod panel;
mod peer;
mod place;
mod progress;
mod reader;
mod reading;
mod reopening;
mod spreading;
mod standing;
mod volume;

pub use errors::{Quorum, VolumeError};
pub use framed::Framed;
pub use known::Known;
pub use machine::{Action, Event, Fault, Machine, OutOfMemory};
pub use options::{BadOptions, Options};
pub use page_zero::{PageZero, MOST_HEADER};
pub use place::BadPlace;
pub use progress::Standing;
pub use reader::Reader;
pub use volume::{PageWrite, Volume};

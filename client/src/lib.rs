//! Facts, requests, answers, frames and connections: what a database needs to use a storage segment.
//!
//! It depends on the standard library alone and links no archive. [`Calls`] has the calls of a segment. A [`Connection`] carries them over
//! a socket; the `Node` of `embedding/` carries them to a segment inside the process.
//!
//! ```no_run
//! use yieldcleat_client::{Calls, Connection, Limits, Patch, Record};
//!
//! # fn main() -> Result<(), Box<dyn std::error::Error>> {
//! let mut node = Connection::open(&"unix:/run/yieldcleat/1.sock".parse()?, Limits::default())?;
//! let record = Record { epoch: 0, number: 3, back: 0, page: 7, block_back: 0, begins_anew: false, patches: vec![Patch::write(0, b"aa")] };
//! let is_stored = node.store([record.encode()?.as_slice()], record.key())?;
//! assert!(is_stored, "the record is on the disk of the node");
//! # Ok(())
//! # }
//! ```

#![deny(unsafe_code)]

mod address;
pub mod answers;
mod calls;
mod connection;
pub mod engines;
mod errors;
mod facts;
pub mod frames;
pub mod requests;
#[allow(unsafe_code)]
pub mod signals;
mod stream;
#[allow(unsafe_code)]
mod unix;

pub use address::{Address, BadAddress};
pub use answers::{Front, Gap, Held, Key, State, Taken};
pub use calls::{Calls, MOST};
pub use connection::{Connection, Limits};
pub use engines::{Accepted, Admission, Declined, EngineCalls, Fenced, Membership, Name};
pub use errors::{Error, ReadFault, Refused, SnapshotFault, StagingFault, Status, Uncovered, WireFault};
pub use facts::{Advance, Fact, Patch, Record, Shape, Truncation, MOST_NUMBER, PAGE_LEN};
pub use stream::Stream;

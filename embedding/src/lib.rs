//! One proved storage segment inside a Rust server.
//!
//! A [`Node`] is a segment on a thread of its own, connected by a pair of pipes. The segment is the archive of the crate `node_c`, which is
//! proved down to its two descriptors; this package is not proved. The package `client` defines requests and answers, and this package
//! exports its names.
//!
//! ```no_run
//! use yieldcleat::{Advance, Calls, Node, Patch, Record};
//!
//! # fn main() -> Result<(), Box<dyn std::error::Error>> {
//! let mut node = Node::open(1)?;
//! let record = Record { epoch: 0, number: 3, back: 0, page: 7, block_back: 0, begins_anew: false, patches: vec![Patch::write(0, b"aa")] };
//! node.take(&record.encode()?)?;
//! node.take(&Advance { epoch: 0, reader: 1, point: 3 }.encode()?)?;
//! assert_eq!(node.front()?.complete, 3);
//! assert_eq!(node.read(7, 3, 0, 4)?, b"aa\0\0");
//! # Ok(())
//! # }
//! ```
//!
//! A node lives in memory. A [`Store`] is a node that survives a crash: it writes the requests that changed the node to a file before it
//! returns their answers. `src/bin/durable.rs` is a server with a store.

mod crc32c;
mod node;
mod store;

pub use node::Node;
pub use store::{birth, read_log, Activity, Home, Recovery, Store, StoreError};
pub use yieldcleat_client::{engines, Accepted, Admission, Declined, EngineCalls, Fenced, Membership, Name};
pub use yieldcleat_client::{frames, requests, Calls, Error, Front, Gap, Held, Key, State, Taken};
pub use yieldcleat_client::{Advance, Fact, Patch, Record, Shape, Truncation, MOST_NUMBER, PAGE_LEN};
pub use yieldcleat_client::{ReadFault, Refused, SnapshotFault, StagingFault, Status, Uncovered, WireFault};

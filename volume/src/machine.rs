//! The events of a volume, and the actions that a deciding machine returns for them.

use std::fmt;
use yieldcleat_client::Patch;

/// An event of a volume. Nodes are numbered from 0.
#[derive(Debug, Clone, PartialEq, Eq)]
pub enum Event<'a> {
    /// Create a volume of nodes that are all fresh.
    Create,
    /// Open the volume under a generation, which must be above that of each earlier engine.
    Open { generation: u64 },
    /// Patch a page above page 0, within its first 4,088 bytes. With `init` the page is all zeros before the patches.
    Write { page: u16, init: bool, patches: &'a [Patch] },
    /// End the mini-transaction, with up to 1,024 bytes of the engine's own.
    Commit { header: &'a [u8] },
    /// Advance a reader: it reads nothing below the point.
    Advance { reader: u8, point: u64 },
    /// A node answered a request: the contents of both frames.
    Answered { node: u8, request: &'a [u8], answer: &'a [u8] },
    /// There is a new connection to a node. Whether it has executed the requests of the connection before is unknown.
    Failed { node: u8 },
}

/// A consequence of an event.
#[derive(Debug, Clone, PartialEq, Eq)]
pub enum Action {
    /// Send a request, the contents of its frame. Requests to one node must be sent in this order.
    Ask { node: u8, request: Vec<u8> },
    /// All nodes are members of a new volume, which an engine may open.
    Created,
    /// The volume is open. Everything up to the commit point is durable, and the header is that of its last commit.
    Opened { epoch: u16, commit_point: u64, header: Vec<u8> },
    /// The mini-transaction that the event ends has this commit point. It is not durable yet.
    Committed { commit_point: u64 },
    /// Everything up to the commit point is durable.
    Durable { commit_point: u64 },
    /// The event is refused, or an opening or a creation has failed.
    Refused(Fault),
}

/// Why an event is refused.
#[derive(Debug, Clone, Copy, PartialEq, Eq)]
pub enum Fault {
    /// A node has this generation, of a later engine.
    Fenced {
        generation: u64,
    },
    /// Only `have` nodes can be part of a quorum, which needs `need`.
    NoQuorum {
        have: u8,
        need: u8,
    },
    NotOpen,
    /// The point is above the last durable commit point.
    Ahead {
        durable: u64,
    },
    /// No LSN or no epoch is left.
    Full,
    /// The nodes are not all fresh.
    NotFresh,
    /// Page 0 and the last 8 bytes of each page are reserved for the volume.
    Reserved,
    /// The header has more than 1,024 bytes.
    LongHeader,
    /// The nodes do not store the log of one volume.
    Damaged,
    /// A record or an advance breaks a shape rule.
    Shape,
}

impl fmt::Display for Fault {
    fn fmt(&self, f: &mut fmt::Formatter<'_>) -> fmt::Result {
        match self {
            Fault::Fenced { generation } => write!(f, "fenced by an engine of generation {generation}"),
            Fault::NoQuorum { have, need } => write!(f, "no write quorum: only {have} nodes can be part of one of {need}"),
            Fault::NotOpen => f.write_str("the volume is not open"),
            Fault::Ahead { durable } => write!(f, "the point is above the durable commit point {durable}"),
            Fault::Full => f.write_str("no LSN or no epoch is left"),
            Fault::NotFresh => f.write_str("the nodes are not all fresh"),
            Fault::Reserved => f.write_str("the volume reserves page 0 and the last 8 bytes of each page"),
            Fault::LongHeader => f.write_str("the header has more than 1,024 bytes"),
            Fault::Damaged => f.write_str("the nodes do not store the log of one volume"),
            Fault::Shape => f.write_str("an invalid record or advance"),
        }
    }
}

/// The machine ran out of memory. The event has no effect, as if it had not arrived.
#[derive(Debug, Clone, Copy, PartialEq, Eq)]
pub struct OutOfMemory;

/// The decisions of an engine.
pub trait Machine: Send {
    /// Returns the consequences of the next event.
    fn step(&mut self, event: Event<'_>) -> Result<Vec<Action>, OutOfMemory>;
}

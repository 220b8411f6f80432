//! Why a call of a volume fails.

use crate::machine::Fault;
use crate::options::{BadOptions, Options};
use std::fmt;

/// How many nodes there are for a write quorum.
#[derive(Debug, Clone, Copy, PartialEq, Eq)]
pub struct Quorum {
    /// The number of nodes that answer and count.
    pub have: usize,
    /// The number of nodes that answer but do not count before the volume is opened again, because they have lost their files.
    pub uncounted: usize,
    /// The size of a write quorum.
    pub need: u8,
    /// The number of nodes of the volume.
    pub nodes: usize,
}

impl Quorum {
    pub(crate) fn of(have: usize, options: &Options) -> Quorum {
        Quorum { have, uncounted: 0, need: options.quorum, nodes: options.nodes.len() }
    }
}

impl fmt::Display for Quorum {
    fn fmt(&self, f: &mut fmt::Formatter<'_>) -> fmt::Result {
        let Quorum { have, uncounted, need, nodes } = self;
        let in_time = if have < &usize::from(*need) { "" } else { " in time" };
        match uncounted {
            0 => write!(f, "no write quorum{in_time}: {have} of {nodes} nodes answer"),
            _ => write!(f, "no write quorum{in_time}: {have} of {nodes} nodes count, {uncounted} wait to be admitted"),
        }
    }
}

/// Why a call of a volume fails.
#[derive(Debug, Clone, PartialEq, Eq)]
pub enum VolumeError {
    Options(BadOptions),
    /// The machine refused the call, or what the nodes store is not a volume. The call has changed nothing, except that an opening may have
    /// fenced nodes, and that a mini-transaction refused halfway ends the volume.
    Refused(Fault),
    /// Another engine has opened the volume under this generation. No later commit of this handle becomes durable.
    Fenced {
        generation: u64,
    },
    /// The nodes are all fresh: the volume was never created.
    Empty,
    /// Within the time allowed no quorum answered as it must: the volume is not open.
    NotOpened(Quorum),
    /// Enough nodes answer, but for some time they have not proved a durable commit: an engine is opening the volume, or died while it did.
    /// The next opening for writing ends this.
    Unproved(Quorum),
    /// Within the time allowed no quorum confirmed that this engine is not fenced.
    NotAsked(Quorum),
    /// Within the time allowed the commit point did not become durable. The mini-transaction is in doubt until the volume is opened again:
    /// it is stored as a whole, or not at all.
    InDoubt {
        commit_point: u64,
        quorum: Quorum,
    },
    /// Within the time allowed there was no room for another mini-transaction, or no quorum answered. It was not sent.
    Busy(Quorum),
    /// Within the time allowed the volume was not opened again, which it must be to admit a node. The call was not sent, and the volume
    /// continues to try.
    NotReopened(Quorum),
    /// Within the time allowed no node returned the page at the point.
    NotRead {
        page: u16,
        point: u64,
    },
    /// The point is below the minimum read point.
    Below {
        min: u64,
    },
    /// The point is above the newest durable one that the reader knows, so it may belong to an engine that lost its epoch.
    Above {
        newest: u64,
    },
    /// An argument is out of its range.
    Argument(&'static str),
    /// The machine ran out of memory. The call has changed nothing, except that a mini-transaction that fails halfway ends the volume.
    Memory,
    /// A thread could not be started.
    Thread(std::io::ErrorKind),
    /// The volume is closed, or an earlier call has ended it.
    Closed,
}

impl From<Fault> for VolumeError {
    fn from(fault: Fault) -> VolumeError {
        match fault {
            Fault::Fenced { generation } => VolumeError::Fenced { generation },
            other => VolumeError::Refused(other),
        }
    }
}

impl fmt::Display for VolumeError {
    fn fmt(&self, f: &mut fmt::Formatter<'_>) -> fmt::Result {
        match self {
            VolumeError::Options(bad) => write!(f, "{bad}"),
            VolumeError::Refused(fault) => write!(f, "{fault}"),
            VolumeError::Fenced { generation } => write!(f, "{}", Fault::Fenced { generation: *generation }),
            VolumeError::Empty => f.write_str("the nodes are empty"),
            VolumeError::NotOpened(quorum) | VolumeError::NotAsked(quorum) => write!(f, "{quorum}"),
            VolumeError::Unproved(_) => f.write_str("no durable commit is proved: an engine opens the volume, or has died while it did"),
            VolumeError::InDoubt { commit_point, quorum } => {
                write!(f, "{quorum}: commit {commit_point} is in doubt until the volume is opened again")
            }
            VolumeError::Busy(quorum) => match quorum.have < quorum.need.into() {
                true => write!(f, "{quorum}"),
                false => f.write_str("too many bytes are not durable yet"),
            },
            VolumeError::NotReopened(quorum) => write!(f, "the volume is being opened again, to admit a node: {quorum}"),
            VolumeError::NotRead { page, point } => write!(f, "no node could read page {page} at point {point}"),
            VolumeError::Below { min } => write!(f, "the point is below the minimum read point {min}"),
            VolumeError::Above { newest } => write!(f, "the point is above the newest known one, {newest}"),
            VolumeError::Argument(what) => write!(f, "{what} is out of range"),
            VolumeError::Memory => f.write_str("out of memory"),
            VolumeError::Thread(kind) => write!(f, "cannot start a thread: {kind}"),
            VolumeError::Closed => f.write_str("the volume is closed"),
        }
    }
}

impl std::error::Error for VolumeError {}

//! The errors of calls.

use crate::engines::Declined;
use std::fmt;

/// Why a fact, a delta or a staged segment is refused. Facts of one sound log are never refused.
#[derive(Debug, Clone, Copy, PartialEq, Eq)]
pub enum Refused {
    /// The segment has `own` readers, and an advance names reader `shown`, or a delta or staged segment has `shown` readers.
    Roster { own: u8, shown: u8 },
    /// This other truncation of the epoch is stored.
    OtherTruncation { epoch: u16, lo: u64, hi: u64 },
    /// It contradicts the minimum read point.
    Least { min: u64 },
    /// It contradicts this waiting advance.
    Advance { epoch: u16, point: u64, reader: u8 },
    /// It contradicts this truncation.
    Truncation { epoch: u16, lo: u64, hi: u64 },
    /// Another record with its key is stored.
    Record,
}

/// The part of a summary that the segment does not cover, so the delta may lack something. Request a new summary.
#[derive(Debug, Clone, Copy, PartialEq, Eq)]
pub enum Uncovered {
    Anchor { anchor: u64 },
    Key { epoch: u16, number: u64 },
}

/// Why a page cannot be read at a point.
#[derive(Debug, Clone, Copy, PartialEq, Eq)]
pub enum ReadFault {
    /// The point is below the minimum read point.
    Below { min: u64 },
    /// The point is above the complete point.
    Above { complete: u64 },
}

/// Why there is no snapshot, or no such piece of it.
#[derive(Debug, Clone, Copy, PartialEq, Eq)]
pub enum SnapshotFault {
    /// The snapshot would have 2^32 pieces or more.
    TooMany,
    NoSnapshot,
    NoPiece,
}

/// Why a piece was not added, or nothing was restored.
#[derive(Debug, Clone, Copy, PartialEq, Eq)]
pub enum StagingFault {
    NoStaging,
    /// The piece has another name or total.
    Stranger,
    /// That piece is staged already.
    Double {
        index: u32,
    },
    /// That piece is not staged.
    Missing {
        index: u32,
    },
    /// That piece cannot follow the pieces before it.
    Malformed {
        index: u32,
    },
}

/// Why bytes are not a value of the expected kind, in the order of the fault numbers of the format, from 1.
#[derive(Debug, Clone, Copy, PartialEq, Eq)]
pub enum WireFault {
    Short,
    UnknownTag,
    Shape,
    Order,
    Rest,
    TooLong,
}

/// How a segment ended.
#[derive(Debug, Clone, Copy, PartialEq, Eq)]
pub enum Status {
    /// Its input ended, and each whole request is answered.
    InputEnded,
    /// Its answers could not be written.
    OutputFailed,
    /// Memory ran out at its start.
    NoMemory,
    /// A status that this package does not know.
    Other(u8),
}

/// Why a call failed. Nothing has changed, unless the segment has `Stopped` and is gone, or the error says otherwise.
#[derive(Debug, Clone, PartialEq, Eq)]
pub enum Error {
    Refused(Refused),
    Uncovered(Uncovered),
    Read(ReadFault),
    /// A record of the page has a block backlink that leads to no record. In a sound log there is none.
    Broken {
        page: u16,
        number: u64,
    },
    Snapshot(SnapshotFault),
    Staging(StagingFault),
    /// A list of the answer has more elements than its count field can express.
    TooLong,
    /// The delta has more bytes than the request allows.
    Large,
    /// The answer does not fit into a frame with the answers to the other requests, or exceeds the limit of the connection. Sent alone, the
    /// request has its answer.
    LongAnswer,
    /// The given bytes are not a value of the expected kind.
    Wire(WireFault),
    /// An argument is out of range.
    BadRequest,
    /// The request is longer than a segment reads.
    LongFrame,
    /// The segment ran out of memory. The same request may succeed later.
    Memory,
    /// The segment has ended. The status is known if this package runs the segment.
    Stopped(Option<Status>),
    /// The segment could not be started.
    NotStarted(std::io::ErrorKind),
    /// There is no connection to the node.
    NotConnected(std::io::ErrorKind),
    /// The node did not answer in time. Whether the request is carried out is not known.
    TimedOut,
    /// The connection has ended. Whether the request is carried out is not known.
    Lost(std::io::ErrorKind),
    /// The node's disk is full: what the request changes is not acknowledged. The same request may succeed later.
    DiskFull,
    /// The node does not carry out this request for a client.
    NotAllowed,
    /// The node has all the connections that it allows, or is about to end, or another client reads its snapshot.
    Busy,
    /// The node serves another engine or none, or cannot be admitted.
    Declined(Declined),
    /// An answer that this package does not know.
    Strange(Vec<u8>),
}

impl Status {
    /// Converts the status that the archive's call returns.
    pub fn of(number: u8) -> Status {
        match number {
            0 => Status::InputEnded,
            4 => Status::OutputFailed,
            5 => Status::NoMemory,
            other => Status::Other(other),
        }
    }
}

impl WireFault {
    pub(crate) fn of(number: u64) -> Option<WireFault> {
        let faults = [WireFault::Short, WireFault::UnknownTag, WireFault::Shape, WireFault::Order, WireFault::Rest, WireFault::TooLong];
        faults.get(usize::try_from(number).ok()?.checked_sub(1)?).copied()
    }
}

impl fmt::Display for Refused {
    fn fmt(&self, f: &mut fmt::Formatter<'_>) -> fmt::Result {
        match self {
            Refused::Roster { own, shown } => write!(f, "{shown} does not fit the roster of {own} readers"),
            Refused::OtherTruncation { epoch, lo, hi } => write!(f, "epoch {epoch} has another truncation, with lo {lo} and hi {hi}"),
            Refused::Least { min } => write!(f, "it contradicts the minimum read point {min}"),
            Refused::Advance { epoch, point, reader } => {
                write!(f, "it contradicts the advance of reader {reader} to {point} in epoch {epoch}")
            }
            Refused::Truncation { epoch, lo, hi } => {
                write!(f, "it contradicts the truncation of epoch {epoch}, with lo {lo} and hi {hi}")
            }
            Refused::Record => f.write_str("another record with its key is stored"),
        }
    }
}

impl fmt::Display for Uncovered {
    fn fmt(&self, f: &mut fmt::Formatter<'_>) -> fmt::Result {
        match self {
            Uncovered::Anchor { anchor } => write!(f, "the anchor {anchor}"),
            Uncovered::Key { epoch, number } => write!(f, "the record {number} of epoch {epoch}"),
        }
    }
}

impl fmt::Display for ReadFault {
    fn fmt(&self, f: &mut fmt::Formatter<'_>) -> fmt::Result {
        match self {
            ReadFault::Below { min } => write!(f, "the point is below the minimum read point {min}"),
            ReadFault::Above { complete } => write!(f, "the point is above the complete point {complete}"),
        }
    }
}

impl fmt::Display for SnapshotFault {
    fn fmt(&self, f: &mut fmt::Formatter<'_>) -> fmt::Result {
        f.write_str(match self {
            SnapshotFault::TooMany => "the snapshot would have more than 2^32 - 1 pieces",
            SnapshotFault::NoSnapshot => "there is no snapshot",
            SnapshotFault::NoPiece => "the snapshot has no such piece",
        })
    }
}

impl fmt::Display for StagingFault {
    fn fmt(&self, f: &mut fmt::Formatter<'_>) -> fmt::Result {
        match self {
            StagingFault::NoStaging => f.write_str("there is no staging"),
            StagingFault::Stranger => f.write_str("the piece belongs to another snapshot"),
            StagingFault::Double { index } => write!(f, "piece {index} is staged already"),
            StagingFault::Missing { index } => write!(f, "piece {index} is missing"),
            StagingFault::Malformed { index } => write!(f, "piece {index} cannot follow the pieces before it"),
        }
    }
}

impl fmt::Display for WireFault {
    fn fmt(&self, f: &mut fmt::Formatter<'_>) -> fmt::Result {
        f.write_str(match self {
            WireFault::Short => "the bytes end inside a field",
            WireFault::UnknownTag => "a tag is not allowed in its place",
            WireFault::Shape => "a shape rule is broken",
            WireFault::Order => "an element is not above the one before it",
            WireFault::Rest => "bytes are left after the value",
            WireFault::TooLong => "a list has more elements than its count field can express",
        })
    }
}

impl fmt::Display for Status {
    fn fmt(&self, f: &mut fmt::Formatter<'_>) -> fmt::Result {
        match self {
            Status::InputEnded => f.write_str("its requests ended"),
            Status::OutputFailed => f.write_str("its answers could not be written"),
            Status::NoMemory => f.write_str("memory ran out at its start"),
            Status::Other(number) => write!(f, "status {number}"),
        }
    }
}

impl fmt::Display for Error {
    fn fmt(&self, f: &mut fmt::Formatter<'_>) -> fmt::Result {
        match self {
            Error::Refused(why) => write!(f, "refused: {why}"),
            Error::Uncovered(what) => write!(f, "the node does not cover {what} of the summary"),
            Error::Read(why) => write!(f, "{why}"),
            Error::Broken { page, number } => write!(f, "the chain of page {page} is broken at {number}"),
            Error::Snapshot(why) => write!(f, "{why}"),
            Error::Staging(why) => write!(f, "{why}"),
            Error::TooLong => f.write_str("the answer is too long"),
            Error::Large => f.write_str("the delta exceeds the requested size"),
            Error::LongAnswer => f.write_str("the answer does not fit into the batch"),
            Error::Wire(fault) => write!(f, "an invalid value: {fault}"),
            Error::BadRequest => f.write_str("an argument is out of range"),
            Error::LongFrame => f.write_str("the request is too long"),
            Error::Memory => f.write_str("the segment ran out of memory"),
            Error::Stopped(None) => f.write_str("the segment has ended"),
            Error::Stopped(Some(status)) => write!(f, "the segment has ended: {status}"),
            Error::NotStarted(kind) => write!(f, "the segment was not started: {kind}"),
            Error::NotConnected(kind) => write!(f, "no connection: {kind}"),
            Error::TimedOut => f.write_str("no answer in time"),
            Error::Lost(kind) => write!(f, "the connection has ended: {kind}"),
            Error::DiskFull => f.write_str("the node's disk is full"),
            Error::NotAllowed => f.write_str("the node does not allow this request to clients"),
            Error::Busy => f.write_str("the node is busy"),
            Error::Declined(why) => write!(f, "declined: {why}"),
            Error::Strange(answer) => write!(f, "an unknown answer: {}", String::from_utf8_lossy(answer)),
        }
    }
}

impl std::error::Error for Error {}

#[cfg(test)]
mod tests {
    use super::*;

    #[test]
    fn errors_are_sentences() {
        let sentences = [
            (Error::Refused(Refused::Roster { own: 2, shown: 3 }), "refused: 3 does not fit the roster of 2 readers"),
            (
                Error::Refused(Refused::OtherTruncation { epoch: 1, lo: 5, hi: 9 }),
                "refused: epoch 1 has another truncation, with lo 5 and hi 9",
            ),
            (
                Error::Refused(Refused::Advance { epoch: 0, point: 4, reader: 1 }),
                "refused: it contradicts the advance of reader 1 to 4 in epoch 0",
            ),
            (Error::Uncovered(Uncovered::Anchor { anchor: 5 }), "the node does not cover the anchor 5 of the summary"),
            (Error::Uncovered(Uncovered::Key { epoch: 1, number: 7 }), "the node does not cover the record 7 of epoch 1 of the summary"),
            (Error::Read(ReadFault::Above { complete: 9 }), "the point is above the complete point 9"),
            (Error::Snapshot(SnapshotFault::NoPiece), "the snapshot has no such piece"),
            (Error::Staging(StagingFault::Missing { index: 3 }), "piece 3 is missing"),
            (Error::Wire(WireFault::Rest), "an invalid value: bytes are left after the value"),
            (Error::Stopped(None), "the segment has ended"),
            (Error::Stopped(Some(Status::NoMemory)), "the segment has ended: memory ran out at its start"),
            (Error::Declined(Declined::Stale { generation: 4 }), "declined: the node serves generation 4"),
            (Error::Strange(b"\xff?".to_vec()), "an unknown answer: \u{fffd}?"),
        ];
        for (error, sentence) in sentences {
            assert_eq!(error.to_string(), sentence);
        }
    }
}

//! A snapshot that is written piece by piece while its store answers.
//!
//! The node keeps the snapshot as it was frozen. Each later change goes to two logs: to the present one, which a crash needs until the
//! snapshot is renamed, and to that of the next generation, which begins after the snapshot.

use super::errors::StoreError;
use super::folder::{Draft, Whole};
use super::log::Log;
use super::{framed, Progress};
use crate::Node;
use std::io;
use std::thread::{self, JoinHandle};
use yieldcleat_client::{engines, requests, Admission, Calls, EngineCalls, Membership, Name};

/// A snapshot that a node has frozen: the number of its pieces, and the requests after them.
pub struct Frozen {
    pub total: u32,
    pub last: Vec<Vec<u8>>,
}

impl Frozen {
    /// Freezes a node's segment, and records the state of its guard.
    pub fn of(node: &mut Node, name: u64) -> Result<Frozen, StoreError> {
        let Membership { generation, birth, is_member, front, accepted } = node.membership()?;
        let total = node.freeze(name)?;
        // A node that is not a member has the guard of a new node.
        let name = Name { generation, birth };
        let admitted = is_member.then(|| engines::admit(&Admission { name, epoch: front.epoch, complete: front.complete, accepted }));
        Ok(Frozen { total, last: [requests::finish()].into_iter().chain(admitted).collect() })
    }

    /// Returns the number of entries of the snapshot's file.
    pub fn entries(&self) -> u64 {
        1 + u64::from(self.total) + self.last.len() as u64
    }
}

#[cfg(test)]
impl Checkpoint {
    /// Makes the system refuse to write the log after the snapshot.
    pub fn refuse(&mut self) {
        self.log.refuse();
    }
}

/// An unfinished snapshot, and the log after it. After an error it must be dropped.
pub struct Checkpoint {
    pub generation: u64,
    snapshot: Draft,
    /// The next piece to write.
    next: u32,
    /// The number of pieces.
    total: u32,
    /// The requests after the pieces: the end of the staging, and the admission of the guard.
    last: Vec<Vec<u8>>,
    /// The thread that flushes the snapshot, once all pieces are written.
    flushing: Option<JoinHandle<io::Result<()>>>,
    log: Log,
    pub progress: Progress,
}

impl Checkpoint {
    /// Makes a checkpoint of a frozen snapshot, in a draft without pieces.
    pub fn new(generation: u64, snapshot: Draft, frozen: Frozen, log: Log, progress: Progress) -> Checkpoint {
        let Frozen { total, last } = frozen;
        Checkpoint { generation, snapshot, next: 0, total, last, flushing: None, log, progress }
    }

    /// Returns whether pieces are still needed from the node, which must not freeze another snapshot then.
    pub fn needs_pieces(&self) -> bool {
        self.flushing.is_none()
    }

    /// Appends changes to the log after the snapshot. They are on the disk when `end` returns.
    ///
    /// Errors: `Io`, also if there is no room, and `TooLong`.
    pub fn write(&mut self, changes: &[u8]) -> Result<(), StoreError> {
        self.log.append_unflushed(changes).map_err(|error| match error {
            StoreError::Full { path, error } => StoreError::Io { path, error },
            other => other,
        })
    }

    /// Writes up to `pieces` more pieces. Returns true once the snapshot is on the disk, or its flush has failed.
    pub fn go_on(&mut self, node: &mut Node, pieces: u32) -> Result<bool, StoreError> {
        if let Some(thread) = &self.flushing {
            return Ok(thread.is_finished());
        }
        let end = self.next.saturating_add(pieces).min(self.total);
        while self.next < end {
            self.snapshot.put(&framed(&requests::add(&node.piece(self.next)?))?)?;
            self.next += 1;
        }
        if self.next == self.total {
            for request in &self.last {
                self.snapshot.put(&framed(request)?)?;
            }
            let file = self.snapshot.written()?;
            let thread = thread::Builder::new().name("snapshot".into()).spawn(move || file.sync_all());
            self.flushing = Some(thread.map_err(self.snapshot.failure())?);
        }
        Ok(false)
    }

    /// Waits until the snapshot and the log after it are on the disk. The snapshot may be renamed then.
    pub fn end(mut self) -> Result<(Whole, Log, Progress), StoreError> {
        let flushed = self.flushing.take().map(JoinHandle::join);
        match flushed {
            Some(Ok(result)) => result.map_err(self.snapshot.failure())?,
            Some(Err(_)) | None => return Err(self.snapshot.failure()(io::Error::other("the snapshot is not whole"))),
        }
        self.log.flush()?;
        Ok((self.snapshot.whole(), self.log, self.progress))
    }
}

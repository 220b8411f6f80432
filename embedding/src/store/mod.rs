//! A node that survives crashes: the changes of its requests are on the disk before it returns their answers.
//!
//! `Store` keeps a folder (`folder`) with a log of the requests that changed the node (`log`), and a snapshot that replaces the earlier
//! ones; `entries` has the format of both. A request that the node refuses, or that changes nothing, is not logged. So each logged request
//! has exactly one possible answer, and recovery checks that the new node returns it.

mod birth;
mod cache;
mod checkpoint;
mod entries;
mod errors;
mod folder;
mod log;

pub use birth::{birth, Home};
pub use errors::StoreError;

use crate::Node;
use checkpoint::{Checkpoint, Frozen};
use entries::{Entries, Header, Kind, Next};
use folder::Folder;
use log::Log;
use std::path::Path;
use std::time::Duration;
use yieldcleat_client::requests::{self, Effect};
use yieldcleat_client::{frames, Calls, Error};

/// A node, and the folder that restores it.
///
/// After an error of `answer` other than `Full`, calls return `Stopped`, because the node may have changes that the log lacks. Drop the
/// store then, and open the folder again.
pub struct Store {
    node: Node,
    folder: Folder,
    generation: u64,
    /// The log; `None` while a call changes the node, and after a call that failed.
    log: Option<Log>,
    progress: Progress,
    /// Request frames that changed the node, and that the disk had no room for.
    unwritten: Vec<u8>,
    activity: Activity,
    /// Whether the node's snapshot was made by a checkpoint, and not for a client.
    is_displaced: bool,
    checkpoint: Option<Checkpoint>,
    /// Why the last checkpoint was abandoned, until `go_on_with_checkpoint` returns it.
    given_up: Option<StoreError>,
}

/// What a store found in its folder.
#[derive(Debug, Clone, Copy, PartialEq, Eq)]
pub struct Recovery {
    /// The number of requests that were sent to the node: those of the snapshot and those of the log.
    pub requests: u64,
    /// The number of bytes that a crash left of the log's last entry. Nobody received an answer to its requests.
    pub torn: u64,
}

/// Counts of what a store did with its files after it was opened, and the sizes of these files.
#[derive(Debug, Clone, Copy, Default, PartialEq, Eq)]
pub struct Activity {
    /// The number of entries appended to the log, each with one flush.
    pub flushes: u64,
    /// The number of bytes of these entries.
    pub written: u64,
    /// The duration of the last flush.
    pub last_flush: Duration,
    /// The number of snapshots that replaced a log.
    pub snapshots: u64,
    /// The size of the present log, in bytes.
    pub log: u64,
    /// The size of the snapshot before the log, in bytes; 0 if there is none.
    pub snapshot: u64,
    /// The number of bytes with which the next log begins: those of an unfinished staging, because a snapshot has no staging.
    pub staging: u64,
    /// The generation of the present files.
    pub generation: u64,
}

/// The contents of a log, in counts.
#[derive(Debug, Clone, Copy, Default)]
struct Progress {
    /// The number of requests in the log.
    logged: u64,
    /// The place in the log of the `stage` request of the present staging, if there is one.
    staging: Option<u64>,
    /// The number of bytes that the staging has in the next log.
    staged: u64,
}

impl Progress {
    fn count(&mut self, request: &[u8]) {
        match requests::word(request) {
            b"stage" => (self.staging, self.staged) = (Some(self.logged), entries::length(request)),
            b"add" if self.staging.is_some() => self.staged += entries::length(request),
            b"finish" | b"unite" => (self.staging, self.staged) = (None, 0),
            _ => {}
        }
        self.logged += 1;
    }
}

/// Passes each request of the log in a folder to `each`, in order, and changes nothing. Returns true if the log begins with an empty
/// segment, and false if it begins after a snapshot.
///
/// Errors: `Locked` while a store has the folder open, `Io`, `Missing` and `Damaged`.
pub fn read_log(folder: &Path, mut each: impl FnMut(&[u8])) -> Result<bool, StoreError> {
    if !folder.is_dir() {
        return Err(StoreError::Missing { path: folder.to_path_buf() });
    }
    let folder = Folder::open(folder)?;
    let generation = folder.generation()?.ok_or_else(|| StoreError::Missing { path: folder.path(Kind::Log, 0) })?;
    let (mut entries, mut bytes) = (Entries::open(&folder.path(Kind::Log, generation), Kind::Log, generation)?, Vec::new());
    loop {
        match entries.next(&mut bytes)? {
            Next::Entry => entries.requests(&bytes)?.into_iter().for_each(&mut each),
            Next::End => return Ok(generation == 0),
            Next::Spoiled => return entries.torn().map(|_| generation == 0),
        }
    }
}

impl Store {
    /// Restores a new node from a folder, or creates the folder for an empty segment of `readers` readers.
    ///
    /// Errors: `Io`, `Locked`, `Missing`, `Damaged`, `Node`, and `Unexpected` if the node does not answer a logged request as before. The
    /// files stay as they are, except for a torn end of the log, which is cut off.
    pub fn open(folder: &Path, node: Node, readers: u8) -> Result<(Store, Recovery), StoreError> {
        Store::open_locked(Folder::open(folder)?, node, readers)
    }

    /// Like `open`, in a folder that the `Home` has locked. The node must have its birth.
    ///
    /// Errors: those of `open`, except `Locked`.
    pub fn open_in(home: Home, node: Node, readers: u8) -> Result<(Store, Recovery), StoreError> {
        Store::open_locked(home.into_folder(), node, readers)
    }

    fn open_locked(folder: Folder, mut node: Node, readers: u8) -> Result<(Store, Recovery), StoreError> {
        let generation = match folder.generation()? {
            Some(generation) => generation,
            None => begin(&folder, readers)?,
        };
        let (mut snapshot, mut progress) = (0, Progress::default());
        if generation > 0 {
            snapshot = restore(&folder.path(Kind::Snapshot, generation), generation, &mut node)?;
        }
        let (log, torn) = Log::recover(&folder.path(Kind::Log, generation), generation, |requests| {
            requests.iter().for_each(|request| progress.count(request));
            tell(&mut node, requests)
        })?;
        folder.sync()?;
        folder.remove_others(generation)?;
        folder.remove_drafts(generation + 1);
        let recovery = Recovery { requests: snapshot + progress.logged, torn };
        let activity =
            Activity { log: log.length(), snapshot: folder.length(Kind::Snapshot, generation), generation, ..Activity::default() };
        let (log, unwritten, checkpoint, given_up) = (Some(log), Vec::new(), None, None);
        let store = Store { node, folder, generation, log, progress, unwritten, activity, is_displaced: true, checkpoint, given_up };
        Ok((store, recovery))
    }

    /// Returns counts of what the store did with its files.
    pub fn activity(&self) -> Activity {
        Activity { staging: self.progress.staged, ..self.activity }
    }

    /// Returns whether a call has failed so that later ones return `Stopped`.
    pub fn is_stopped(&self) -> bool {
        self.log.is_none()
    }

    /// Returns the number of requests in the log: a restart sends them to the node after those of the snapshot.
    pub fn logged(&self) -> u64 {
        self.progress.logged
    }

    /// Sends requests in order, and returns their answers once all that they changed is on the disk. A request whose first word this
    /// package does not know is answered `bad request`, and so is a `many` with such a request inside.
    ///
    /// Errors: `Full`, after which the node gets no request until there is room for what it has changed; `Io`, `Node`, `TooLong` and
    /// `Unexpected`, and `Stopped` after one of these four.
    pub fn answer<R: AsRef<[u8]>>(&mut self, batch: &[R]) -> Result<Vec<Vec<u8>>, StoreError> {
        self.answer_until(batch, usize::MAX)
    }

    /// Like `answer`, but sends no further request once the answers have `enough` bytes. Returns an answer for each request that was sent,
    /// at least for the first one.
    pub fn answer_until<R: AsRef<[u8]>>(&mut self, batch: &[R], enough: usize) -> Result<Vec<Vec<u8>>, StoreError> {
        self.write(Vec::new())?;
        let log = self.log.take().ok_or(StoreError::Stopped)?;
        let (mut answers, mut changes, mut bytes) = (Vec::new(), Vec::new(), 0);
        for request in batch {
            let answer = self.ask(request.as_ref(), &mut changes)?;
            bytes += answer.len();
            answers.push(answer);
            if bytes >= enough {
                break;
            }
        }
        self.log = Some(log);
        self.write(changes)?;
        Ok(answers)
    }

    /// Appends changes of the node to the log, after those for which there was no room.
    fn write(&mut self, changes: Vec<u8>) -> Result<(), StoreError> {
        let mut log = self.log.take().ok_or(StoreError::Stopped)?;
        self.unwritten.extend(changes);
        if !self.unwritten.is_empty() {
            let before = log.length();
            match log.append(&self.unwritten) {
                Ok(took) => {
                    self.activity.last_flush = took;
                    self.activity.flushes += 1;
                    self.activity.written += log.length() - before;
                    self.activity.log = log.length();
                    self.write_behind_snapshot();
                    self.unwritten.clear();
                }
                Err(error @ StoreError::Full { .. }) => {
                    self.log = Some(log);
                    return Err(error);
                }
                Err(error) => return Err(error),
            }
        }
        self.log = Some(log);
        Ok(())
    }

    /// Appends the same changes to the log after the snapshot that is being written, if there is one. An error ends the checkpoint only.
    fn write_behind_snapshot(&mut self) {
        let written = self.checkpoint.as_mut().map_or(Ok(()), |checkpoint| checkpoint.write(&self.unwritten));
        if let Err(error) = written {
            self.abandon_checkpoint();
            self.given_up = Some(error);
        }
    }

    /// Sends a request, and appends the requests that changed something to the frames of `changes`.
    fn ask(&mut self, request: &[u8], changes: &mut Vec<u8>) -> Result<Vec<u8>, StoreError> {
        if !is_known(request) {
            return Ok(b"bad request".to_vec());
        }
        if freezes(request) && self.checkpoint.as_ref().is_some_and(Checkpoint::needs_pieces) {
            self.abandon_checkpoint();
        }
        let answer = self.node.ask(request)?.to_vec();
        let Some(inside) = request.strip_prefix(b"many ") else {
            return self.settle(request, answer, changes);
        };
        match (frames::inside(inside), frames::inside(&answer)) {
            (Some(requests), Some(answers)) if requests.len() == answers.len() => {
                let mut settled = Vec::with_capacity(answer.len());
                for (request, answer) in requests.into_iter().zip(answers) {
                    let answer = self.settle(request, answer.to_vec(), changes)?;
                    frames::append(&mut settled, &[&answer]).map_err(|_| StoreError::TooLong)?;
                }
                Ok(settled)
            }
            (Some(_), Some(_)) => Err(unexpected(request, &answer)),
            // The node did not carry out any of it.
            _ => Ok(answer),
        }
    }

    /// Returns the answer for the client, and appends the request to the changes if it changed something.
    fn settle(&mut self, request: &[u8], answer: Vec<u8>, changes: &mut Vec<u8>) -> Result<Vec<u8>, StoreError> {
        if requests::has_changed(request, &answer) {
            self.progress.count(request);
            if let Some(checkpoint) = &mut self.checkpoint {
                checkpoint.progress.count(request);
            }
            frames::append(changes, &[request]).map_err(|_| StoreError::TooLong)?;
        }
        let (heading, asked) = requests::heading(request);
        let Some(reply) = answer.strip_prefix(heading) else {
            return Ok(answer);
        };
        match requests::word(asked) {
            b"freeze" if reply.starts_with(b"frozen ") => self.is_displaced = false,
            // The pieces of a checkpoint's snapshot are not those of the snapshot that the client froze.
            b"piece" if self.is_displaced && reply != b"bad request" => return Ok([heading, b"no snapshot"].concat()),
            _ => {}
        }
        Ok(answer)
    }

    /// Replaces the log with a snapshot. A crash in between leaves the older generation whole. A snapshot that a client froze is lost:
    /// `piece` answers `no snapshot`.
    ///
    /// Errors: those of `answer`, but `Io` if there is no room for the new files. After an error the store continues with the older
    /// generation and without the new files, or with the new generation if only the removal of older files failed. If it is not known which
    /// generation the folder has, all calls return `Stopped`.
    pub fn checkpoint(&mut self) -> Result<(), StoreError> {
        self.write(Vec::new())?;
        match self.node.tidy() {
            // Only an unsound log has a broken chain; its snapshot is larger then.
            Ok(()) | Err(Error::Broken { .. }) => {}
            Err(error) => return Err(error.into()),
        }
        self.begin_checkpoint()?;
        while self.go_on_with_checkpoint(u32::MAX)? {}
        Ok(())
    }

    /// Begins to replace the log with a snapshot of what the node has now. `go_on_with_checkpoint` writes it; `answer` may be called in
    /// between. A client's `freeze` before all pieces are written abandons it, as does an error of its files; the store continues with the
    /// older generation and without the new files.
    ///
    /// Errors: those of `checkpoint`.
    pub fn begin_checkpoint(&mut self) -> Result<(), StoreError> {
        self.abandon_checkpoint();
        self.given_up = None;
        self.write(Vec::new())?;
        let next = self.generation + 1;
        self.checkpoint = Some(self.prepare(next).inspect_err(|_| self.folder.remove_drafts(next))?);
        Ok(())
    }

    /// Returns whether a checkpoint is in progress.
    pub fn has_checkpoint(&self) -> bool {
        self.checkpoint.is_some()
    }

    /// Writes up to `pieces` pieces of the snapshot, and replaces the log with it once all of it is on the disk. Returns false when there
    /// is nothing left to do.
    ///
    /// Errors: those of `checkpoint`, and the error of an earlier call of `answer` that could not append to the log after the snapshot.
    pub fn go_on_with_checkpoint(&mut self, pieces: u32) -> Result<bool, StoreError> {
        if self.is_stopped() {
            return Err(StoreError::Stopped);
        }
        if let Some(error) = self.given_up.take() {
            return Err(error);
        }
        let Some(checkpoint) = &mut self.checkpoint else {
            return Ok(false);
        };
        // If all pieces are to be written at once, there is nothing else to do while the disk writes them.
        let is_ready = checkpoint.go_on(&mut self.node, pieces).inspect_err(|_| self.folder.remove_drafts(self.generation + 1));
        match is_ready {
            Ok(false) if pieces < u32::MAX || self.checkpoint.as_ref().is_some_and(Checkpoint::needs_pieces) => Ok(true),
            Ok(_) => self.end_checkpoint().map(|()| false),
            Err(error) => {
                self.checkpoint = None;
                Err(error)
            }
        }
    }

    fn abandon_checkpoint(&mut self) {
        if let Some(checkpoint) = self.checkpoint.take() {
            self.folder.remove_drafts(checkpoint.generation);
        }
    }

    /// Completes the checkpoint: begins the generation of the snapshot, and removes the older files.
    fn end_checkpoint(&mut self) -> Result<(), StoreError> {
        let Some(checkpoint) = self.checkpoint.take() else {
            return Ok(());
        };
        let next = checkpoint.generation;
        // The next log must have its name on the disk before the snapshot does.
        let ended = checkpoint.end().and_then(|ended| self.folder.sync().map(|()| ended));
        let (snapshot, log, progress) = ended.inspect_err(|_| self.folder.remove_drafts(next))?;
        self.log = None;
        snapshot.rename()?;
        self.folder.sync()?;
        self.activity = Activity {
            snapshots: self.activity.snapshots + 1,
            log: log.length(),
            snapshot: self.folder.length(Kind::Snapshot, next),
            generation: next,
            ..self.activity
        };
        self.log = Some(log);
        (self.generation, self.progress) = (next, progress);
        self.folder.remove_others(next)
    }

    /// Freezes a snapshot and creates the files of the next generation, which begins when the snapshot is renamed.
    fn prepare(&mut self, next: u64) -> Result<Checkpoint, StoreError> {
        let log = self.log.as_ref().ok_or(StoreError::Stopped)?;
        let progress = begin_behind(&self.folder, next, log, self.progress)?;
        let log = Log::recover(&self.folder.path(Kind::Log, next), next, |_| Ok(()))?.0;
        self.is_displaced = true;
        let frozen = Frozen::of(&mut self.node, next)?;
        let mut snapshot = self.folder.draft(Header::new(Kind::Snapshot, next, frozen.entries()))?;
        snapshot.put(&framed(&requests::stage(next, frozen.total))?)?;
        Ok(Checkpoint::new(next, snapshot, frozen, log, progress))
    }
}

/// Returns whether the request, or one inside it, replaces the node's snapshot.
fn freezes(request: &[u8]) -> bool {
    let inside = request.strip_prefix(b"many ").and_then(frames::inside).unwrap_or_default();
    [request].iter().chain(&inside).any(|it| requests::word(requests::heading(it).1) == b"freeze")
}

/// Returns whether the node may get the request: this package must know the effect of each request inside it.
fn is_known(request: &[u8]) -> bool {
    match (requests::effect(request), request.strip_prefix(b"many ")) {
        (Some(Effect::Many), Some(inside)) => {
            frames::inside(inside).is_none_or(|requests| requests.iter().all(|request| requests::effect(request).is_some()))
        }
        (effect, _) => effect.is_some(),
    }
}

/// Sends a node requests that changed an earlier one, and checks that they change it too.
fn tell(node: &mut Node, asked: &[&[u8]]) -> Result<(), StoreError> {
    let answers = node.ask_all(asked.iter().copied())?;
    let differs = asked.iter().zip(&answers).find(|(request, answer)| !requests::has_changed(request, answer));
    differs.map_or(Ok(()), |(request, answer)| Err(unexpected(request, answer)))
}

/// Makes the error with the first words of a request and its answer.
fn unexpected(request: &[u8], answer: &[u8]) -> StoreError {
    let beginning = |bytes: &[u8]| String::from_utf8_lossy(&bytes[..bytes.len().min(60)]).into_owned();
    StoreError::Unexpected { request: beginning(requests::word(request)), answer: beginning(answer) }
}

/// Creates the first log, of an empty segment.
fn begin(folder: &Folder, readers: u8) -> Result<u64, StoreError> {
    let mut log = folder.draft(Header::new(Kind::Log, 0, 0))?;
    log.put(&framed(&requests::open(readers))?)?;
    log.sync()?.rename()?;
    folder.sync()?;
    Ok(0)
}

fn framed(request: &[u8]) -> Result<Vec<u8>, StoreError> {
    let mut bytes = Vec::with_capacity(request.len() + 4);
    frames::append(&mut bytes, &[request]).map_err(|_| StoreError::TooLong)?;
    Ok(bytes)
}

/// Creates the log of the next generation. It begins with an unfinished staging, because a snapshot has no staging.
fn begin_behind(folder: &Folder, generation: u64, log: &Log, before: Progress) -> Result<Progress, StoreError> {
    let mut next = folder.draft(Header::new(Kind::Log, generation, 0))?;
    let (mut place, mut progress) = (0, Progress::default());
    if let Some(staging) = before.staging {
        log.replay(|requests| {
            for request in requests {
                if place >= staging && matches!(requests::word(request), b"stage" | b"add") {
                    next.put(&framed(request)?)?;
                    progress.count(request);
                }
                place += 1;
            }
            Ok(())
        })?;
    }
    next.sync()?.rename()?;
    Ok(progress)
}

/// Sends a snapshot to a node, and returns the number of requests.
fn restore(path: &Path, generation: u64, node: &mut Node) -> Result<u64, StoreError> {
    let (mut entries, mut bytes) = (Entries::open(path, Kind::Snapshot, generation)?, Vec::new());
    while entries.place() < entries.header().count {
        match entries.next(&mut bytes)? {
            Next::Entry => tell(node, &entries.requests(&bytes)?)?,
            _ => return Err(entries.damaged()),
        }
    }
    match entries.next(&mut bytes)? {
        Next::End => Ok(entries.place()),
        _ => Err(entries.damaged()),
    }
}

#[cfg(test)]
mod tests {
    use super::log::tests::Place;
    use super::*;

    /// The log after a snapshot fails alone, and its error is returned once.
    #[test]
    fn why_a_checkpoint_is_given_up_is_returned() {
        let place = Place::new("given-up");
        let advance = |point| requests::take(&yieldcleat_client::Advance { epoch: 0, reader: 1, point }.encode().unwrap());
        let mut store = Store::open(place.path(), Node::open(1).unwrap(), 1).unwrap().0;
        store.begin_checkpoint().unwrap();
        store.checkpoint.as_mut().unwrap().refuse();
        assert_eq!(store.answer(&[advance(1)]).unwrap(), [b"changed"]);
        assert!(!store.has_checkpoint());
        match store.go_on_with_checkpoint(1) {
            Err(StoreError::Io { path, .. }) => assert!(path.ends_with("log.1"), "{path:?}"),
            other => panic!("{other:?}"),
        }
        assert!(matches!(store.go_on_with_checkpoint(1), Ok(false)));
        store.checkpoint().unwrap();
        assert_eq!(store.answer(&[b"front"]).unwrap(), [b"front 0 0 1"]);
    }

    /// The log of the next generation lacks changes that the node had when the store stopped.
    #[test]
    fn a_checkpoint_does_not_revive_a_store() {
        let place = Place::new("revived");
        let advance = |point| requests::take(&yieldcleat_client::Advance { epoch: 0, reader: 1, point }.encode().unwrap());
        let mut store = Store::open(place.path(), Node::open(1).unwrap(), 1).unwrap().0;
        store.begin_checkpoint().unwrap();
        store.log.as_mut().unwrap().refuse();
        assert!(matches!(store.answer(&[advance(1)]), Err(StoreError::Io { .. })));
        assert!(matches!(store.go_on_with_checkpoint(u32::MAX), Err(StoreError::Stopped)));
        assert!(matches!(store.answer(&[b"front"]), Err(StoreError::Stopped)));
    }

    #[test]
    fn what_the_disk_refuses_is_not_answered() {
        let place = Place::new("refused");
        let advance = |point| requests::take(&yieldcleat_client::Advance { epoch: 0, reader: 1, point }.encode().unwrap());
        let mut store = Store::open(place.path(), Node::open(1).unwrap(), 1).unwrap().0;
        assert_eq!(store.answer(&[advance(1)]).unwrap(), [b"changed"]);
        store.log.as_mut().unwrap().refuse();
        assert_eq!(store.answer(&[b"front"]).unwrap(), [b"front 0 0 1"]);
        assert!(matches!(store.answer(&[advance(2)]), Err(StoreError::Io { .. })));
        assert!(matches!(store.answer(&[b"front"]), Err(StoreError::Stopped)));
        drop(store);
        let mut store = Store::open(place.path(), Node::open(1).unwrap(), 1).unwrap().0;
        assert_eq!(store.answer(&[b"front"]).unwrap(), [b"front 0 0 1"]);
    }
}

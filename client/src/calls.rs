//! The calls of a segment, over any carrier of frames.

use crate::answers::{self, Front, Gap, Held, Key, State, Taken};
use crate::errors::Error;
use crate::{frames, requests};
use std::iter::Peekable;

/// The greatest number of requests in one frame.
pub const MOST: usize = 256;
/// The number of request bytes at which a frame is complete. A request of this size or more is sent in a frame of its own.
const ENOUGH: usize = 1 << 16;

/// A segment that answers requests. Each call waits for its answer.
///
/// Errors: each call may return `Memory`, `LongFrame`, `Strange`, or an error of the carrier: `Stopped`, `TimedOut` or `Lost`. A connection
/// to a server may also return `LongAnswer`, `DiskFull`, `NotAllowed` and `Busy`. Each call lists its other errors.
///
/// Only one frame of requests is in flight at a time, so the two sides never block each other by writing.
pub trait Calls {
    /// Sends a frame that consists of these parts, in order, and returns its answer.
    fn ask_parts(&mut self, parts: &[&[u8]]) -> Result<&[u8], Error>;

    /// Sends a request and returns the bytes of its answer, whatever both are: for example a request of `requests` that was read from a
    /// file.
    ///
    /// Errors: `LongFrame` for 2^32 bytes or more.
    fn ask(&mut self, request: &[u8]) -> Result<&[u8], Error> {
        self.ask_parts(&[request])
    }

    /// Sends requests in order and returns the answer to each. None of them may be a `many`. Several are sent in one frame; if the segment
    /// answers a whole frame at once, for example because it lacks memory, each request in it gets that answer.
    ///
    /// Errors: after `LongFrame`, because a request has 2^32 bytes or more, some of the requests may have been carried out.
    fn ask_all<'a, I>(&mut self, requests: I) -> Result<Vec<Vec<u8>>, Error>
    where
        I: IntoIterator<Item = &'a [u8]>,
        Self: Sized,
    {
        let (mut requests, mut answers) = (requests.into_iter().peekable(), Vec::new());
        while requests.peek().is_some() {
            ask_some(self, b"", &mut requests, |answer| answers.push(answer.to_vec()))?;
        }
        Ok(answers)
    }

    // Facts

    /// Delivers an encoded fact.
    ///
    /// Errors: `Refused`, and `Wire` if the bytes are not a fact.
    fn take(&mut self, fact: &[u8]) -> Result<Taken, Error> {
        answers::taken(self.ask_parts(&[b"take ", fact])?)
    }

    /// Delivers facts in order and returns the result of `take` for each. Several are sent in one frame; if the segment answers a whole
    /// frame at once, for example because it lacks memory, each fact in it gets that result. If the iterator panics, the facts of the
    /// frames before are taken, and the segment can still be used.
    ///
    /// Errors: after `LongFrame`, because a fact has 2^32 bytes or more, some of the facts may have been taken.
    fn take_all<'a, I>(&mut self, facts: I) -> Result<Vec<Result<Taken, Error>>, Error>
    where
        I: IntoIterator<Item = &'a [u8]>,
        Self: Sized,
    {
        let (mut facts, mut taken) = (facts.into_iter().peekable(), Vec::new());
        while facts.peek().is_some() {
            ask_some(self, b"take ", &mut facts, |answer| taken.push(answers::taken(answer)))?;
        }
        Ok(taken)
    }

    /// Delivers facts that include the record of a sound log with key `last`, and returns whether the segment acknowledges that record.
    /// This depends on the segment's front and not on the answers to the takes: `unchanged` answers both a repeat and a dead record.
    ///
    /// Errors: that of the first fact that is not taken; facts before and after it may be taken.
    fn store<'a, I>(&mut self, facts: I, last: Key) -> Result<bool, Error>
    where
        I: IntoIterator<Item = &'a [u8]>,
        Self: Sized,
    {
        self.take_all(facts)?.into_iter().try_for_each(|taken| taken.map(drop))?;
        Ok(self.front()?.has(last))
    }

    // What the segment knows

    /// Returns the front of the segment.
    fn front(&mut self) -> Result<Front, Error> {
        answers::front(self.ask(b"front")?)
    }

    /// Returns counts of what the segment stores.
    fn state(&mut self) -> Result<State, Error> {
        answers::state(self.ask(b"state")?)
    }

    /// Reads `len` bytes of a page at a read point, from `offset` on. `len` is at least 1, and the range lies within the page's 4,096
    /// bytes.
    ///
    /// Errors: `Read`, `Broken`, and `BadRequest` for a range outside the page.
    fn read(&mut self, page: u16, point: u64, offset: u16, len: u16) -> Result<Vec<u8>, Error> {
        answers::bytes(self.ask(format!("read {page} {point} {offset} {len}").as_bytes())?, "page ")
    }

    /// Returns the stored record with the least key above this one. Repeated calls from `Key::default()` on return all stored records in
    /// order.
    fn next(&mut self, key: Key) -> Result<Option<Held>, Error> {
        answers::held(self.ask(format!("next {} {}", key.epoch, key.number).as_bytes())?)
    }

    /// Returns what the complete point waits for; `None` if no stored record waits or is alive above it.
    fn gap(&mut self) -> Result<Option<Gap>, Error> {
        answers::gap(self.ask(b"gap")?)
    }

    // Gossip

    /// Returns the segment's summary, encoded for another segment.
    ///
    /// Errors: `TooLong`.
    fn summary(&mut self) -> Result<Vec<u8>, Error> {
        answers::bytes(self.ask(b"ask")?, "summary ")
    }

    /// Returns the delta for another segment's summary: what this segment has beyond it, encoded for that segment.
    ///
    /// Errors: `Wire` if the bytes are not a summary, `Broken` and `TooLong`.
    fn reply(&mut self, summary: &[u8]) -> Result<Vec<u8>, Error> {
        answers::bytes(self.ask(&requests::answer(summary))?, "delta ")
    }

    /// Like `reply`, for a delta of at most `most` bytes. If it would have more, bring the other segment up to date with a snapshot and
    /// `unite`.
    ///
    /// Errors: those of `reply`, and `Large`.
    fn reply_within(&mut self, summary: &[u8], most: u32) -> Result<Vec<u8>, Error> {
        answers::bytes(self.ask(&requests::within(summary, most))?, "delta ")
    }

    /// Applies the delta that another segment returned for a summary of this segment.
    ///
    /// Errors: `Uncovered` if the segment has lost something that the summary lists, `Refused`, and `Wire`. They change nothing.
    fn absorb(&mut self, summary: &[u8], delta: &[u8]) -> Result<(), Error> {
        put(self, &requests::absorb(summary, delta), "absorbed")
    }

    // Space

    /// Folds a page: applies its records up to the anchor to its image.
    ///
    /// Errors: `Broken`.
    fn fold(&mut self, page: u16) -> Result<(), Error> {
        put(self, &requests::fold(page), "folded")
    }

    /// Raises the base point to the anchor and removes the records that images contain.
    fn discard(&mut self) -> Result<(), Error> {
        put(self, b"discard", "discarded")
    }

    /// Folds every page with stored records, discards, and removes dead records.
    ///
    /// Errors: `Broken`.
    fn tidy(&mut self) -> Result<(), Error> {
        put(self, b"tidy", "tidied")
    }

    // Snapshots

    /// Makes a snapshot, which the segment keeps until the next one, and returns the number of its pieces. A name is at most 2^48 - 1.
    ///
    /// Errors: `Snapshot` and `BadRequest`.
    fn freeze(&mut self, name: u64) -> Result<u32, Error> {
        answers::frozen(self.ask(format!("freeze {name}").as_bytes())?)
    }

    /// Returns a piece of the snapshot; pieces are numbered from 0.
    ///
    /// Errors: `Snapshot` and `TooLong`.
    fn piece(&mut self, index: u32) -> Result<Vec<u8>, Error> {
        answers::bytes(self.ask(format!("piece {index}").as_bytes())?, "piece ")
    }

    /// Begins a staging for the `total` pieces of a snapshot of that name. It replaces an older staging.
    ///
    /// Errors: `BadRequest`.
    fn stage(&mut self, name: u64, total: u32) -> Result<(), Error> {
        put(self, &requests::stage(name, total), "staged")
    }

    /// Adds a piece to the staging. Pieces may be added in any order.
    ///
    /// Errors: `Staging`, and `Wire` if the bytes are not a piece.
    fn add(&mut self, piece: &[u8]) -> Result<(), Error> {
        put(self, &requests::add(piece), "added")
    }

    /// Replaces the segment with the segment of the staged pieces.
    ///
    /// Errors: `Staging`.
    fn finish(&mut self) -> Result<(), Error> {
        put(self, &requests::finish(), "restored")
    }

    /// Joins the segment of the staged pieces into the segment, which loses nothing.
    ///
    /// Errors: `Staging`, and `Refused`.
    fn unite(&mut self) -> Result<(), Error> {
        put(self, &requests::unite(), "united")
    }
}

fn put(calls: &mut (impl Calls + ?Sized), request: &[u8], done: &str) -> Result<(), Error> {
    answers::done(calls.ask(request)?, done)
}

/// Sends the next requests, each prefixed with `word`, as many as one frame has room for, and passes each answer to `heard`.
fn ask_some<'a, I>(calls: &mut impl Calls, word: &[u8], requests: &mut Peekable<I>, mut heard: impl FnMut(&[u8])) -> Result<(), Error>
where
    I: Iterator<Item = &'a [u8]>,
{
    if let Some(request) = requests.next_if(|request| request.len() >= ENOUGH) {
        heard(calls.ask_parts(&[word, request])?);
        return Ok(());
    }
    let (mut inside, mut count) = (Vec::new(), 0);
    while count < MOST && inside.len() < ENOUGH {
        let Some(request) = requests.next_if(|request| request.len() < ENOUGH) else {
            break;
        };
        frames::append(&mut inside, &[word, request]).map_err(|_| Error::LongFrame)?;
        count += 1;
    }
    let answer = calls.ask_parts(&[b"many ", &inside])?;
    match frames::inside(answer) {
        Some(answers) if answers.len() == count => answers.into_iter().for_each(heard),
        _ => (0..count).for_each(|_| heard(answer)),
    }
    Ok(())
}

//! Gossip with a peer: this node requests what it lacks, in bounded messages.
//!
//! A round requests the peer's delta for the local summary. If the delta exceeds the limit, a snapshot of the peer is fetched in pieces and
//! united with the segment, which continues to answer meanwhile. The peer does the same for itself.

use crate::engine::{Handle, Refusal};
use crate::metrics::Metrics;
use std::collections::hash_map::RandomState;
use std::hash::{BuildHasher, Hasher};
use std::sync::{Arc, Mutex};
use std::thread;
use std::time::Duration;
use yieldcleat_client::{answers, frames, requests, Address, Calls, Connection, Error, Limits, MOST_NUMBER};

/// The number of pieces of a snapshot in flight at a time.
const PIECES: u32 = 64;
/// The longest pause after a failed round.
const LONGEST_PAUSE: Duration = Duration::from_secs(5);
/// The pause after the first failed round.
const FIRST_PAUSE: Duration = Duration::from_millis(100);
/// The length of a repeated delta, in bytes, for which the pause before the next round grows by `every`.
const USELESS: usize = 1 << 16;

/// The local segment, through the request queue.
struct Local {
    handle: Handle,
    answer: Vec<u8>,
}

impl Local {
    /// Sends requests that share one flush.
    fn ask_at_once(&self, requests: Vec<Vec<u8>>) -> Result<Vec<Vec<u8>>, Error> {
        self.handle.ask(requests).map_err(|refusal| match refusal {
            Refusal::DiskFull => Error::DiskFull,
            Refusal::Stopped => Error::Stopped(None),
        })
    }
}

impl Calls for Local {
    fn ask_parts(&mut self, parts: &[&[u8]]) -> Result<&[u8], Error> {
        self.answer = self.ask_at_once(vec![parts.concat()])?.pop().unwrap_or_default();
        Ok(&self.answer)
    }
}

/// Settings and state that all peers share.
pub struct Terms {
    pub handle: Handle,
    pub metrics: Arc<Metrics>,
    pub every: Duration,
    pub most: u32,
    pub patience: Duration,
    /// Locked while a snapshot is fetched, because a segment has one staging.
    pub staging: Mutex<()>,
}

/// The gossip with one peer.
pub struct Gossip {
    terms: Arc<Terms>,
    /// The position of the peer on the command line.
    place: usize,
    address: Address,
    local: Local,
    /// A hash of the last delta: the same delta again has nothing new.
    last: Option<u64>,
    hasher: RandomState,
}

impl Gossip {
    pub fn new(terms: Arc<Terms>, place: usize, address: Address) -> Gossip {
        let local = Local { handle: terms.handle.clone(), answer: Vec::new() };
        Gossip { terms, place, address, local, last: None, hasher: RandomState::new() }
    }

    /// Gossips until the local segment has stopped.
    pub fn run(mut self) {
        let (mut connection, mut pause) = (None, FIRST_PAUSE);
        loop {
            match self.turn(&mut connection) {
                Ok(useless) => {
                    pause = FIRST_PAUSE;
                    let times = u32::try_from(1 + useless / USELESS).unwrap_or(u32::MAX);
                    thread::sleep(self.terms.every.saturating_mul(times).min(LONGEST_PAUSE));
                }
                Err(Error::Stopped(_)) => return,
                Err(error) => {
                    self.note_failure(&error);
                    thread::sleep(pause);
                    pause = (2 * pause).min(LONGEST_PAUSE);
                }
            }
        }
    }

    /// Runs one round, over a new connection if there is none. Returns the length of a delta with nothing new, or 0.
    fn turn(&mut self, connection: &mut Option<Connection>) -> Result<usize, Error> {
        let limits = Limits { connect: self.terms.patience, answer: self.terms.patience, longest: frames::LONGEST };
        let mut peer = match connection.take().filter(Connection::is_open) {
            Some(peer) => peer,
            None => Connection::open(&self.address, limits)?,
        };
        let done = self.round(&mut peer);
        *connection = Some(peer);
        done
    }

    fn round(&mut self, peer: &mut Connection) -> Result<usize, Error> {
        let front = peer.front()?;
        let summary = self.local.summary()?;
        let useless = match peer.reply_within(&summary, self.terms.most) {
            Ok(delta) => self.absorb(&summary, &delta)?,
            Err(Error::Large) => self.bring_snapshot(peer).map(|()| 0)?,
            Err(error) => return Err(error),
        };
        self.terms.metrics.with_peer(self.place, |it| {
            (it.is_up, it.front, it.trouble) = (true, Some(front), None);
            it.rounds += 1;
        });
        Ok(useless)
    }

    /// Absorbs a delta, unless it equals the last one. Returns the length of such a repeated delta, or 0. It may be long, because a peer
    /// that lags sends all that it has above its own anchor in each round.
    fn absorb(&mut self, summary: &[u8], delta: &[u8]) -> Result<usize, Error> {
        let hash = Some(self.hasher.hash_one(delta));
        if hash == self.last {
            return Ok(delta.len());
        }
        self.last = match self.local.absorb(summary, delta) {
            Ok(()) => hash,
            // The segment has folded meanwhile: the next round sends another summary.
            Err(Error::Uncovered(_)) => None,
            Err(error) => return Err(error),
        };
        Ok(0)
    }

    /// Fetches a snapshot of the peer and unites it with the segment. If another reader uses the peer's snapshot, or another snapshot is
    /// being fetched, a later round tries again.
    fn bring_snapshot(&mut self, peer: &mut Connection) -> Result<(), Error> {
        let terms = self.terms.clone();
        let Ok(_one) = terms.staging.try_lock() else {
            return Ok(());
        };
        let name = RandomState::new().build_hasher().finish() & MOST_NUMBER;
        let total = match peer.freeze(name) {
            Err(Error::Busy) => return Ok(()),
            frozen => frozen?,
        };
        crate::say(format_args!("catching up with {}: fetching its snapshot in {total} pieces", self.address));
        self.local.stage(name, total)?;
        for first in (0..total).step_by(PIECES as usize) {
            self.bring_pieces(peer, first..total.min(first.saturating_add(PIECES)))?;
        }
        self.local.unite()?;
        crate::say(format_args!("merged the snapshot of {}", self.address));
        terms.metrics.with_peer(self.place, |it| it.snapshots += 1);
        Ok(())
    }

    fn bring_pieces(&mut self, peer: &mut Connection, places: std::ops::Range<u32>) -> Result<(), Error> {
        let asked: Vec<Vec<u8>> = places.map(|index| format!("piece {index}").into_bytes()).collect();
        let told = peer.ask_all(asked.iter().map(Vec::as_slice))?;
        let pieces: Result<Vec<_>, Error> = told.iter().map(|answer| answers::bytes(answer, "piece ")).collect();
        let adds = pieces?.iter().map(|piece| requests::add(piece)).collect();
        self.local.ask_at_once(adds)?.iter().try_for_each(|answer| answers::done(answer, "added"))
    }

    /// Records why a round failed, and logs it if the peer was up.
    fn note_failure(&self, error: &Error) {
        let mut was_up = false;
        self.terms.metrics.with_peer(self.place, |it| {
            was_up = it.is_up || it.failures == 0;
            it.is_up = false;
            it.failures += 1;
            it.trouble = Some(error.to_string());
        });
        if was_up {
            crate::say(format_args!("warning: gossip with {} failed: {error}", self.address));
        }
    }
}

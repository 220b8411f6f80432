//! A handle that reads a volume and fences no engine.

use crate::errors::{Quorum, VolumeError};
use crate::known::Known;
use crate::newest::{show, together, Shown, Together};
use crate::nodes::Nodes;
use crate::options::Options;
use crate::page_zero::PageZero;
use crate::panel::Panel;
use crate::reading::{At, Range, Readers};
use std::sync::atomic::{AtomicU64, Ordering};
use std::sync::{Arc, Mutex, MutexGuard, PoisonError};
use std::thread;
use std::time::{Duration, Instant};
use yieldcleat_client::Membership;

/// A volume that this process reads. Many threads may call it.
pub struct Reader {
    options: Options,
    nodes: Arc<Nodes>,
    readers: Readers,
    panel: Panel<(Membership, Option<Shown>)>,
    known: Mutex<Known>,
    /// The greatest generation of a member that was seen.
    generation: AtomicU64,
}

/// The answers of one round of questions.
#[derive(Default)]
struct Round {
    shown: Vec<Shown>,
    births: Vec<u64>,
    answered: usize,
    fresh: usize,
}

/// The results of all rounds of one call: the least bound of the newest epoch, and the greatest durable point in it.
#[derive(Default)]
struct Search {
    epoch: u16,
    bound: Option<u64>,
    durable: Option<u64>,
}

impl Search {
    /// Adds what nodes show together. Returns a durable point that no durable point was above when the call began.
    fn add(&mut self, found: Together) -> Option<(u16, u64)> {
        if found.epoch > self.epoch {
            *self = Search { epoch: found.epoch, ..Search::default() };
        }
        if found.epoch == self.epoch {
            self.bound = self.bound.into_iter().chain(found.bound).min();
            self.durable = self.durable.max(found.durable);
        }
        let point = self.durable.filter(|durable| self.bound.is_some_and(|bound| *durable >= bound))?;
        Some((self.epoch, point))
    }
}

/// How long enough nodes may fail to prove a commit: another engine may take that long to open the volume.
const UNPROVED: Duration = Duration::from_secs(2);

/// The first and the longest pause between two rounds: commits may be on their way to the nodes that lack them.
const PAUSES: [Duration; 2] = [Duration::from_millis(1), Duration::from_millis(50)];

impl Reader {
    /// Opens a reader of the volume of these nodes.
    ///
    /// Errors: `Options` and `Thread`.
    pub fn open(options: Options) -> Result<Reader, VolumeError> {
        options.check().map_err(VolumeError::Options)?;
        let options = options.bounded();
        let nodes = Arc::new(Nodes::new(&options));
        let panel = Panel::start(&nodes, show).map_err(|error| VolumeError::Thread(error.kind()))?;
        let (known, generation) = (Mutex::default(), AtomicU64::new(0));
        Ok(Reader { readers: Readers::new(&nodes), options, nodes, panel, known, generation })
    }

    /// Returns the newest durable commit point: at or above each one of this volume that any handle has seen durable before the call.
    ///
    /// Errors: `NotOpened` if too few nodes answer within the time allowed; `Unproved`; `Empty`.
    pub fn newest(&self) -> Result<u64, VolumeError> {
        let begun = Instant::now();
        let deadline = begun + self.options.patience;
        let (mut search, mut pause) = (Search::default(), PAUSES[0]);
        loop {
            let round_end = deadline.min(Instant::now() + self.options.limits.answer);
            let (round, found) = self.ask_round(&mut search, round_end);
            if let Some(found) = found {
                let mut known = self.lock();
                known.learn(&Known::of(found, round.births));
                return Ok(known.newest().1);
            }
            let quorum = Quorum::of(round.shown.len(), &self.options);
            if round.fresh == self.options.nodes.len() {
                return Err(VolumeError::Empty);
            }
            if round.shown.len() >= usize::from(self.options.quorum) && begun.elapsed() >= UNPROVED.min(self.options.patience) {
                return Err(VolumeError::Unproved(quorum));
            }
            if Instant::now() >= deadline {
                return Err(VolumeError::NotOpened(quorum));
            }
            thread::sleep(pause);
            pause = (pause * 2).min(PAUSES[1]);
        }
    }

    /// Asks all nodes once, until they prove a point.
    fn ask_round(&self, search: &mut Search, deadline: Instant) -> (Round, Option<(u16, u64)>) {
        let (answers, mut round) = (self.panel.ask(), Round::default());
        let mut end = deadline;
        while let Some((_, answer)) = answers.next(end) {
            let Some((status, shown)) = answer else {
                continue;
            };
            self.generation.fetch_max(status.generation, Ordering::Relaxed);
            round.answered += 1;
            round.fresh += usize::from(!status.is_member);
            round.births.extend(status.is_member.then_some(status.birth));
            round.shown.extend(shown);
            let together = together(&round.shown, self.options.nodes.len(), self.options.quorum.into());
            if let Some(found) = together.and_then(|it| search.add(it)) {
                return (round, Some(found));
            }
            if round.answered >= usize::from(self.options.quorum) {
                // The others may be unreachable: another round may prove more.
                end = end.min(Instant::now() + self.options.remind);
            }
        }
        (round, None)
    }

    fn lock(&self) -> MutexGuard<'_, Known> {
        self.known.lock().unwrap_or_else(PoisonError::into_inner)
    }

    /// Returns the newest durable commit point that this handle knows, without a request.
    pub fn known(&self) -> u64 {
        self.lock().newest().1
    }

    /// Adds what another handle knows, if it is of this volume. Returns the newest durable commit point that is known then.
    pub fn learn(&self, found: &Known) -> u64 {
        let mut known = self.lock();
        if known.meets(found) {
            known.learn(found);
        }
        known.newest().1
    }

    /// Returns the greatest generation of a member that was seen.
    pub fn generation(&self) -> u64 {
        self.generation.load(Ordering::Relaxed)
    }

    /// Returns the number of nodes that answered their last request.
    pub fn answering(&self) -> usize {
        self.nodes.answering()
    }

    /// Reads page 0 at a point.
    ///
    /// Errors: those of `read`, and `Refused` with `Damaged` if no volume wrote page 0.
    pub fn page_zero(&self, point: u64) -> Result<PageZero, VolumeError> {
        let at = self.at(point)?;
        self.readers.page_zero(|| Ok(at), Instant::now() + self.options.patience)
    }

    /// Reads `length` bytes of a page from `offset` on, at a durable commit point up to the newest one that `newest` or `learn` has
    /// returned.
    ///
    /// Errors: `Argument`, `Above`, `Below` and `NotRead`.
    pub fn read(&self, page: u16, point: u64, offset: u16, length: u16) -> Result<Vec<u8>, VolumeError> {
        let range = Range { at: self.at(point)?, page, offset, length };
        range.check()?;
        self.readers.read(|| Ok(range), Instant::now() + self.options.patience)
    }

    /// Adds the epoch to a point: a node of an earlier epoch may have dead records in its place.
    fn at(&self, point: u64) -> Result<At, VolumeError> {
        let (epoch, newest) = self.lock().newest();
        if point > newest {
            return Err(VolumeError::Above { newest });
        }
        Ok(At { epoch, point, is_durable: true })
    }
}

#[cfg(test)]
mod tests {
    use super::*;

    fn found(epoch: u16, durable: Option<u64>, bound: Option<u64>) -> Together {
        Together { epoch, durable, bound }
    }

    #[test]
    fn no_point_above_the_newest_one_is_read() {
        let node = yieldcleat_client::Address::Unix("nobody".into());
        let reader = Reader::open(Options::new(vec![node])).unwrap();
        assert_eq!(reader.read(1, 1, 0, 1), Err(VolumeError::Above { newest: 0 }));
        reader.lock().learn(&Known::of((2, 7), [1]));
        assert_eq!(reader.page_zero(8), Err(VolumeError::Above { newest: 7 }));
    }

    #[test]
    fn a_point_is_found_once_nothing_durable_is_above() {
        let mut search = Search::default();
        assert_eq!(search.add(found(1, Some(5), Some(9))), None);
        assert_eq!(search.add(found(1, Some(9), Some(12))), Some((1, 9)));
        let mut search = Search::default();
        assert_eq!(search.add(found(1, None, Some(9))), None);
        assert_eq!(search.add(found(2, Some(7), None)), None);
        assert_eq!(search.add(found(1, Some(9), Some(9))), None);
        assert_eq!(search.add(found(2, Some(8), Some(8))), Some((2, 8)));
    }
}

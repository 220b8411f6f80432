//! The work of the server between requests: it folds pages up to the anchor, discards what is folded, and replaces a log that has grown
//! with a snapshot.

use crate::metrics::Metrics;
use crate::snapshots::{Owner, Snapshots};
use std::collections::hash_map::RandomState;
use std::hash::{BuildHasher, Hasher};
use std::sync::atomic::Ordering::Relaxed;
use std::sync::Arc;
use std::time::{Duration, Instant};
use yieldcleat::{Activity, Store, StoreError};
use yieldcleat_client::{answers, frames, requests};

/// The greatest number of pages of a slice.
const SLICE: usize = 256;
const PAGES: usize = 1 << 16;
/// The multiple of the scheduled log size at which a snapshot is made even while a client reads the present one.
const OVERDUE: f64 = 4.0;
/// The pause after a snapshot that failed.
const AGAIN: Duration = Duration::from_secs(10);
/// The number of pieces of a snapshot that are written at a time, between two batches of requests.
const PIECES: u32 = 64;
/// The least interval between two such writes, and how long the thread waits for requests meanwhile.
const PIECES_EVERY: Duration = Duration::from_millis(2);

pub struct Housekeeping {
    every: Duration,
    next: Instant,
    /// The pages that may have records to fold.
    pages: Vec<bool>,
    /// Whether there are such pages.
    has_pages: bool,
    /// The page at which the next slice begins; 0 between two rounds.
    place: usize,
    /// The anchor up to which all pages are folded.
    folded: u64,
    /// The anchor at which the present round over the pages began.
    aim: u64,
    /// The least size of the log before a snapshot, in bytes.
    snapshot_after: u64,
    /// A random factor from 1 to 2, so that nodes with logs of one size make their snapshots at different times.
    stagger: f64,
    snapshots: Arc<Snapshots>,
    again_at: Instant,
    /// When the snapshot that is being written began.
    began: Option<Instant>,
    /// The generation before that snapshot.
    generation: u64,
    /// When its next pieces are written.
    next_pieces: Instant,
}

impl Housekeeping {
    pub fn new(every: Duration, snapshot_after: u64, snapshots: Arc<Snapshots>) -> Housekeeping {
        let (now, random) = (Instant::now(), RandomState::new().build_hasher().finish() >> 11);
        Housekeeping {
            every,
            next: now + every,
            pages: vec![true; PAGES],
            has_pages: true,
            place: 0,
            folded: 0,
            aim: 0,
            snapshot_after,
            stagger: 1.0 + random as f64 / (1u64 << 53) as f64,
            snapshots,
            again_at: now,
            began: None,
            generation: 0,
            next_pieces: now,
        }
    }

    /// Returns how long the thread may wait for requests.
    pub fn pace(&self, most: Duration) -> Duration {
        if self.began.is_some() {
            PIECES_EVERY
        } else {
            most
        }
    }

    /// Notes the pages that requests may have left to fold.
    pub fn note(&mut self, batch: &[&Vec<u8>]) {
        for request in batch {
            match request.strip_prefix(b"many ") {
                Some(inside) => frames::inside(inside).unwrap_or_default().into_iter().for_each(|it| self.note_one(it)),
                None => self.note_one(request),
            }
        }
    }

    fn note_one(&mut self, request: &[u8]) {
        let request = requests::heading(request).1;
        match requests::word(request) {
            b"take" => {
                if let Some(page) = page_of(request) {
                    self.pages[usize::from(page)] = true;
                    self.has_pages = true;
                }
            }
            b"absorb" | b"unite" => {
                self.pages.fill(true);
                self.has_pages = true;
            }
            _ => {}
        }
    }

    /// Does the scheduled work: a slice of folding, the beginning of a snapshot, or some of its pieces.
    ///
    /// Errors: those of the store, except `Full`.
    pub fn work(&mut self, store: &mut Store, metrics: &Metrics) -> Result<(), StoreError> {
        let now = Instant::now();
        if self.began.is_some() && now >= self.next_pieces {
            self.next_pieces = now + PIECES_EVERY;
            let went = store.go_on_with_checkpoint(PIECES);
            return self.judge(store, went);
        }
        if now < self.next {
            return Ok(());
        }
        let done = self.fold(store, metrics);
        self.next = Instant::now() + self.every;
        match done {
            Ok(()) => self.begin_snapshot(store),
            Err(StoreError::Full { .. }) => Ok(()),
            Err(error) => Err(error),
        }
    }

    fn fold(&mut self, store: &mut Store, metrics: &Metrics) -> Result<(), StoreError> {
        if !self.has_pages {
            return Ok(());
        }
        let told = store.answer(&[b"state"])?;
        let Some(Ok(state)) = told.first().map(|it| answers::state(it)) else {
            return Ok(());
        };
        if self.place == 0 {
            self.aim = state.anchor;
        }
        if self.aim == self.folded {
            return Ok(());
        }
        let chosen: Vec<usize> = (self.place..PAGES).filter(|page| self.pages[*page]).take(SLICE).collect();
        let asked: Vec<Vec<u8>> = chosen.iter().map(|page| requests::fold(*page as u16)).collect();
        let Ok(many) = requests::many(asked.iter().map(Vec::as_slice)) else {
            return Ok(());
        };
        store.answer(&[&many[..], b"discard"])?;
        metrics.folds.fetch_add(chosen.len() as u64, Relaxed);
        self.go_on(&chosen);
        Ok(())
    }

    /// Sets where the next slice begins. A page stays noted: its records above the anchor are folded in a later round.
    fn go_on(&mut self, chosen: &[usize]) {
        match chosen.last() {
            Some(last) if chosen.len() == SLICE => self.place = last + 1,
            _ => (self.place, self.folded) = (0, self.aim),
        }
    }

    /// Returns the log size at which a snapshot is scheduled. The next log begins with an unfinished staging, so the log must reach twice
    /// the size of the staging before it is written again.
    fn least(&self, activity: &Activity) -> f64 {
        self.snapshot_after.max(2 * activity.snapshot).max(2 * activity.staging) as f64 * self.stagger
    }

    fn begin_snapshot(&mut self, store: &mut Store) -> Result<(), StoreError> {
        let activity = store.activity();
        let (least, log, now) = (self.least(&activity), activity.log as f64, Instant::now());
        if self.began.is_some() || log < least || now < self.again_at {
            return Ok(());
        }
        if log >= OVERDUE * least {
            self.snapshots.seize();
        } else if !self.snapshots.take(Owner::Server) {
            return Ok(());
        }
        (self.began, self.generation) = (Some(now), activity.generation);
        let begun = store.begin_checkpoint().map(|()| true);
        self.judge(store, begun)
    }

    /// Notes whether a snapshot continues, is finished, or has failed.
    ///
    /// Errors: an error after which the store answers nothing.
    fn judge(&mut self, store: &Store, went: Result<bool, StoreError>) -> Result<(), StoreError> {
        let Some(began) = self.began else {
            return Ok(());
        };
        match went {
            Ok(true) if store.has_checkpoint() => return Ok(()),
            Ok(_) if store.activity().generation == self.generation => self.put_off("a client is reading a snapshot"),
            Ok(_) => {
                let (activity, took) = (store.activity(), began.elapsed().as_millis());
                crate::say(format_args!("snapshot {} of {} bytes took {took} ms", activity.generation, activity.snapshot));
            }
            Err(error) if store.is_stopped() => return Err(error),
            Err(error) => self.put_off(&error.to_string()),
        }
        self.began = None;
        self.snapshots.release(Owner::Server);
        Ok(())
    }

    fn put_off(&mut self, why: &str) {
        crate::say(format_args!("warning: no snapshot: {why}"));
        self.again_at = Instant::now() + AGAIN;
    }
}

/// Returns the page of the record in a take.
fn page_of(take: &[u8]) -> Option<u16> {
    let fact = take.strip_prefix(b"take ")?;
    let page = fact.get(15..17)?.try_into().ok()?;
    matches!(fact.first()?, 1 | 6).then(|| u16::from_be_bytes(page))
}

#[cfg(test)]
mod tests {
    use super::*;
    use yieldcleat_client::{Advance, Patch, Record};

    #[test]
    fn records_name_their_pages() {
        let record = Record { epoch: 1, number: 9, back: 8, page: 0x1234, block_back: 7, begins_anew: true, patches: vec![] };
        assert_eq!(page_of(&requests::take(&record.encode().unwrap())), Some(0x1234));
        let record = Record { begins_anew: false, patches: vec![Patch::write(0, b"a")], ..record };
        assert_eq!(page_of(&requests::take(&record.encode().unwrap())), Some(0x1234));
        let advance = Advance { epoch: 0, reader: 1, point: 1 };
        assert_eq!(page_of(&requests::take(&advance.encode().unwrap())), None);
        assert_eq!((page_of(b"take \x01"), page_of(b"front")), (None, None));
    }

    #[test]
    fn a_staging_is_not_written_again_and_again() {
        let mut it = Housekeeping::new(Duration::ZERO, 100, Arc::default());
        it.stagger = 1.0;
        let least = |snapshot, staging| it.least(&Activity { snapshot, staging, ..Activity::default() });
        assert_eq!([least(20, 0), least(60, 0), least(60, 30), least(60, 90)], [100.0, 120.0, 120.0, 180.0]);
    }

    #[test]
    fn slices_go_round() {
        let mut it = Housekeeping::new(Duration::ZERO, 1, Arc::default());
        assert!((1.0..2.0).contains(&it.stagger));
        let slice: Vec<usize> = (0..SLICE).collect();
        it.aim = 5;
        it.go_on(&slice);
        assert_eq!((it.place, it.folded), (SLICE, 0));
        it.go_on(&slice[..3]);
        assert_eq!((it.place, it.folded), (0, 5));
    }
}

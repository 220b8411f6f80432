//! The progress of a volume, for threads that wait.

use crate::errors::{Quorum, VolumeError};
use crate::known::Known;
use crate::options::Options;
use std::collections::BTreeSet;
use std::sync::{Condvar, Mutex, MutexGuard, PoisonError};
use std::time::Instant;

/// The state of an open volume.
#[derive(Debug, Clone, PartialEq, Eq)]
pub struct Standing {
    pub generation: u64,
    pub epoch: u16,
    /// The commit point at which the volume was opened.
    pub opened_at: u64,
    /// The header of that commit.
    pub header: Vec<u8>,
    /// All commits up to this point are durable.
    pub durable: u64,
    /// The commit point of the last mini-transaction.
    pub committed: u64,
    /// The number of nodes that answer.
    pub answering: usize,
    /// The number of these nodes that do not count for a quorum yet: they have lost their files, and the volume opens again by itself to
    /// admit them.
    pub uncounted: usize,
}

/// The points of an open volume, for code that needs them often.
#[derive(Debug, Clone, Copy, PartialEq, Eq)]
pub struct Place {
    pub epoch: u16,
    pub durable: u64,
    pub committed: u64,
    /// Whether a mini-transaction is not durable.
    pub is_waiting: bool,
}

/// How many nodes the links have reached.
#[derive(Debug, Clone, Copy, Default)]
pub struct Reached {
    /// The number of nodes that are or were connected, or to which a first connection failed.
    pub tried: usize,
    pub connected: usize,
    pub answering: usize,
    /// The number of nodes that do not count for a quorum yet.
    pub uncounted: usize,
}

/// The size of a mini-transaction that is not durable.
#[derive(Debug, Clone, Copy)]
struct InFlight {
    commit_point: u64,
    bytes: usize,
}

#[derive(Default)]
struct State {
    standing: Option<Standing>,
    /// The greatest generation that nodes were asked to serve.
    claimed: u64,
    reached: Reached,
    /// The births of the nodes that have answered as members.
    births: BTreeSet<u64>,
    in_flight: Vec<InFlight>,
    failed: Option<VolumeError>,
}

impl State {
    fn counted(&self) -> usize {
        self.reached.answering.saturating_sub(self.reached.uncounted)
    }
}

/// The state that the driver reports and callers wait for.
#[derive(Default)]
pub struct Progress {
    state: Mutex<State>,
    changed: Condvar,
    /// When a part of a long request or answer last moved.
    moved: Mutex<Option<Instant>>,
}

impl Progress {
    fn lock(&self) -> MutexGuard<'_, State> {
        self.state.lock().unwrap_or_else(PoisonError::into_inner)
    }

    fn change<T>(&self, change: impl FnOnce(&mut State) -> T) -> T {
        let changed = change(&mut self.lock());
        self.changed.notify_all();
        changed
    }

    /// Waits until `holds` returns a value, or until the deadline.
    fn wait<T>(&self, deadline: Instant, mut holds: impl FnMut(&State) -> Option<T>) -> Option<T> {
        let mut state = self.lock();
        loop {
            if let Some(found) = holds(&state) {
                return Some(found);
            }
            let left = deadline.checked_duration_since(Instant::now()).filter(|left| !left.is_zero())?;
            state = self.changed.wait_timeout(state, left).unwrap_or_else(PoisonError::into_inner).0;
        }
    }

    // Reports of the driver

    /// Forgets earlier attempts to open the volume, for a caller that has no handle yet.
    pub fn begin(&self) {
        self.change(|state| {
            (state.standing, state.failed) = (None, None);
            state.in_flight.clear();
        });
    }

    pub fn open(&self, generation: u64, epoch: u16, commit_point: u64, header: Vec<u8>) {
        self.change(|state| {
            let (durable, committed) = (commit_point, commit_point);
            let Reached { answering, uncounted, .. } = state.reached;
            state.standing =
                Some(Standing { generation, epoch, opened_at: commit_point, header, durable, committed, answering, uncounted });
        });
    }

    pub fn claim(&self, generation: u64) {
        self.change(|state| state.claimed = state.claimed.max(generation));
    }

    pub fn reached(&self, reached: Reached) {
        self.change(|state| {
            state.reached = reached;
            if let Some(standing) = &mut state.standing {
                (standing.answering, standing.uncounted) = (reached.answering, reached.uncounted);
            }
        });
    }

    /// Notes that a part of a long request or answer has moved.
    pub fn note_moved(&self) {
        *self.moved.lock().unwrap_or_else(PoisonError::into_inner) = Some(Instant::now());
    }

    /// Notes the birth of a member.
    pub fn met(&self, birth: u64) {
        self.lock().births.insert(birth);
    }

    pub fn committed(&self, commit_point: u64, bytes: usize) {
        self.change(|state| {
            state.in_flight.push(InFlight { commit_point, bytes });
            if let Some(standing) = &mut state.standing {
                standing.committed = commit_point;
            }
        });
    }

    pub fn durable(&self, commit_point: u64) {
        self.change(|state| {
            state.in_flight.retain(|it| it.commit_point > commit_point);
            if let Some(standing) = &mut state.standing {
                standing.durable = standing.durable.max(commit_point);
            }
        });
    }

    /// Ends the volume with an error, which `standing` and each wait that is not fulfilled return. The first error is kept.
    pub fn fail(&self, error: VolumeError) {
        self.change(|state| {
            state.failed.get_or_insert(error);
        });
    }

    // Queries of callers

    /// Returns the state of the volume.
    ///
    /// Errors: the one that has ended the volume; `Closed` if it is not open.
    pub fn standing(&self) -> Result<Standing, VolumeError> {
        let state = self.lock();
        match (&state.failed, &state.standing) {
            (Some(error), _) => Err(error.clone()),
            (None, Some(standing)) => Ok(standing.clone()),
            (None, None) => Err(VolumeError::Closed),
        }
    }

    /// Returns the last durable commit point; zeros if the volume was never open.
    pub fn known(&self) -> Known {
        let state = self.lock();
        let newest = state.standing.as_ref().map_or((0, 0), |standing| (standing.epoch, standing.durable));
        Known::of(newest, state.births.iter().copied())
    }

    /// Returns when a part of a long request or answer last moved.
    pub fn moved(&self) -> Option<Instant> {
        *self.moved.lock().unwrap_or_else(PoisonError::into_inner)
    }

    /// Returns the greatest generation that nodes were asked to serve. It is set before a node can report it.
    pub fn claimed(&self) -> u64 {
        self.lock().claimed
    }

    /// Returns the points of the volume. `None` if it is not open, or has ended.
    pub fn place(&self) -> Option<Place> {
        let state = self.lock();
        let standing = state.standing.as_ref().filter(|_| state.failed.is_none())?;
        let Standing { epoch, durable, committed, .. } = *standing;
        Some(Place { epoch, durable, committed, is_waiting: !state.in_flight.is_empty() })
    }

    pub fn quorum(&self, options: &Options) -> Quorum {
        let state = self.lock();
        Quorum { uncounted: state.reached.uncounted, ..Quorum::of(state.counted(), options) }
    }

    /// Waits until each node is connected, or has failed to connect while a quorum is connected, or until the deadline.
    pub fn wait_connected(&self, options: &Options, deadline: Instant) {
        let (all, quorum) = (options.nodes.len(), usize::from(options.quorum));
        let is_enough = |Reached { tried, connected, .. }| tried >= all && connected >= quorum;
        self.wait(deadline, |state| is_enough(state.reached).then_some(()));
    }

    /// Returns the last commit point up to `up_to` that is not durable.
    pub fn last_waiting(&self, up_to: u64) -> Option<u64> {
        self.lock().in_flight.iter().map(|it| it.commit_point).filter(|point| *point <= up_to).max()
    }

    /// Returns whether a mini-transaction is not durable.
    pub fn is_waiting(&self) -> bool {
        let state = self.lock();
        state.failed.is_none() && !state.in_flight.is_empty()
    }

    /// Waits until the commit point is durable. `None` if it is not before the deadline.
    ///
    /// Errors: the one that has ended the volume.
    pub fn wait_durable(&self, commit_point: u64, deadline: Instant) -> Option<Result<(), VolumeError>> {
        self.wait(deadline, |state| {
            let durable = state.standing.as_ref().map_or(0, |standing| standing.durable);
            if durable >= commit_point {
                return Some(Ok(()));
            }
            state.failed.clone().map(Err)
        })
    }

    /// Waits until fewer bytes than the limit are in flight and a quorum answers. `None` if that does not happen before the deadline.
    ///
    /// Errors: the one that has ended the volume.
    pub fn wait_room(&self, options: &Options, deadline: Instant) -> Option<Result<(), VolumeError>> {
        let has_room = |state: &State| state.in_flight.iter().map(|it| it.bytes).sum::<usize>() < options.in_flight;
        self.wait(deadline, |state| match &state.failed {
            Some(error) => Some(Err(error.clone())),
            None => (state.counted() >= usize::from(options.quorum) && has_room(state)).then_some(Ok(())),
        })
    }
}

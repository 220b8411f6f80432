//! The decision when an open volume is opened again. A node that has lost its files does not count for a quorum before an opening admits
//! it, and a writer may stay open for months.

use crate::options::Options;
use crate::standing::Statuses;
use std::time::{Duration, Instant};
use yieldcleat_client::Membership;

/// Why a node that answers does not count before the next opening.
#[derive(Debug, Clone, Copy, PartialEq, Eq)]
pub enum Outside {
    /// It is not a member, and has this birth.
    Fresh(u64),
    /// It is a member of the engine's own generation, but the answer that named its birth was lost.
    Unheard(u64),
}

/// The state of the driver when it asks for the next step.
#[derive(Debug, Clone, Default)]
pub struct Seen {
    /// The nodes that answer and do not count.
    pub outside: Vec<Outside>,
    pub connected: usize,
    /// The greatest generation that this engine has asked nodes to serve.
    pub claimed: u64,
    pub epoch: u16,
    pub durable: u64,
    pub committed: u64,
    /// Whether a mini-transaction is not durable.
    pub is_waiting: bool,
}

/// The next step of the driver.
#[derive(Debug, Clone, Copy, PartialEq, Eq)]
pub enum Next {
    Nothing,
    /// Ask each connected node for its status.
    Ask,
    /// Open the volume under the next generation.
    Open,
    /// End: another engine has opened the volume, or is about to.
    Fenced {
        generation: u64,
    },
}

enum Stage {
    Resting,
    /// The nodes are asked for their status, until a deadline.
    Asking {
        statuses: Statuses,
        until: Instant,
    },
    /// Commits wait until nothing is in flight.
    Draining,
    Opening {
        until: Instant,
    },
}

/// When a node that does not count was first seen, and what was durable then.
#[derive(Clone, Copy)]
struct Noticed {
    at: Instant,
    durable: u64,
}

/// After this many pauses, a node that gossip does not bring up to date gets everything from the engine, if a frame has room for it.
const UNHELPED: u32 = 10;
/// The longest pause if earlier attempts did not admit the nodes, because an opening uses up epochs.
const LONGEST_WAIT: Duration = Duration::from_secs(3600);
/// The longest attempt. It takes longer the more the volume has, and another one would begin from nothing. An attempt that has lost a node
/// is abandoned before, unless the node comes back as the same member.
const ATTEMPT: Duration = Duration::from_secs(60);
/// From this epoch on, the epochs left are for openings after a crash.
const LAST_EPOCH: u16 = 65_000;

/// Decides when the volume is opened again. It has no clock and sends nothing: the driver carries out its decisions.
pub struct Reopening {
    options: Options,
    stage: Stage,
    /// The earliest time of the next decision.
    next: Instant,
    noticed: Option<Noticed>,
    /// The time from which on commits wait.
    held: Option<Instant>,
    /// Whether the machine was asked to open the volume again and has not reported that it is open.
    is_shut: bool,
    /// The fresh nodes that have the log.
    helped: Vec<usize>,
    /// The nodes that did not count at the last attempt.
    tried: Vec<Outside>,
    /// The pause before another attempt if there are no other such nodes.
    wait: Duration,
    /// The pause after an attempt that fails.
    retry: Duration,
}

impl Reopening {
    pub fn new(options: &Options, now: Instant) -> Reopening {
        Reopening {
            stage: Stage::Resting,
            next: now,
            noticed: None,
            held: None,
            is_shut: false,
            helped: Vec::new(),
            tried: Vec::new(),
            wait: options.admission,
            retry: options.retry,
            options: options.clone(),
        }
    }

    /// Returns whether commits wait.
    pub fn holds(&self) -> bool {
        self.held.is_some()
    }

    /// Returns whether the volume must be opened again and is not open: commits wait, and attempts follow until one succeeds.
    pub fn is_shut(&self) -> bool {
        self.is_shut
    }

    pub fn is_opening(&self) -> bool {
        matches!(self.stage, Stage::Opening { .. })
    }

    /// Returns whether a fresh node has what the engine sends it before it is admitted. It need not be sent again: a node that lacks any of
    /// it is not admitted.
    pub fn is_helped(&self, node: u8) -> bool {
        self.is_opening() && self.helped.contains(&node.into())
    }

    /// Returns whether there is nothing to decide while all nodes that answer count.
    pub fn is_at_rest(&self) -> bool {
        matches!(self.stage, Stage::Resting) && !self.is_shut && self.noticed.is_none()
    }

    /// Notes the status of a node.
    pub fn hear(&mut self, node: u8, status: Membership) {
        if let Stage::Asking { statuses, .. } = &mut self.stage {
            statuses.add(node.into(), status);
        }
    }

    /// Makes commits wait.
    #[cfg(test)]
    pub fn hold(&mut self, now: Instant) {
        self.held = Some(now);
    }

    /// Returns the next step.
    pub fn next(&mut self, now: Instant, seen: &Seen) -> Next {
        match &self.stage {
            Stage::Resting => match self.is_due(now, seen) {
                true => self.ask(now),
                false => Next::Nothing,
            },
            Stage::Asking { statuses, until } if self.have_answered(statuses, *until, now, seen) => self.judge(now, seen),
            Stage::Draining => self.drain(now, seen),
            Stage::Opening { until } if now >= *until => self.failed(now),
            Stage::Asking { .. } | Stage::Opening { .. } => Next::Nothing,
        }
    }

    /// Returns whether the answers so far are enough, or must be.
    fn have_answered(&self, statuses: &Statuses, until: Instant, now: Instant, seen: &Seen) -> bool {
        let is_late = now >= until + self.options.patience / 8;
        statuses.count() >= seen.connected || is_late || (now >= until && statuses.have_members(self.options.quorum))
    }

    fn is_due(&mut self, now: Instant, seen: &Seen) -> bool {
        if self.is_shut {
            return now >= self.next;
        }
        if seen.outside.is_empty() || seen.epoch >= LAST_EPOCH {
            self.noticed = None;
            return false;
        }
        let noticed = *self.noticed.get_or_insert(Noticed { at: now, durable: seen.durable });
        now >= self.next && now >= noticed.at + self.pause(seen)
    }

    /// Returns how long nodes that do not count are left to gossip.
    fn pause(&self, seen: &Seen) -> Duration {
        match seen.outside.iter().all(|it| self.tried.contains(it)) {
            true => self.wait,
            false => self.options.admission,
        }
    }

    fn ask(&mut self, now: Instant) -> Next {
        let statuses = Statuses::none(self.options.nodes.len());
        self.stage = Stage::Asking { statuses, until: now + self.options.grace };
        Next::Ask
    }

    /// Decides by the statuses of the nodes.
    fn judge(&mut self, now: Instant, seen: &Seen) -> Next {
        let Stage::Asking { statuses, .. } = std::mem::replace(&mut self.stage, Stage::Resting) else {
            return Next::Nothing;
        };
        if let Some(generation) = statuses.later_than(seen.claimed) {
            return Next::Fenced { generation };
        }
        let quorum = self.options.quorum;
        if self.is_shut {
            // Members of an earlier generation are those that earlier attempts have not reached.
            return match statuses.have_members(quorum) {
                true => self.open(now, seen, &statuses),
                false => self.failed(now),
            };
        }
        if !statuses.are_of(seen.claimed, quorum) {
            return self.released(now);
        }
        match self.held {
            Some(_) if statuses.fresh_have(seen.epoch, seen.committed) => self.open(now, seen, &statuses),
            Some(held) if now >= held + 2 * self.options.grace => match self.is_overdue(now, seen) {
                true => self.open(now, seen, &statuses),
                false => self.released(now),
            },
            Some(_) => {
                (self.stage, self.next) = (Stage::Draining, now + self.options.retry / 10);
                Next::Nothing
            }
            None if self.may_hold(now, seen, &statuses) => {
                (self.stage, self.held, self.next) = (Stage::Draining, Some(now), now);
                self.drain(now, seen)
            }
            None => self.released(now),
        }
    }

    /// Returns whether commits may be held: gossip has brought the fresh nodes what was durable when they were first seen, or does not.
    fn may_hold(&self, now: Instant, seen: &Seen, statuses: &Statuses) -> bool {
        self.noticed.is_some_and(|noticed| statuses.fresh_have(seen.epoch, noticed.durable)) || self.is_overdue(now, seen)
    }

    fn is_overdue(&self, now: Instant, seen: &Seen) -> bool {
        self.noticed.is_some_and(|noticed| now >= noticed.at + self.pause(seen) + self.options.admission * UNHELPED)
    }

    /// Asks the nodes again, once nothing is in flight.
    fn drain(&mut self, now: Instant, seen: &Seen) -> Next {
        if seen.is_waiting && self.held.is_some_and(|held| now >= held + self.options.admission) {
            return self.released(now);
        }
        match seen.is_waiting || now < self.next {
            true => Next::Nothing,
            false => self.ask(now),
        }
    }

    fn open(&mut self, now: Instant, seen: &Seen, statuses: &Statuses) -> Next {
        self.helped.clear();
        if !self.is_shut {
            self.helped = statuses.fresh_with(seen.epoch, seen.committed).collect();
            self.wait = match seen.outside.iter().all(|it| self.tried.contains(it)) {
                true => (self.wait * 2).min(LONGEST_WAIT),
                false => self.options.admission * 2,
            };
            self.tried.clone_from(&seen.outside);
        }
        self.stage = Stage::Opening { until: now + ATTEMPT };
        Next::Open
    }

    /// Notes that the machine has begun the attempt, so its last opening has ended.
    pub fn begin(&mut self) {
        self.is_shut = true;
    }

    /// Notes that the machine has not begun the attempt, and is as before it.
    pub fn refuse(&mut self, now: Instant) {
        match self.is_shut {
            true => self.fail(now),
            false => self.release(now),
        }
    }

    /// Notes that an attempt has failed; another one follows.
    pub fn fail(&mut self, now: Instant) {
        (self.stage, self.next) = (Stage::Resting, now + self.retry);
        self.retry = (self.retry * 2).min(self.options.admission);
    }

    fn failed(&mut self, now: Instant) -> Next {
        self.fail(now);
        Next::Nothing
    }

    /// Lets commits continue; the nodes are asked again after a while.
    fn release(&mut self, now: Instant) {
        (self.stage, self.held, self.next) = (Stage::Resting, None, now + self.options.admission);
    }

    fn released(&mut self, now: Instant) -> Next {
        self.release(now);
        Next::Nothing
    }

    /// Notes that the volume is open again.
    pub fn succeed(&mut self, now: Instant) {
        let (tried, wait) = (std::mem::take(&mut self.tried), self.wait);
        *self = Reopening { tried, wait, next: now + self.options.admission, ..Reopening::new(&self.options, now) };
    }
}

#[cfg(test)]
mod tests {
    use super::*;
    use yieldcleat_client::{Address, Front};

    const PAUSE: Duration = Duration::from_secs(2);

    /// A volume of three nodes in epoch 1, with the third one fresh, and the clock.
    struct Case {
        reopening: Reopening,
        now: Instant,
        seen: Seen,
    }

    fn case() -> Case {
        let nodes = (0..3).map(|place| Address::Unix(format!("node{place}").into())).collect();
        let options = Options { quorum: 2, admission: PAUSE, ..Options::new(nodes) };
        let now = Instant::now();
        let seen =
            Seen { outside: vec![Outside::Fresh(9)], connected: 3, claimed: 5, epoch: 1, durable: 40, committed: 40, is_waiting: false };
        Case { reopening: Reopening::new(&options, now), now, seen }
    }

    impl Case {
        fn next(&mut self) -> Next {
            self.reopening.next(self.now, &self.seen)
        }

        fn after(&mut self, pause: Duration) -> Next {
            self.now += pause;
            self.next()
        }

        /// Reports the statuses of the nodes: the generations of members, and the complete point of the fresh one.
        fn hear(&mut self, members: &[u64], complete: u64) -> Next {
            let front = Front { epoch: 1, complete, min: 0 };
            let fresh = Membership { generation: 0, birth: 9, is_member: false, front, accepted: None };
            self.reopening.hear(2, fresh);
            for (node, generation) in (0..).zip(members) {
                self.reopening.hear(node, Membership { generation: *generation, is_member: true, ..fresh });
            }
            self.next()
        }

        /// Opens the volume again, up to where the machine has begun the attempt.
        fn open(&mut self) {
            assert_eq!((self.next(), self.after(PAUSE), self.hear(&[5, 5], 40)), (Next::Nothing, Next::Ask, Next::Ask));
            assert!(self.reopening.holds());
            assert_eq!(self.hear(&[5, 5], 40), Next::Open);
            self.reopening.begin();
            self.seen.claimed += 1;
        }
    }

    #[test]
    fn a_fresh_node_is_admitted_after_a_pause() {
        let mut case = case();
        case.open();
        assert!(case.reopening.is_shut() && case.reopening.is_opening());
        case.reopening.succeed(case.now);
        case.seen.outside.clear();
        assert_eq!(case.after(10 * PAUSE), Next::Nothing);
        assert!(!case.reopening.holds() && case.reopening.is_at_rest());
    }

    #[test]
    fn commits_are_held_only_when_the_node_has_the_log() {
        let mut case = case();
        assert_eq!((case.next(), case.after(PAUSE)), (Next::Nothing, Next::Ask));
        assert_eq!(case.hear(&[5, 5], 39), Next::Nothing);
        assert!(!case.reopening.holds());
        assert_eq!((case.after(PAUSE / 2), case.after(PAUSE / 2)), (Next::Nothing, Next::Ask));
        // What was durable at first is there; commits in flight are waited for.
        (case.seen.durable, case.seen.committed, case.seen.is_waiting) = (50, 52, true);
        assert_eq!(case.hear(&[5, 5], 40), Next::Nothing);
        assert!(case.reopening.holds());
        case.seen.is_waiting = false;
        assert_eq!(case.next(), Next::Ask);
        assert_eq!(case.hear(&[5, 5], 50), Next::Nothing);
        assert_eq!(case.after(PAUSE / 20), Next::Ask);
        assert_eq!(case.hear(&[5, 5], 52), Next::Open);
    }

    #[test]
    fn a_node_that_gossip_does_not_help_is_admitted_all_the_same() {
        let mut case = case();
        case.next();
        let asked = (0..20).find(|_| case.after(PAUSE) == Next::Ask && case.hear(&[5, 5], 0) == Next::Ask);
        assert_eq!(asked, Some(10));
        case.now += PAUSE;
        assert_eq!(case.hear(&[5, 5], 0), Next::Open);
    }

    #[test]
    fn commits_go_on_where_nothing_becomes_durable() {
        let mut case = case();
        case.seen.is_waiting = true;
        assert_eq!((case.next(), case.after(PAUSE), case.hear(&[5, 5], 40)), (Next::Nothing, Next::Ask, Next::Nothing));
        assert!(case.reopening.holds());
        assert_eq!(case.after(PAUSE), Next::Nothing);
        assert!(!case.reopening.holds());
    }

    #[test]
    fn no_newer_engine_is_fenced() {
        for (members, expected) in
            [(&[6, 6][..], Next::Fenced { generation: 6 }), (&[5, 6], Next::Fenced { generation: 6 }), (&[4, 5], Next::Nothing)]
        {
            let mut case = case();
            assert_eq!((case.next(), case.after(PAUSE)), (Next::Nothing, Next::Ask));
            assert_eq!(case.hear(members, 40), expected);
        }
    }

    #[test]
    fn attempts_that_fail_go_on_while_commits_wait() {
        let mut case = case();
        case.open();
        case.reopening.fail(case.now);
        assert!(case.reopening.holds() && case.reopening.is_shut() && !case.reopening.is_opening());
        assert_eq!((case.next(), case.after(PAUSE)), (Next::Nothing, Next::Ask));
        case.seen.connected = 2;
        assert_eq!((case.hear(&[6], 40), case.after(PAUSE)), (Next::Nothing, Next::Ask));
        case.seen.connected = 3;
        assert_eq!(case.hear(&[5, 6], 40), Next::Open);
        case.reopening.begin();
        case.seen.claimed += 1;
        assert_eq!(case.after(ATTEMPT), Next::Nothing);
        assert!(!case.reopening.is_opening());
        assert_eq!((case.after(PAUSE), case.hear(&[8, 6], 40)), (Next::Ask, Next::Fenced { generation: 8 }));
    }

    #[test]
    fn a_machine_without_memory_is_as_before() {
        let mut case = case();
        assert_eq!(
            (case.next(), case.after(PAUSE), case.hear(&[5, 5], 40), case.hear(&[5, 5], 40)),
            (Next::Nothing, Next::Ask, Next::Ask, Next::Open)
        );
        case.reopening.refuse(case.now);
        assert!(!case.reopening.holds() && !case.reopening.is_shut());
        assert_eq!(case.after(PAUSE), Next::Ask);
    }

    #[test]
    fn a_node_that_stays_fresh_is_tried_ever_less_often() {
        let mut case = case();
        let mut pauses = Vec::new();
        for _ in 0..4 {
            let begun = case.now;
            case.next();
            while case.after(PAUSE) != Next::Ask {}
            assert_eq!((case.hear(&[5, 5], 40), case.hear(&[5, 5], 40)), (Next::Ask, Next::Open));
            case.reopening.begin();
            case.reopening.succeed(case.now);
            pauses.push((case.now - begun).as_secs());
        }
        assert_eq!(pauses, [2, 4, 8, 16]);
        // Another node does not wait for that.
        case.seen.outside.push(Outside::Fresh(10));
        assert_eq!((case.next(), case.after(PAUSE)), (Next::Nothing, Next::Ask));
    }

    #[test]
    fn the_last_epochs_are_left() {
        let mut case = case();
        case.seen.epoch = LAST_EPOCH;
        assert_eq!((case.next(), case.after(10 * PAUSE)), (Next::Nothing, Next::Nothing));
    }
}

//! The thread that owns the store: the requests of all connections, group commit, and the work in the background.
//!
//! All pending requests are one batch. They are carried out in order, and one flush puts what they changed on the disk before any of them
//! is answered. Between two batches the thread does one slice of the background work.

use crate::housekeeping::Housekeeping;
use crate::metrics::{Metrics, Seen};
use std::collections::VecDeque;
use std::mem;
use std::sync::atomic::Ordering::Relaxed;
use std::sync::mpsc::{sync_channel, Receiver, RecvTimeoutError, SyncSender};
use std::sync::Arc;
use std::time::{Duration, Instant};
use yieldcleat::{Store, StoreError};
use yieldcleat_client::{answers, engines};

/// The greatest number of requests of one batch.
const MOST: usize = 4096;
/// The number of request bytes after which a batch takes no more.
const ENOUGH: usize = 8 << 20;
/// The number of answer bytes after which the answers are returned before more requests are carried out.
const PORTION: usize = 16 << 20;
/// How long the thread waits for requests before it does other work.
const PACE: Duration = Duration::from_millis(20);
/// How often the thread publishes the segment's state, and checks whether the disk has room again.
const LOOK: Duration = Duration::from_millis(50);

/// Why the segment does not answer a request.
#[derive(Debug, Clone, Copy, PartialEq, Eq)]
pub enum Refusal {
    /// The disk has no room for what a request changes.
    DiskFull,
    /// The server is about to end.
    Stopped,
}

pub type Answers = Result<Vec<Vec<u8>>, Refusal>;

/// Answers to the first of some requests, and the requests that are not carried out yet.
#[derive(Debug, Default, PartialEq, Eq)]
pub struct Portion {
    pub answers: Vec<Vec<u8>>,
    pub rest: Vec<Vec<u8>>,
}

/// Requests that are carried out in order.
struct Job {
    requests: Vec<Vec<u8>>,
    sender: SyncSender<Result<Portion, Refusal>>,
}

impl Job {
    /// Returns answers to the first requests, and the other requests unanswered.
    fn reply(&mut self, answers: Answers) {
        let mut requests = mem::take(&mut self.requests).into_iter();
        let portion = answers.map(|answers| {
            requests.by_ref().take(answers.len()).for_each(drop);
            Portion { answers, rest: requests.collect() }
        });
        // An error means that the connection has ended meanwhile.
        let _ = self.sender.send(portion);
    }
}

enum Message {
    Job(Job),
    Stop,
}

/// The request queue of the segment, for other threads. The queue is bounded: a sender waits for a place in it.
#[derive(Clone)]
pub struct Handle(SyncSender<Message>);

impl Handle {
    /// Sends requests in order, and waits until what they changed is on the disk.
    pub fn ask(&self, requests: Vec<Vec<u8>>) -> Answers {
        let (mut answers, mut rest) = (Vec::new(), requests);
        while !rest.is_empty() {
            let portion = self.ask_some(rest)?;
            answers.extend(portion.answers);
            rest = portion.rest;
        }
        Ok(answers)
    }

    /// Like `ask`, for as many of the requests, at least one, as have answers of moderate length together.
    pub fn ask_some(&self, requests: Vec<Vec<u8>>) -> Result<Portion, Refusal> {
        let (sender, portion) = sync_channel(1);
        self.0.send(Message::Job(Job { requests, sender })).map_err(|_| Refusal::Stopped)?;
        portion.recv().unwrap_or(Err(Refusal::Stopped))
    }

    /// Ends the thread after the pending requests.
    pub fn stop(&self) {
        // An error means that the thread has ended.
        let _ = self.0.send(Message::Stop);
    }
}

pub struct Engine {
    store: Store,
    messages: Receiver<Message>,
    metrics: Arc<Metrics>,
    housekeeping: Housekeeping,
    next_look: Instant,
    /// Whether the node was not a member at the last look.
    was_fresh: bool,
}

impl Engine {
    pub fn new(store: Store, queue: usize, metrics: Arc<Metrics>, housekeeping: Housekeeping) -> (Engine, Handle) {
        let (sender, messages) = sync_channel(queue);
        (Engine { store, messages, metrics, housekeeping, next_look: Instant::now(), was_fresh: false }, Handle(sender))
    }

    /// Answers until it is stopped.
    ///
    /// Errors: those of the store, except `Full`. Each request without an answer gets `Stopped` then.
    pub fn run(mut self) -> Result<(), StoreError> {
        self.look()?;
        loop {
            let is_stopped = match self.messages.recv_timeout(self.housekeeping.pace(PACE)) {
                Ok(Message::Job(job)) => {
                    let (jobs, is_stopped) = self.gather(job);
                    self.answer(jobs)?;
                    is_stopped
                }
                Ok(Message::Stop) | Err(RecvTimeoutError::Disconnected) => true,
                Err(RecvTimeoutError::Timeout) => false,
            };
            if is_stopped {
                return self.drain();
            }
            self.housekeeping.work(&mut self.store, &self.metrics)?;
            if Instant::now() >= self.next_look {
                self.look()?;
                self.next_look = Instant::now() + LOOK;
            }
        }
    }

    /// Returns the first job and those that wait after it, and whether the thread must stop.
    fn gather(&self, first: Job) -> (VecDeque<Job>, bool) {
        let size = |job: &Job| job.requests.iter().map(Vec::len).sum::<usize>();
        let (mut count, mut bytes) = (first.requests.len(), size(&first));
        let mut jobs = VecDeque::from([first]);
        while count < MOST && bytes < ENOUGH {
            match self.messages.try_recv() {
                Ok(Message::Job(job)) => {
                    count += job.requests.len();
                    bytes += size(&job);
                    jobs.push_back(job);
                }
                Ok(Message::Stop) => return (jobs, true),
                Err(_) => break,
            }
        }
        (jobs, false)
    }

    /// Answers all jobs, with one flush for each portion of the answers. One portion has all answers, unless they are long.
    fn answer(&mut self, mut jobs: VecDeque<Job>) -> Result<(), StoreError> {
        while !jobs.is_empty() {
            self.answer_portion(&mut jobs)?;
        }
        Ok(())
    }

    /// Carries out requests of the first jobs, and removes the jobs that are answered.
    fn answer_portion(&mut self, jobs: &mut VecDeque<Job>) -> Result<(), StoreError> {
        let batch: Vec<&Vec<u8>> = jobs.iter().flat_map(|job| &job.requests).collect();
        let before = self.store.activity().flushes;
        let answered = self.store.answer_until(&batch, PORTION);
        let activity = self.store.activity();
        if activity.flushes > before {
            self.metrics.flushes.observe(activity.last_flush);
        }
        self.metrics.batches.fetch_add(1, Relaxed);
        self.note_room(&answered, batch.len());
        match answered {
            Ok(answers) => {
                self.housekeeping.note(&batch[..answers.len()]);
                give(jobs, answers);
                Ok(())
            }
            Err(StoreError::Full { .. }) => {
                jobs.drain(..).for_each(|mut job| job.reply(Err(Refusal::DiskFull)));
                Ok(())
            }
            Err(error) => Err(error),
        }
    }

    fn note_room<T>(&self, answered: &Result<T, StoreError>, requests: usize) {
        let is_full = matches!(answered, Err(StoreError::Full { .. }));
        let was_full = self.metrics.is_full.swap(is_full, Relaxed);
        match answered {
            Err(error @ StoreError::Full { .. }) => {
                self.metrics.refused_full.fetch_add(requests as u64, Relaxed);
                if !was_full {
                    crate::say(format_args!("warning: {error}: nothing is acknowledged until there is room"));
                }
            }
            _ if was_full => crate::say(format_args!("the disk has room again")),
            _ => {}
        }
    }

    /// Publishes the segment's state, if all of it is on the disk.
    fn look(&mut self) -> Result<(), StoreError> {
        let answered = self.store.answer(&[engines::STATUS, b"state"]);
        self.note_room(&answered, 0);
        let told = match answered {
            Ok(told) => told,
            Err(StoreError::Full { .. }) => return Ok(()),
            Err(error) => return Err(error),
        };
        let (membership, state) = (told.first().map(|it| engines::membership(it)), told.get(1).map(|it| answers::state(it)));
        if let (Some(Ok(membership)), Some(Ok(state))) = (membership, state) {
            if self.was_fresh && membership.is_member {
                crate::say(format_args!("admitted by the engine of generation {}", membership.generation));
            }
            self.was_fresh = !membership.is_member;
            self.metrics.see(Seen { membership, state, activity: self.store.activity() });
        }
        Ok(())
    }

    /// Answers the pending requests when the thread must stop.
    fn drain(mut self) -> Result<(), StoreError> {
        while let Ok(message) = self.messages.try_recv() {
            if let Message::Job(job) = message {
                let (jobs, _) = self.gather(job);
                self.answer(jobs)?;
            }
        }
        Ok(())
    }
}

/// Gives answers to the first jobs, and removes these. The last of them may get only some of its answers.
fn give(jobs: &mut VecDeque<Job>, answers: Vec<Vec<u8>>) {
    let mut answers = answers.into_iter();
    while jobs.front().is_some_and(|job| job.requests.is_empty() || answers.len() > 0) {
        if let Some(mut job) = jobs.pop_front() {
            job.reply(Ok(answers.by_ref().take(job.requests.len()).collect()));
        }
    }
}

#[cfg(test)]
mod tests {
    use super::*;
    use std::thread;

    fn job(requests: &[&[u8]]) -> (Job, Receiver<Result<Portion, Refusal>>) {
        let (sender, portion) = sync_channel(1);
        (Job { requests: requests.iter().map(|it| it.to_vec()).collect(), sender }, portion)
    }

    #[test]
    fn a_job_gets_answers_or_its_requests_back() {
        let (one, first) = job(&[b"a"]);
        let (two, second) = job(&[b"b", b"c", b"d"]);
        let (three, third) = job(&[b"e"]);
        let (none, fourth) = job(&[]);
        let mut jobs = VecDeque::from([one, two, three, none]);
        give(&mut jobs, vec![b"A".to_vec(), b"B".to_vec()]);
        assert_eq!(first.recv(), Ok(Ok(Portion { answers: vec![b"A".to_vec()], rest: vec![] })));
        let rest = vec![b"c".to_vec(), b"d".to_vec()];
        assert_eq!(second.recv(), Ok(Ok(Portion { answers: vec![b"B".to_vec()], rest })));
        assert!(jobs.len() == 2 && third.try_recv().is_err());
        give(&mut jobs, vec![b"E".to_vec()]);
        assert_eq!(third.recv(), Ok(Ok(Portion { answers: vec![b"E".to_vec()], rest: vec![] })));
        assert_eq!((fourth.recv(), jobs.len()), (Ok(Ok(Portion::default())), 0));
    }

    #[test]
    fn a_caller_that_wants_all_answers_asks_for_the_rest() {
        let (sender, messages) = sync_channel(1);
        let engine = thread::spawn(move || {
            let mut asked = Vec::new();
            while let Ok(Message::Job(mut job)) = messages.recv() {
                asked.push(job.requests.len());
                let first = job.requests[0].clone();
                job.reply(Ok(vec![first]));
            }
            asked
        });
        let requests = vec![b"a".to_vec(), b"b".to_vec(), b"c".to_vec()];
        assert_eq!(Handle(sender).ask(requests.clone()), Ok(requests));
        assert_eq!(engine.join().unwrap(), [3, 2, 1]);
    }
}

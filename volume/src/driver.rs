//! The thread that steps the machine. Calls and answers arrive in one queue, and each step's requests go to the links of the nodes.

use crate::errors::VolumeError;
use crate::link::{Heard, LONG};
use crate::machine::{Action, Event, Fault, Machine};
use crate::options::Options;
use crate::peer::Peer;
use crate::progress::{Place, Progress, Reached};
use crate::reopening::{Next, Reopening, Seen};
use crate::spreading::{is_proposal, is_question};
use crate::volume::PageWrite;
use std::collections::VecDeque;
use std::sync::mpsc::{Receiver, RecvTimeoutError, Sender};
use std::sync::Arc;
use std::time::{Duration, Instant};
use yieldcleat_client::{engines, frames};

/// A call of the engine. Its result goes to the sender in it.
pub enum Call {
    Create { done: Sender<Result<(), VolumeError>> },
    Open { generation: u64, done: Sender<Result<(), VolumeError>> },
    Commit { writes: Vec<PageWrite>, header: Vec<u8>, deadline: Instant, done: Sender<Result<u64, VolumeError>> },
    Advance { reader: u8, point: u64, deadline: Instant, done: Sender<Result<(), VolumeError>> },
}

impl Call {
    /// Returns until when the call waits for an opening. `None` for an opening or a creation, which does not wait.
    fn deadline(&self) -> Option<Instant> {
        match self {
            Call::Commit { deadline, .. } | Call::Advance { deadline, .. } => Some(*deadline),
            Call::Create { .. } | Call::Open { .. } => None,
        }
    }

    /// Answers a call that is not carried out.
    fn refuse(self, error: VolumeError) {
        // A caller may have stopped waiting.
        let _ = match self {
            Call::Create { done } | Call::Open { done, .. } | Call::Advance { done, .. } => done.send(Err(error)).is_ok(),
            Call::Commit { done, .. } => done.send(Err(error)).is_ok(),
        };
    }
}

pub enum Input {
    Heard(Heard),
    Call(Call),
    Close,
}

/// How long an opening continues after it has lost a node that had answered, unless the node comes back as the same member. The opening may
/// be waiting for that node: then another one begins.
const WITHOUT: Duration = Duration::from_millis(500);

/// About how many bytes the end of a mini-transaction sends in addition to its header.
const COMMIT: usize = 80;

/// The reason of a pause of an opening. The machine does not get the answers that would end the pause.
#[derive(Clone, Copy, PartialEq, Eq)]
enum Pause {
    /// Other connected nodes may answer, so that an opening learns of fresh ones.
    Fence,
    /// Fresh nodes may become members. Once the next epoch begins, gossip may bring it to them, and then they are refused.
    Admission,
}

impl Pause {
    fn holds_back(self, answer: &[u8]) -> bool {
        answer.starts_with(match self {
            Pause::Fence => b"fenced ",
            Pause::Admission => b"accepted ",
        })
    }

    fn is_waiting_for(self, peer: &Peer) -> bool {
        match self {
            Pause::Fence => peer.queue.is_some() && peer.pending > 0,
            Pause::Admission => peer.awaits_admission,
        }
    }
}

/// A pause, with the time until which answers are held back.
#[derive(Clone, Copy)]
struct Grace {
    pause: Pause,
    end: Instant,
    /// The end for nodes that are to be admitted: an opening that is only for them waits longer.
    last: Instant,
}

impl Grace {
    fn is_over(&self, now: Instant, peers: &[Peer]) -> bool {
        let end = |peer: &Peer| if peer.outside.is_some() { self.last } else { self.end };
        !peers.iter().any(|peer| self.pause.is_waiting_for(peer) && now < end(peer))
    }
}

/// An answer that the machine has not got yet.
struct Held {
    node: u8,
    request: Vec<u8>,
    answer: Vec<u8>,
}

/// The result of one step, except its requests.
#[derive(Default)]
struct Outcome {
    committed: Option<u64>,
    /// Whether the opening or the creation has succeeded.
    is_done: bool,
    refused: Option<Fault>,
}

pub struct Driver<M> {
    machine: M,
    peers: Vec<Peer>,
    progress: Arc<Progress>,
    /// The generation of the last opening.
    generation: u64,
    /// The caller that waits for an opening or a creation.
    opening: Option<Sender<Result<(), VolumeError>>>,
    /// The pause, if there is one.
    grace: Option<Grace>,
    /// The answers that are held back.
    held: Vec<Held>,
    /// Whether the machine has continued with what a quorum has, while it spreads that.
    has_proposed: bool,
    /// When an opening that has lost a node is abandoned.
    given_up: Option<Instant>,
    reopening: Reopening,
    /// Calls that wait until the volume is open again, in order.
    deferred: VecDeque<Call>,
    options: Options,
    most_pending: usize,
}

impl<M: Machine> Driver<M> {
    pub fn new(machine: M, options: &Options, progress: Arc<Progress>) -> Driver<M> {
        let peers = options.nodes.iter().map(|_| Peer::new()).collect();
        let most_pending = options.in_flight.saturating_mul(2);
        Driver {
            machine,
            peers,
            progress,
            generation: 0,
            opening: None,
            grace: None,
            held: Vec::new(),
            has_proposed: false,
            given_up: None,
            reopening: Reopening::new(options, Instant::now()),
            deferred: VecDeque::new(),
            options: options.clone(),
            most_pending,
        }
    }

    /// Steps the machine until the volume is closed.
    pub fn run(mut self, inputs: &Receiver<Input>) {
        loop {
            match inputs.recv_timeout(self.options.remind) {
                Ok(Input::Heard(heard)) => self.hear(heard),
                Ok(Input::Call(call)) if self.holds() && call.deadline().is_some() => self.deferred.push_back(call),
                Ok(Input::Call(call)) => self.carry_out(call),
                Err(RecvTimeoutError::Timeout) => {}
                Ok(Input::Close) | Err(RecvTimeoutError::Disconnected) => break,
            }
            self.release_held();
            self.spread();
            self.give_up_opening();
            self.reopen();
            self.go_on();
            self.remind_idle();
            self.look_at_idle();
        }
        self.progress.fail(VolumeError::Closed);
    }

    fn hear(&mut self, heard: Heard) {
        match heard {
            Heard::Up { node, queue } => {
                let peer = &mut self.peers[usize::from(node)];
                *peer = Peer { queue: Some(queue), was_tried: true, is_lost: peer.is_lost, ..Peer::new() };
                if peer.is_lost {
                    // It may be the member that had answered.
                    peer.ask(engines::STATUS.to_vec());
                }
                self.report_reached();
                self.notice(Event::Failed { node });
            }
            Heard::Down { node } => {
                let is_opening = self.is_opening();
                let peer = &mut self.peers[usize::from(node)];
                let is_lost = is_opening && (peer.is_answering || peer.is_lost);
                *peer = Peer { was_tried: true, is_lost, ..Peer::new() };
                self.report_reached();
                if is_lost {
                    self.given_up.get_or_insert(Instant::now() + WITHOUT);
                }
            }
            Heard::Answered { node, request, answer } => self.hear_answer(node, request, answer),
        }
    }

    fn hear_answer(&mut self, node: u8, request: Vec<u8>, answer: Vec<u8>) {
        let peer = &mut self.peers[usize::from(node)];
        let is_earlier = peer.is_earlier(&request);
        let has_changed = peer.hear(&request, &answer, self.generation);
        let is_of_another = peer.is_of_another(&request, &answer, self.generation);
        if has_changed {
            self.report_reached();
        }
        if !self.peers.iter().any(|peer| peer.is_lost) {
            self.given_up = None;
        }
        if is_of_another && self.reopening.is_shut() {
            return self.progress.fail(VolumeError::Fenced { generation: self.generation });
        }
        if request == engines::STATUS && self.progress.place().is_some() {
            // An open machine requests none. A node whose answer is not a status does not count.
            return engines::membership(&answer).map_or((), |status| self.reopening.hear(node, status));
        }
        if is_earlier {
            // The machine treats it as lost: the theorems are about openings that get answers to their own requests only.
            return;
        }
        let fenced = answer.starts_with(b"fenced ").then(|| engines::fenced(&answer)).and_then(Result::ok);
        if let Some(fenced) = fenced {
            self.progress.met(fenced.birth);
        }
        match self.grace.is_some_and(|grace| grace.pause.holds_back(&answer)) {
            true => self.held.push(Held { node, request, answer }),
            false => self.notice(Event::Answered { node, request: &request, answer: &answer }),
        }
    }

    /// Passes the answers that were held back to the machine, once the pause waits for no node or its time has passed.
    fn release_held(&mut self) {
        if self.grace.is_some_and(|grace| grace.is_over(Instant::now(), &self.peers)) {
            self.grace = None;
            self.peers.iter_mut().for_each(|peer| peer.awaits_admission = false);
            for Held { node, request, answer } in std::mem::take(&mut self.held) {
                self.notice(Event::Answered { node, request: &request, answer: &answer });
            }
        }
    }

    /// Pauses an opening that has asked fresh nodes to become members.
    fn pause_for_admission(&mut self) {
        if self.is_opening() && self.grace.is_none() && self.peers.iter().any(|peer| peer.awaits_admission) {
            self.pause(Pause::Admission);
        }
    }

    fn pause(&mut self, pause: Pause) {
        let (now, grace) = (Instant::now(), self.options.grace);
        let last = if self.reopening.is_opening() { self.options.limits.answer } else { grace };
        self.grace = Some(Grace { pause, end: now + grace, last: now + last });
    }

    /// Ends an opening that has lost a node and has not continued without it: the machine waits for each node of the quorum that it has
    /// fenced.
    fn give_up_opening(&mut self) {
        if self.given_up.is_some_and(|end| Instant::now() >= end) {
            let have = self.peers.iter().filter(|peer| peer.is_answering).count() as u8;
            self.end_opening(Err(Fault::NoQuorum { have, need: self.options.quorum }.into()));
        }
    }

    fn report_reached(&self) {
        let count = |is: fn(&Peer) -> bool| self.peers.iter().filter(|peer| is(peer)).count();
        self.progress.reached(Reached {
            tried: count(|peer| peer.was_tried),
            connected: count(|peer| peer.queue.is_some()),
            answering: count(|peer| peer.is_answering),
            uncounted: count(|peer| peer.outside.is_some()),
        });
    }

    /// Makes a step that no caller waits for. If memory runs out, the event has no effect, like a lost message.
    fn notice(&mut self, event: Event<'_>) {
        let Ok(outcome) = self.step(event) else {
            return;
        };
        if outcome.is_done {
            self.end_opening(Ok(()));
        }
        if let Some(fault) = outcome.refused {
            match self.opening.is_some() || self.reopening.is_shut() {
                true => self.end_opening(Err(fault.into())),
                false => self.progress.fail(fault.into()),
            }
        }
    }

    fn end_opening(&mut self, ended: Result<(), VolumeError>) {
        self.given_up = None;
        if let Some(done) = self.opening.take() {
            // The caller may have stopped waiting.
            let _ = done.send(ended);
        } else if self.reopening.is_shut() {
            match ended {
                Ok(()) => self.reopening.succeed(Instant::now()),
                Err(VolumeError::Refused(Fault::NoQuorum { .. })) => self.reopening.fail(Instant::now()),
                Err(error) => self.progress.fail(error),
            }
        }
    }

    /// Returns whether an opening is in progress.
    fn is_opening(&self) -> bool {
        self.opening.is_some() || self.reopening.is_opening()
    }

    /// Steps the machine, and sends its requests.
    fn step(&mut self, event: Event<'_>) -> Result<Outcome, VolumeError> {
        let is_long = matches!(event, Event::Answered { answer, .. } if answer.len() > LONG);
        let actions = self.machine.step(event).map_err(|_| VolumeError::Memory)?;
        if is_long {
            self.progress.note_moved();
        }
        let mut outcome = Outcome::default();
        for action in actions {
            match action {
                // The machine treats it as lost, as it would be at the node; gossip brings its contents.
                Action::Ask { request, .. } if is_too_long(&request) => {}
                // The node has what it is to absorb, and may be admitted at once.
                Action::Ask { node, request } if request.starts_with(b"absorb ") && self.reopening.is_helped(node) => {}
                Action::Ask { node, request } => self.ask(node, request),
                Action::Opened { epoch, commit_point, header } => {
                    self.opened(epoch, commit_point, header);
                    outcome.is_done = true;
                }
                Action::Created => outcome.is_done = true,
                Action::Committed { commit_point } => outcome.committed = Some(commit_point),
                Action::Durable { commit_point } => self.progress.durable(commit_point),
                Action::Refused(fault) => outcome.refused = Some(fault),
            }
        }
        self.pause_for_admission();
        Ok(outcome)
    }

    /// Queues a request of the machine to a node, unless an opening holds it back.
    fn ask(&mut self, node: u8, request: Vec<u8>) {
        let is_opening = self.is_opening();
        if is_question(&request) {
            // The machine has what it asked for, so the nodes that have not answered it again are not waited for.
            self.peers.iter_mut().for_each(|peer| peer.awaits_pull = false);
        }
        let Some(peer) = self.peers.get_mut(usize::from(node)) else {
            return;
        };
        self.has_proposed = is_proposal(&request) || (self.has_proposed && !is_question(&request));
        let request = if is_opening { peer.spread.ask(request, Instant::now()) } else { Some(request) };
        if let Some(request) = request {
            peer.ask(request);
        }
    }

    /// Handles the requests that were held back. If the machine has continued, they go to the nodes that lag others, and the rest are
    /// dropped. Otherwise they go to all nodes, once all have reported their fronts or one of them takes long.
    fn spread(&mut self) {
        if !self.peers.iter().any(|peer| peer.spread.is_holding()) {
            return;
        }
        let (now, pause, has_proposed) = (Instant::now(), self.options.grace, self.has_proposed);
        let greatest = self.peers.iter().filter_map(|peer| peer.spread.front()).max();
        let is_late = self.peers.iter().any(|peer| peer.spread.is_overdue(now, pause));
        let are_known = !self.peers.iter().any(|peer| peer.spread.awaits_front());
        for peer in &mut self.peers {
            let is_behind = peer.spread.front() < greatest;
            match has_proposed {
                true if peer.spread.awaits_front() => {}
                true if !is_behind => peer.spread.drop_held(),
                false if !are_known && !is_late => {}
                _ => peer.spread.release().into_iter().flatten().for_each(|request| peer.ask(request)),
            }
        }
    }

    /// Reports that the volume is open. If it was open before, nothing was in flight, so a commit that this engine has not made belongs to
    /// another one, which had the volume open in between.
    fn opened(&self, epoch: u16, commit_point: u64, header: Vec<u8>) {
        match self.progress.place() {
            Some(place) if place.committed != commit_point => {
                self.progress.fail(VolumeError::Fenced { generation: self.generation.saturating_sub(1) });
            }
            _ => self.progress.open(self.generation, epoch, commit_point, header),
        }
    }

    fn carry_out(&mut self, call: Call) {
        match call {
            Call::Create { done } => self.begin(Event::Create, done),
            Call::Open { generation, done } => {
                // The caller has abandoned earlier attempts, whatever their results.
                self.progress.begin();
                self.claim(generation);
                self.begin(Event::Open { generation }, done);
            }
            Call::Commit { writes, header, done, .. } => {
                self.cut_off_slow();
                // The caller may have stopped waiting.
                let _ = done.send(self.commit(&writes, &header));
            }
            Call::Advance { reader, point, done, .. } => {
                self.cut_off_slow();
                let outcome = self.step(Event::Advance { reader, point });
                let _ = done.send(outcome.and_then(|it| it.refused.map_or(Ok(()), |fault| Err(fault.into()))));
            }
        }
    }

    /// Disconnects each node with more than `most_pending` bytes of unanswered requests: its link connects again, and gossip brings the
    /// rest. A call does this before it sends its own requests, so a node has until the next call to answer a long mini-transaction, or all
    /// that a new connection receives again.
    fn cut_off_slow(&mut self) {
        let most = self.most_pending;
        self.peers.iter_mut().filter(|peer| peer.pending > most).for_each(|peer| peer.queue = None);
    }

    /// Prepares an opening under a generation.
    fn claim(&mut self, generation: u64) {
        self.generation = generation;
        self.progress.claim(generation);
        self.held.clear();
        self.given_up = None;
        self.peers.iter_mut().for_each(Peer::begin_opening);
        self.pause(Pause::Fence);
    }

    /// Returns whether calls wait until the volume is open again.
    fn holds(&self) -> bool {
        self.reopening.holds() && self.progress.place().is_some()
    }

    /// Opens an open volume again if a node that answers does not count.
    fn reopen(&mut self) {
        let is_at_rest = self.reopening.is_at_rest() && self.peers.iter().all(|peer| peer.outside.is_none());
        if is_at_rest || self.opening.is_some() {
            return;
        }
        let Some(place) = self.progress.place() else {
            return;
        };
        match self.reopening.next(Instant::now(), &self.seen(place)) {
            Next::Nothing => {}
            Next::Ask => self.peers.iter_mut().for_each(|peer| peer.ask(engines::STATUS.to_vec())),
            Next::Open => self.open_again(),
            Next::Fenced { generation } => self.progress.fail(VolumeError::Fenced { generation }),
        }
    }

    fn seen(&self, place: Place) -> Seen {
        let Place { epoch, durable, committed, is_waiting } = place;
        let outside = self.peers.iter().filter_map(|peer| peer.outside).collect();
        let connected = self.peers.iter().filter(|peer| peer.queue.is_some()).count();
        Seen { outside, connected, claimed: self.generation, epoch, durable, committed, is_waiting }
    }

    /// Begins an opening that no caller waits for. If memory runs out, the machine is as before.
    fn open_again(&mut self) {
        let before = self.generation;
        let generation = before.saturating_add(1);
        self.claim(generation);
        self.peers.iter_mut().for_each(|peer| peer.awaits_fence = peer.queue.is_some());
        match self.step(Event::Open { generation }) {
            Ok(outcome) => {
                self.reopening.begin();
                if let Some(fault) = outcome.refused {
                    self.end_opening(Err(fault.into()));
                } else if outcome.is_done {
                    self.end_opening(Ok(()));
                }
            }
            Err(_) => {
                (self.generation, self.grace) = (before, None);
                self.reopening.refuse(Instant::now());
            }
        }
    }

    /// Carries out the calls that have waited, once the volume is open; refuses those whose deadline has passed.
    fn go_on(&mut self) {
        if self.deferred.is_empty() {
            return;
        }
        let (holds, now) = (self.holds(), Instant::now());
        let quorum = self.progress.quorum(&self.options);
        for call in std::mem::take(&mut self.deferred) {
            match (holds, call.deadline().is_some_and(|deadline| now < deadline)) {
                (false, _) => self.carry_out(call),
                (true, true) => self.deferred.push_back(call),
                (true, false) => call.refuse(VolumeError::NotReopened(quorum)),
            }
        }
    }

    /// Begins an opening or a creation, which ends in a later step.
    fn begin(&mut self, event: Event<'_>, done: Sender<Result<(), VolumeError>>) {
        self.opening = Some(done);
        match self.step(event) {
            Ok(Outcome { refused: Some(fault), .. }) => self.end_opening(Err(fault.into())),
            Ok(outcome) if outcome.is_done => self.end_opening(Ok(())),
            Ok(_) => {}
            Err(error) => self.end_opening(Err(error)),
        }
    }

    /// Writes a mini-transaction, whose pages and header the caller has checked. One that fails halfway ends the volume, because the next
    /// commit would make its beginning durable.
    fn commit(&mut self, writes: &[PageWrite], header: &[u8]) -> Result<u64, VolumeError> {
        self.progress.standing()?;
        let mut bytes = COMMIT + header.len();
        for (place, write) in writes.iter().enumerate() {
            bytes += write.bytes();
            let event = Event::Write { page: write.page, init: write.init, patches: &write.patches };
            if let Err(error) = self.step(event).and_then(accepted) {
                if place > 0 {
                    self.progress.fail(error.clone());
                }
                return Err(error);
            }
        }
        match self.step(Event::Commit { header }).and_then(accepted) {
            Ok(Some(commit_point)) => {
                self.progress.committed(commit_point, bytes);
                Ok(commit_point)
            }
            Ok(None) => Err(VolumeError::Closed),
            Err(error) => {
                self.progress.fail(error.clone());
                Err(error)
            }
        }
    }

    /// Sends requests again to nodes that are silent while a commit or an opening waits for them: gossip may have brought them what they
    /// lacked. Nodes whose answers are held back are not silent.
    fn remind_idle(&mut self) {
        if self.grace.is_some() || (!self.is_opening() && !self.progress.is_waiting()) {
            return;
        }
        // While one node answers what it has, the others are idle. The machine would ask each of them for everything that it has.
        if self.is_opening() && self.peers.iter().any(|peer| peer.awaits_pull) {
            return;
        }
        for place in 0..self.peers.len() {
            let peer = &mut self.peers[place];
            let is_idle = peer.queue.is_some() && peer.pending == 0 && !peer.spread.is_holding();
            if is_idle && peer.active.elapsed() >= self.options.remind {
                peer.active = Instant::now();
                self.notice(Event::Failed { node: place as u8 });
            }
        }
    }

    /// Asks nodes that are silent while the volume is open for their status: one may have been started again without its files.
    fn look_at_idle(&mut self) {
        if self.is_opening() || self.progress.place().is_none() {
            return;
        }
        let pause = self.options.admission;
        let is_idle = |peer: &&mut Peer| peer.queue.is_some() && peer.pending == 0 && peer.active.elapsed() >= pause;
        self.peers.iter_mut().filter(is_idle).for_each(|peer| peer.ask(engines::STATUS.to_vec()));
    }
}

/// Returns whether a request exceeds a frame, so that a node would drop it: an opening may send more than 64 MiB to absorb.
fn is_too_long(request: &[u8]) -> bool {
    request.len() > frames::LONGEST as usize
}

/// Returns the commit point of a step that was not refused.
fn accepted(outcome: Outcome) -> Result<Option<u64>, VolumeError> {
    outcome.refused.map_or(Ok(outcome.committed), |fault| Err(fault.into()))
}

#[cfg(test)]
mod tests {
    use super::*;
    use crate::machine::OutOfMemory;
    use std::sync::{mpsc, Mutex};
    use yieldcleat_client::Address;

    /// Sends a fence to node 0, and keeps the answers that it receives.
    struct Listening(Arc<Mutex<Vec<Vec<u8>>>>);

    impl Machine for Listening {
        fn step(&mut self, event: Event<'_>) -> Result<Vec<Action>, OutOfMemory> {
            match event {
                Event::Open { generation } => return Ok(vec![Action::Ask { node: 0, request: engines::fence(generation) }]),
                Event::Answered { answer, .. } => self.0.lock().unwrap().push(answer.to_vec()),
                _ => {}
            }
            Ok(Vec::new())
        }
    }

    #[test]
    fn an_opening_hears_answers_to_its_own_requests() {
        let heard = Arc::default();
        let options = Options::new(vec![Address::Unix("nowhere".into())]);
        let driver = Driver::new(Listening(Arc::clone(&heard)), &options, Arc::default());
        let (says, inputs) = mpsc::channel();
        let (queue, asked) = mpsc::channel();
        let open = |generation| Input::Call(Call::Open { generation, done: mpsc::channel().0 });
        let answered = |generation, answer: &[u8]| {
            Input::Heard(Heard::Answered { node: 0, request: engines::fence(generation), answer: answer.to_vec() })
        };
        let inputs_of =
            [Input::Heard(Heard::Up { node: 0, queue }), open(3), open(4), answered(3, b"fresh 1"), answered(4, b"fresh 2"), Input::Close];
        inputs_of.into_iter().for_each(|input| says.send(input).unwrap());
        driver.run(&inputs);
        assert_eq!(asked.iter().collect::<Vec<_>>(), [engines::fence(3), engines::fence(4)]);
        assert_eq!(*heard.lock().unwrap(), [b"fresh 2"]);
    }

    /// A machine that opens at once, and refuses commits while it opens again.
    #[derive(Default)]
    struct Twice {
        is_shut: bool,
    }

    impl Machine for Twice {
        fn step(&mut self, event: Event<'_>) -> Result<Vec<Action>, OutOfMemory> {
            Ok(match event {
                Event::Open { generation: 3 } => vec![Action::Opened { epoch: 1, commit_point: 0, header: Vec::new() }],
                Event::Open { .. } => {
                    self.is_shut = true;
                    Vec::new()
                }
                Event::Commit { .. } if self.is_shut => vec![Action::Refused(Fault::NotOpen)],
                _ => Vec::new(),
            })
        }
    }

    #[test]
    fn a_call_whose_time_is_up_is_refused_while_the_volume_is_opened_again() {
        let options = Options { remind: Duration::from_millis(5), ..Options::new(vec![Address::Unix("nowhere".into())]) };
        let progress = Arc::new(Progress::default());
        let mut driver = Driver::new(Twice::default(), &options, Arc::clone(&progress));
        driver.carry_out(Call::Open { generation: 3, done: mpsc::channel().0 });
        driver.reopening.hold(Instant::now());
        driver.open_again();
        let ((says, inputs), (done, result)) = (mpsc::channel(), mpsc::channel());
        let late = Call::Commit { writes: Vec::new(), header: Vec::new(), deadline: Instant::now(), done };
        [Input::Call(late), Input::Close].into_iter().for_each(|input| says.send(input).unwrap());
        driver.run(&inputs);
        assert!(matches!(result.recv(), Ok(Err(VolumeError::NotReopened(_)))));
        assert_eq!(progress.standing(), Err(VolumeError::Closed));
    }

    /// A machine that opens under generation 4 or at the answer `ready`, and is fenced at any other answer.
    struct Late;

    impl Machine for Late {
        fn step(&mut self, event: Event<'_>) -> Result<Vec<Action>, OutOfMemory> {
            let opened = |commit_point| vec![Action::Opened { epoch: 1, commit_point, header: Vec::new() }];
            Ok(match event {
                Event::Open { generation: 4 } => opened(7),
                Event::Answered { answer: b"ready", .. } => opened(5),
                Event::Answered { .. } => vec![Action::Refused(Fault::Fenced { generation: 9 })],
                _ => Vec::new(),
            })
        }
    }

    #[test]
    fn an_opening_forgets_one_that_was_given_up_and_succeeded_late() {
        for answers in [&[&b"ready"[..]][..], &[b"ready", b"stale 9"]] {
            let options = Options::new(vec![Address::Unix("nowhere".into())]);
            let progress = Arc::new(Progress::default());
            let mut driver = Driver::new(Late, &options, Arc::clone(&progress));
            driver.carry_out(Call::Open { generation: 3, done: mpsc::channel().0 });
            answers.iter().for_each(|answer| driver.notice(Event::Answered { node: 0, request: b"", answer }));
            let (done, opened) = mpsc::channel();
            driver.carry_out(Call::Open { generation: 4, done });
            assert_eq!((opened.recv(), progress.standing().map(|it| it.opened_at)), (Ok(Ok(())), Ok(7)));
        }
    }

    /// Sends a node absorb requests that just fit a frame and that do not, as to a member and as to a fresh node.
    struct Spreading;

    const LONGEST: usize = frames::LONGEST as usize;

    fn absorb(heading: &str, length: usize) -> Vec<u8> {
        let mut request = format!("{heading}absorb 1 ").into_bytes();
        request.resize(length, b'x');
        request
    }

    impl Machine for Spreading {
        fn step(&mut self, event: Event<'_>) -> Result<Vec<Action>, OutOfMemory> {
            let Event::Open { .. } = event else {
                return Ok(Vec::new());
            };
            let requests = [
                absorb("as 3 7 ", LONGEST),
                absorb("as 3 7 ", LONGEST + 1),
                b"as 3 7 front".to_vec(),
                absorb("", LONGEST + 1),
                b"admit 3 8 0 5".to_vec(),
            ];
            Ok(requests.map(|request| Action::Ask { node: 0, request }).into())
        }
    }

    #[test]
    fn what_no_frame_holds_is_not_sent() {
        let options = Options::new(vec![Address::Unix("nowhere".into())]);
        let driver = Driver::new(Spreading, &options, Arc::default());
        let ((says, inputs), (queue, asked)) = (mpsc::channel(), mpsc::channel());
        let open = Input::Call(Call::Open { generation: 3, done: mpsc::channel().0 });
        let inputs_of = [Input::Heard(Heard::Up { node: 0, queue }), open, Input::Close];
        inputs_of.into_iter().for_each(|input| says.send(input).unwrap());
        driver.run(&inputs);
        // The long one is held back until it is known that no front arrives before it.
        let (front, admit) = (b"as 3 7 front".to_vec(), b"admit 3 8 0 5".to_vec());
        let wanted = [front.clone(), admit, absorb("as 3 7 ", LONGEST), front];
        let lengths = |requests: &[Vec<u8>]| requests.iter().map(Vec::len).collect::<Vec<_>>();
        let asked: Vec<_> = asked.iter().collect();
        assert_eq!(lengths(&asked), lengths(&wanted));
        assert!(asked == wanted);
    }
}

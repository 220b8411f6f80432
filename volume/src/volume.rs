//! The engine's handle of a volume.

use crate::driver::{Call, Driver, Input};
use crate::errors::{Quorum, VolumeError};
use crate::known::Known;
use crate::link::Link;
use crate::machine::{Fault, Machine};
use crate::nodes::Nodes;
use crate::options::{Options, LONGEST_TIME};
use crate::page_zero::{PageZero, MOST_HEADER};
use crate::panel::Panel;
use crate::progress::{Progress, Standing};
use crate::reading::{At, Range, Readers};
use crate::standing::{ask_standing, status, Statuses};
use std::sync::mpsc::{self, Sender};
use std::sync::Arc;
use std::thread::{self, JoinHandle};
use std::time::{Duration, Instant};
use yieldcleat_client::{Membership, Patch, PAGE_LEN};

/// The number of bytes at the end of each page that are reserved for the volume.
const RESERVED: usize = 8;
const MOST_PATCHES: usize = 64;
const MOST_WRITTEN: usize = 8192 - RESERVED;

/// The change that a mini-transaction makes to one page.
#[derive(Debug, Clone, PartialEq, Eq)]
pub struct PageWrite {
    /// The page, from 1.
    pub page: u16,
    /// Whether the page is all zeros before the patches.
    pub init: bool,
    /// At most 63 patches within the page's first 4,088 bytes; the writes among them have at most 8,184 bytes together.
    pub patches: Vec<Patch>,
}

impl PageWrite {
    /// Returns about how many bytes it sends.
    pub(crate) fn bytes(&self) -> usize {
        40 + self.patches.iter().map(|patch| 5 + written(patch)).sum::<usize>()
    }

    /// Checks that it is within these bounds.
    ///
    /// Errors: `Argument`.
    pub fn check(&self) -> Result<(), VolumeError> {
        let is_inside = |patch: &Patch| {
            let (offset, length) = match patch {
                Patch::Write { offset, bytes } => (*offset, bytes.len()),
                Patch::Fill { offset, count, .. } => (*offset, usize::from(*count)),
            };
            length > 0 && usize::from(offset) + length <= PAGE_LEN - RESERVED
        };
        let total: usize = self.patches.iter().map(written).sum();
        match self.page > 0 && self.patches.len() < MOST_PATCHES && total <= MOST_WRITTEN && self.patches.iter().all(is_inside) {
            true => Ok(()),
            false => Err(VolumeError::Argument("a page or a patch")),
        }
    }
}

fn written(patch: &Patch) -> usize {
    match patch {
        Patch::Write { bytes, .. } => bytes.len(),
        Patch::Fill { .. } => 0,
    }
}

/// A volume that this process writes to. Many threads may call it. Dropping it closes it: commits that are not durable then are in doubt.
///
/// A node that has lost its files does not count for a quorum before an opening admits it. So the volume opens itself again under a later
/// generation once nothing is in flight and such a node has the log, or does not get it from its peers (`Options::admission`). Commit
/// points stay as they are, and calls in the meantime wait. If another engine has opened the volume, it ends as `Fenced` instead.
pub struct Volume {
    options: Options,
    inputs: Sender<Input>,
    progress: Arc<Progress>,
    readers: Readers,
    panel: Panel<Membership>,
    /// Dropped before the driver ends.
    links: Vec<Link>,
    driver: Option<JoinHandle<()>>,
}

impl Volume {
    /// Creates a volume of nodes that are all fresh, and opens it.
    ///
    /// Errors: those of `open`, and `Refused` with `NotFresh` if a node is a member, has facts or got another birth meanwhile: another
    /// engine may have created a volume of the nodes. After another error the creation may be incomplete and nothing is promised: start all
    /// nodes again without their files.
    pub fn create<M: Machine + 'static>(machine: M, options: Options) -> Result<Volume, VolumeError> {
        let (volume, deadline) = Volume::start(machine, options)?;
        match volume.call(|done| Call::Create { done }, deadline) {
            Some(created) => created?,
            None => return Err(volume.not_opened()),
        }
        volume.open_until(1, deadline)?;
        Ok(volume)
    }

    /// Opens the volume for writing, and fences each engine that has it open.
    ///
    /// Errors: `Options`, `Thread`, `Empty`, `NotOpened`, `Refused` and `Memory`.
    pub fn open<M: Machine + 'static>(machine: M, options: Options) -> Result<Volume, VolumeError> {
        let (volume, deadline) = Volume::start(machine, options)?;
        let statuses = volume.statuses(deadline);
        if statuses.are_all_fresh() {
            return Err(VolumeError::Empty);
        }
        volume.open_until(statuses.generation(), deadline)?;
        Ok(volume)
    }

    /// Starts the threads of a volume.
    fn start<M: Machine + 'static>(machine: M, options: Options) -> Result<(Volume, Instant), VolumeError> {
        options.check().map_err(VolumeError::Options)?;
        let options = options.bounded();
        let deadline = Instant::now() + options.patience;
        let (inputs, received) = mpsc::channel();
        let progress = Arc::new(Progress::default());
        let driver = Driver::new(machine, &options, progress.clone());
        let thread = |error: std::io::Error| VolumeError::Thread(error.kind());
        let driver = thread::Builder::new().name("volume".into()).spawn(move || driver.run(&received)).map_err(thread)?;
        let nodes = Arc::new(Nodes::new(&options));
        let (readers, panel) = (Readers::new(&nodes), Panel::start(&nodes, status).map_err(thread)?);
        let mut volume = Volume { inputs, progress, readers, panel, links: Vec::new(), driver: Some(driver), options };
        for node in 0..volume.options.nodes.len() {
            let inputs = volume.inputs.clone();
            let link = Link::start(node as u8, &volume.options, &volume.progress, move |heard| inputs.send(Input::Heard(heard)).ok());
            volume.links.push(link.map_err(thread)?);
        }
        // A new connection while an opening runs counts as a broken one.
        volume.progress.wait_connected(&volume.options, deadline.min(Instant::now() + volume.options.grace));
        Ok((volume, deadline))
    }

    /// Asks the nodes for their status, and returns that of all of them, or after a while of those that have answered.
    fn statuses(&self, deadline: Instant) -> Statuses {
        let end = deadline.min(Instant::now() + self.options.grace);
        ask_standing(&self.panel, self.options.nodes.len(), |statuses| if statuses.count() == 0 { deadline } else { end })
    }

    /// Returns whether all nodes are fresh, if none of them counts: one may have answered too late to be seen before.
    fn is_empty(&self, deadline: Instant) -> bool {
        let nodes = self.options.nodes.len();
        let do_none_count = self.progress.quorum(&self.options).uncounted == nodes;
        do_none_count && ask_standing(&self.panel, nodes, |_| deadline).are_all_fresh()
    }

    /// Opens under increasing generations, above one that nodes have reported, until it succeeds or the deadline passes.
    fn open_until(&self, shown: u64, deadline: Instant) -> Result<(), VolumeError> {
        let (mut generation, mut attempt) = (shown.saturating_add(1), self.options.patience / 8);
        loop {
            match self.open_once(generation, attempt, deadline) {
                Some(Ok(())) => return Ok(()),
                Some(Err(VolumeError::Fenced { generation: later })) => generation = later.saturating_add(1),
                Some(Err(VolumeError::Refused(Fault::NoQuorum { .. }))) if self.is_empty(deadline) => return Err(VolumeError::Empty),
                Some(Err(VolumeError::Refused(Fault::NoQuorum { .. }))) => generation = generation.saturating_add(1),
                Some(Err(error)) => return Err(error),
                // It may wait for a node whose answer was lost and that does not repeat it. The next attempt has more time.
                None => (generation, attempt) = (generation.saturating_add(1), attempt * 2),
            }
            if Instant::now() >= deadline {
                return Err(self.not_opened());
            }
            // Two engines that open at the same time fence each other, so they must not retry at the same pace.
            thread::sleep(self.options.retry.mul_f64(0.5 + jitter()));
        }
    }

    /// Opens under a generation. `None` if there is no result within `attempt`, and no long answer has moved for that time either. Another
    /// attempt would begin from nothing, after what the nodes are still sending.
    fn open_once(&self, generation: u64, attempt: Duration, deadline: Instant) -> Option<Result<(), VolumeError>> {
        let (done, result) = mpsc::channel();
        if self.inputs.send(Input::Call(Call::Open { generation, done })).is_err() {
            return Some(Err(VolumeError::Closed));
        }
        let mut end = deadline.min(Instant::now() + attempt);
        loop {
            if let Ok(opened) = result.recv_timeout(end.saturating_duration_since(Instant::now())) {
                return Some(opened);
            }
            let later = self.progress.moved().map_or(end, |moved| deadline.min(moved + attempt));
            if later <= end {
                return None;
            }
            end = later;
        }
    }

    fn not_opened(&self) -> VolumeError {
        VolumeError::NotOpened(self.progress.quorum(&self.options))
    }

    /// Sends a call to the driver and waits for its result. `None` at the deadline.
    fn call<T>(&self, call: impl FnOnce(Sender<Result<T, VolumeError>>) -> Call, deadline: Instant) -> Option<Result<T, VolumeError>> {
        let (done, result) = mpsc::channel();
        if self.inputs.send(Input::Call(call(done))).is_err() {
            return Some(Err(VolumeError::Closed));
        }
        result.recv_timeout(deadline.saturating_duration_since(Instant::now())).ok()
    }

    /// Returns the state of the volume.
    ///
    /// Errors: the one that has ended it.
    pub fn standing(&self) -> Result<Standing, VolumeError> {
        self.progress.standing()
    }

    /// Returns the last commit point that this handle knows to be durable, even if the volume has ended.
    pub fn known(&self) -> Known {
        self.progress.known()
    }

    /// Returns the newest durable commit point: one of this handle's own, or the one at which it opened, after a quorum has confirmed that
    /// no other engine has fenced it. All commits that any process has seen durable before the call are at or below it.
    ///
    /// Errors: `NotAsked` after the time allowed; `InDoubt` if a commit that others may have seen durable is not durable by then; `Fenced`,
    /// also if the nodes have another volume; `Empty` if all have lost their files; and any other error that has ended this volume.
    pub fn newest(&self) -> Result<u64, VolumeError> {
        let (mut own, deadline) = (self.standing()?, Instant::now() + self.options.patience);
        let mut have = 0;
        while Instant::now() < deadline {
            let end = deadline.min(Instant::now() + self.options.limits.answer);
            let statuses = ask_standing(&self.panel, self.options.nodes.len(), |statuses| {
                if statuses.are_of(own.generation, self.options.quorum) {
                    Instant::now()
                } else {
                    end
                }
            });
            have = statuses.count();
            if statuses.are_all_fresh() {
                return Err(VolumeError::Empty);
            }
            let other = statuses.are_of_another(&self.known(), self.options.quorum).then(|| statuses.generation());
            // This engine itself may be opening the volume again.
            if let Some(generation) = statuses.later_than(self.progress.claimed()).or(other) {
                self.progress.fail(VolumeError::Fenced { generation });
                return Err(VolumeError::Fenced { generation });
            }
            if statuses.are_of(own.generation, self.options.quorum) {
                let bound = statuses.bound(own.epoch, self.options.quorum);
                if let Some(seen) = self.progress.last_waiting(bound) {
                    self.wait(seen, deadline.saturating_duration_since(Instant::now()))?;
                }
                return Ok(self.standing()?.durable);
            }
            thread::sleep(self.options.retry.min(deadline.saturating_duration_since(Instant::now())));
            own = self.standing()?;
        }
        Err(VolumeError::NotAsked(Quorum::of(have, &self.options)))
    }

    /// Writes a mini-transaction with up to 1,024 bytes of the engine's own, and returns its commit point. It is sent and not yet durable:
    /// `wait` returns when it is. While too much is in flight, no quorum answers, or the volume is being opened again, the call waits
    /// first.
    ///
    /// Errors: `Argument`; `Busy` and `NotReopened` after the time allowed, when nothing was written; `Refused` and `Memory`, which end the
    /// volume unless they are about the first page of `writes`; `Fenced` and any other error that has ended the volume.
    pub fn write(&self, writes: Vec<PageWrite>, header: Vec<u8>) -> Result<u64, VolumeError> {
        writes.iter().try_for_each(PageWrite::check)?;
        if header.len() > MOST_HEADER {
            return Err(VolumeError::Argument("a header"));
        }
        let deadline = Instant::now() + self.options.patience;
        match self.progress.wait_room(&self.options, deadline) {
            Some(room) => room?,
            None => return Err(VolumeError::Busy(self.progress.quorum(&self.options))),
        }
        // The driver waits for no node, so it answers. If it does not, the mini-transaction may have been sent, and nothing may follow it.
        let written = self.call(|done| Call::Commit { writes, header, deadline, done }, deadline + self.options.patience);
        written.unwrap_or_else(|| {
            self.progress.fail(VolumeError::Closed);
            Err(VolumeError::Closed)
        })
    }

    /// Waits until a commit point is durable.
    ///
    /// Errors: `InDoubt` after the time allowed, after which it may be called again; `Fenced` and any other error that has ended the
    /// volume.
    pub fn wait(&self, commit_point: u64, patience: Duration) -> Result<(), VolumeError> {
        let in_doubt = || VolumeError::InDoubt { commit_point, quorum: self.progress.quorum(&self.options) };
        self.progress.wait_durable(commit_point, Instant::now() + patience.min(LONGEST_TIME)).unwrap_or_else(|| Err(in_doubt()))
    }

    /// Writes a mini-transaction and waits until it is durable.
    ///
    /// Errors: those of `write` and of `wait`.
    pub fn commit(&self, writes: Vec<PageWrite>, header: Vec<u8>) -> Result<u64, VolumeError> {
        let commit_point = self.write(writes, header)?;
        self.wait(commit_point, self.options.patience)?;
        Ok(commit_point)
    }

    /// Reads `length` bytes of a page from `offset` on, at a commit point, which need not be durable yet.
    ///
    /// Errors: `Argument`, `Below`, `NotRead`, and the error that has ended the volume.
    pub fn read(&self, page: u16, point: u64, offset: u16, length: u16) -> Result<Vec<u8>, VolumeError> {
        let range = || Ok(Range { at: self.at(point)?, page, offset, length });
        range()?.check()?;
        self.readers.read(range, Instant::now() + self.options.patience).map_err(|error| self.ended_by(error))
    }

    /// Reads page 0 at a commit point: the generation and epoch that committed it, and the header.
    ///
    /// Errors: those of `read`, and `Refused` with `Damaged` if no volume wrote page 0.
    pub fn page_zero(&self, point: u64) -> Result<PageZero, VolumeError> {
        self.readers.page_zero(|| self.at(point), Instant::now() + self.options.patience).map_err(|error| self.ended_by(error))
    }

    /// Adds the present epoch to a point: nodes have a durable point in a later epoch once the volume is opened again.
    fn at(&self, point: u64) -> Result<At, VolumeError> {
        let standing = self.progress.standing()?;
        Ok(At { epoch: standing.epoch, point, is_durable: point <= standing.durable })
    }

    /// Returns the error that has ended the volume meanwhile, or else this one.
    fn ended_by(&self, error: VolumeError) -> VolumeError {
        self.progress.standing().err().unwrap_or(error)
    }

    /// Advances a reader, from 1, to a durable commit point: it reads nothing below that point.
    ///
    /// Errors: `Refused`, with `Ahead` for a point that is not durable; `NotReopened` after the time allowed; `Memory`; `Closed`. The call
    /// does not check for an error that has ended the volume.
    pub fn advance(&self, reader: u8, point: u64) -> Result<(), VolumeError> {
        let deadline = Instant::now() + self.options.patience;
        let advanced = self.call(|done| Call::Advance { reader, point, deadline, done }, deadline + self.options.patience);
        advanced.unwrap_or(Err(VolumeError::Closed))
    }
}

impl Drop for Volume {
    fn drop(&mut self) {
        // If the driver has ended, it needs no message.
        let _ = self.inputs.send(Input::Close);
        // All of them are stopped first, so that none waits for another to end.
        self.links.iter().for_each(Link::stop);
        self.links.clear();
        if let Some(driver) = self.driver.take() {
            let _ = driver.join();
        }
    }
}

/// Returns a number from 0 to 1 that differs between processes.
fn jitter() -> f64 {
    use std::collections::hash_map::RandomState;
    use std::hash::{BuildHasher, Hasher};
    (RandomState::new().build_hasher().finish() % 1000) as f64 / 1000.0
}

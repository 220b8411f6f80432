//! Reads of pages at points, from any node that has them.

use crate::errors::VolumeError;
use crate::machine::Fault;
use crate::nodes::Nodes;
use crate::page_zero::PageZero;
use std::sync::atomic::{AtomicUsize, Ordering};
use std::sync::Arc;
use std::thread;
use std::time::{Duration, Instant};
use yieldcleat_client::{answers, frames, requests, Error, ReadFault, PAGE_LEN};

/// A range of bytes of a page at a point.
#[derive(Debug, Clone, Copy, PartialEq, Eq)]
pub struct Range {
    pub at: At,
    pub page: u16,
    pub offset: u16,
    pub length: u16,
}

/// A point of an epoch. A durable point is the same in each later epoch; another one may be annulled there.
#[derive(Debug, Clone, Copy, PartialEq, Eq)]
pub struct At {
    pub epoch: u16,
    pub point: u64,
    pub is_durable: bool,
}

impl Range {
    /// Checks that the range is within a page.
    pub fn check(&self) -> Result<(), VolumeError> {
        match self.length > 0 && usize::from(self.offset) + usize::from(self.length) <= PAGE_LEN {
            true => Ok(()),
            false => Err(VolumeError::Argument("a range of a page")),
        }
    }
}

/// Reads pages, first from the node that answered last.
pub struct Readers {
    nodes: Arc<Nodes>,
    preferred: AtomicUsize,
}

/// The answer of a node to a read.
enum Read {
    Bytes(Vec<u8>),
    Below(u64),
    /// The node lags, is busy, or does not answer.
    Nothing,
}

/// The least time that one node gets to answer, unless the deadline is before.
const LEAST: Duration = Duration::from_millis(50);

/// The first and the longest pause between two rounds over all nodes: records may be on their way to them.
const PAUSES: [Duration; 2] = [Duration::from_millis(1), Duration::from_millis(20)];

impl Readers {
    pub fn new(nodes: &Arc<Nodes>) -> Readers {
        Readers { nodes: nodes.clone(), preferred: AtomicUsize::new(0) }
    }

    /// Reads from the first node that has the page at the point, and tries all nodes until the deadline. Calls `range` before each round
    /// over the nodes, which may have the point in a later epoch meanwhile.
    ///
    /// Errors: `Below`, `NotRead`, and those of `range`.
    pub fn read(&self, range: impl Fn() -> Result<Range, VolumeError>, deadline: Instant) -> Result<Vec<u8>, VolumeError> {
        let mut pause = PAUSES[0];
        loop {
            let range = range()?;
            if let Some(read) = self.read_once(range, deadline) {
                return read;
            }
            let left = deadline.saturating_duration_since(Instant::now());
            if left.is_zero() {
                return Err(VolumeError::NotRead { page: range.page, point: range.at.point });
            }
            thread::sleep(pause.min(left));
            pause = (pause * 2).min(PAUSES[1]);
        }
    }

    /// Reads page 0 at a point.
    ///
    /// Errors: those of `read`, and `Refused` with `Damaged` if no volume wrote page 0.
    pub fn page_zero(&self, at: impl Fn() -> Result<At, VolumeError>, deadline: Instant) -> Result<PageZero, VolumeError> {
        let whole = || Ok(Range { at: at()?, page: 0, offset: 0, length: PAGE_LEN as u16 });
        PageZero::read(&self.read(whole, deadline)?).ok_or(VolumeError::Refused(Fault::Damaged))
    }

    /// Asks each node once, until one has the page at the point, or until the deadline. `None` if no node has it. A node may take half of
    /// the time left, or `LEAST` if that is more, so that another one can answer instead of one that is silent.
    fn read_once(&self, range: Range, deadline: Instant) -> Option<Result<Vec<u8>, VolumeError>> {
        let (first, count) = (self.preferred.load(Ordering::Relaxed), self.nodes.count());
        for node in (first..first + count).map(|place| place % count) {
            let now = Instant::now();
            let end = deadline.min(now + (deadline.saturating_duration_since(now) / 2).max(LEAST));
            match self.read_at(node, range, end) {
                Read::Bytes(bytes) => {
                    self.preferred.store(node, Ordering::Relaxed);
                    return Some(Ok(bytes));
                }
                Read::Below(min) => return Some(Err(VolumeError::Below { min })),
                Read::Nothing if Instant::now() >= deadline => return None,
                Read::Nothing => {}
            }
        }
        None
    }

    /// Requests the front before the read, in one frame: a node of another epoch may have annulled records at the point.
    fn read_at(&self, node: usize, range: Range, end: Instant) -> Read {
        let Range { at: At { epoch, point, is_durable }, page, offset, length } = range;
        let read = format!("read {page} {point} {offset} {length}");
        let Ok(request) = requests::many([&b"front"[..], read.as_bytes()]) else {
            return Read::Nothing;
        };
        let Some(answer) = self.nodes.try_ask(node, &request, end) else {
            return Read::Nothing;
        };
        let is_fit = |shown: u16| shown == epoch || (is_durable && shown > epoch);
        match frames::inside(&answer).as_deref() {
            Some([front, shown]) if answers::front(front).is_ok_and(|front| is_fit(front.epoch)) => match answers::bytes(shown, "page ") {
                // Bytes of another length are not an answer to this request.
                Ok(bytes) if bytes.len() == usize::from(length) => Read::Bytes(bytes),
                Err(Error::Read(ReadFault::Below { min })) => Read::Below(min),
                _ => Read::Nothing,
            },
            _ => Read::Nothing,
        }
    }
}

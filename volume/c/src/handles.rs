//! The work of the calls, with values of Rust.

use crate::faults::Failure;
use crate::known::Shared;
use crate::proved::Proved;
use std::collections::BTreeSet;
use std::path::Path;
use std::sync::atomic::{AtomicU64, Ordering};
use std::sync::{Arc, Mutex, MutexGuard, PoisonError};
use std::time::Duration;
use yieldcleat_client::Patch;
use yieldcleat_volume::{Fault, Options, PageWrite, PageZero, Reader, Volume, VolumeError};

/// The number of bytes of a page that are available to its user.
pub const PAGE_BYTES: u32 = 4088;
/// The reader for which a volume advances.
const READER: u8 = 1;
/// The greatest number of commit points that a handle remembers.
const MOST_COMMITS: usize = 64;

/// A handle of a writer or of a reader.
pub struct Handle {
    side: Side,
    options: Options,
    shared: Arc<Shared>,
    /// The least readable point, as far as this handle knows.
    least: AtomicU64,
    /// Points that are known to be commit points.
    commits: Mutex<BTreeSet<u64>>,
}

enum Side {
    Writer {
        volume: Volume,
        staged: Mutex<Vec<PageWrite>>,
    },
    /// A reader, and the point at which it stays; `None` if it follows the commits.
    Reader {
        reader: Reader,
        point: Option<u64>,
    },
}

/// `struct yieldcleat_status`.
#[repr(C)]
#[derive(Debug, Clone, Copy, PartialEq, Eq)]
pub struct Report {
    pub newest: u64,
    pub least: u64,
    pub generation: u64,
    pub have: u32,
    pub need: u32,
    pub nodes: u32,
    pub uncounted: u32,
}

fn options_at(place: &Path, milliseconds: u32) -> Result<Options, Failure> {
    let mut options = Options::at(place)?;
    if milliseconds > 0 {
        options.patience = Duration::from_millis(milliseconds.into());
    }
    Ok(options)
}

impl Handle {
    fn of(side: Side, place: &Path, options: Options) -> Handle {
        Handle { side, options, shared: Shared::of(place), least: AtomicU64::new(0), commits: Mutex::default() }
    }

    pub fn open_writer(place: &Path, milliseconds: u32, may_create: bool) -> Result<Handle, Failure> {
        let options = options_at(place, milliseconds)?;
        let machine = || Proved::start(options.nodes.len(), options.quorum);
        let mut volume = Volume::open(machine()?, options.clone());
        if may_create && matches!(volume, Err(VolumeError::Empty)) {
            volume = Volume::create(machine()?, options.clone());
            if matches!(volume, Err(VolumeError::Refused(Fault::NotFresh))) {
                // Another engine has created it in the meantime.
                volume = Volume::open(machine()?, options.clone());
            }
        }
        Ok(Handle::of(Side::Writer { volume: volume?, staged: Mutex::default() }, place, options))
    }

    pub fn open_reader(place: &Path, milliseconds: u32, point: Option<u64>) -> Result<Handle, Failure> {
        let options = options_at(place, milliseconds)?;
        let reader = Reader::open(options.clone())?;
        let newest = reader.newest()?;
        if let Some(point) = point {
            if point > newest {
                return Err(Failure::above(point, newest));
            }
            reader.page_zero(point)?;
        }
        Ok(Handle::of(Side::Reader { reader, point }, place, options))
    }

    /// Notes the least readable point, if a call failed because of it.
    fn noting<T>(&self, result: Result<T, Failure>) -> Result<T, Failure> {
        result.inspect_err(|failure| {
            if let Some(least) = failure.least() {
                self.least.fetch_max(least, Ordering::Relaxed);
            }
        })
    }

    pub fn newest(&self) -> Result<u64, Failure> {
        match &self.side {
            Side::Writer { volume, .. } => {
                let newest = volume.newest();
                self.tell();
                Ok(newest?)
            }
            Side::Reader { point: Some(point), .. } => Ok(*point),
            Side::Reader { reader, .. } => self.ask_newest(reader),
        }
    }

    /// Returns the newest commit point according to the nodes. If it is below a known one, they have another volume.
    fn ask_newest(&self, reader: &Reader) -> Result<u64, Failure> {
        let newest = reader.newest()?;
        let mut commits = lock(&self.commits);
        if commits.last().is_some_and(|last| *last > newest) {
            commits.clear();
        }
        Ok(newest)
    }

    /// Returns the greatest point at which this handle reads, as far as it knows.
    fn greatest(&self) -> Result<u64, Failure> {
        match &self.side {
            Side::Writer { volume, .. } => Ok(volume.standing()?.committed),
            Side::Reader { point: Some(point), .. } => Ok(*point),
            Side::Reader { reader, .. } => Ok(reader.known()),
        }
    }

    fn check_point(&self, point: u64) -> Result<(), Failure> {
        let mut greatest = self.greatest()?;
        if let (Side::Reader { reader, point: None }, true) = (&self.side, point > greatest) {
            greatest = reader.learn(&self.shared.known());
            if point > greatest {
                greatest = self.ask_newest(reader)?;
            }
        }
        if point > greatest {
            Err(Failure::above(point, greatest))
        } else {
            Ok(())
        }
    }

    /// Passes what a writer has made durable on to the other handles of this process.
    fn tell(&self) {
        if let Side::Writer { volume, .. } = &self.side {
            self.shared.learn(&volume.known());
        }
    }

    pub fn page_zero(&self, point: u64) -> Result<PageZero, Failure> {
        self.check_point(point)?;
        let page = match &self.side {
            Side::Writer { volume, .. } => volume.page_zero(point),
            Side::Reader { reader, .. } => reader.page_zero(point),
        };
        let page = self.noting(page.map_err(Failure::from))?;
        self.note_commit(page.commit_point);
        Ok(page)
    }

    fn note_commit(&self, commit_point: u64) {
        let mut commits = lock(&self.commits);
        if commits.len() >= MOST_COMMITS {
            commits.clear();
        }
        commits.insert(commit_point);
    }

    /// Returns the last commit point at or below a point. A read at a point between two commit points may show a part of the later commit.
    fn commit_at(&self, point: u64) -> Result<u64, Failure> {
        self.check_point(point)?;
        let is_known = lock(&self.commits).contains(&point);
        if is_known {
            Ok(point)
        } else {
            Ok(self.page_zero(point)?.commit_point)
        }
    }

    pub fn read(&self, point: u64, page: u32, offset: u32, length: u32) -> Result<Vec<u8>, Failure> {
        let page = user_page(page)?;
        if length == 0 || offset.checked_add(length).is_none_or(|end| end > PAGE_BYTES) {
            return Err(Failure::misuse("the range ends past its page"));
        }
        let point = self.commit_at(point)?;
        let (offset, length) = (offset as u16, length as u16);
        let bytes = match &self.side {
            Side::Writer { volume, .. } => volume.read(page, point, offset, length),
            Side::Reader { reader, .. } => reader.read(page, point, offset, length),
        };
        self.noting(bytes.map_err(Failure::from))
    }

    /// Returns the volume that this handle writes to.
    fn writer(&self) -> Result<&Volume, Failure> {
        self.staging().map(|(volume, _)| volume)
    }

    /// Returns the volume and what is staged, which is not locked: a call that waits for nodes must not lock it.
    fn staging(&self) -> Result<(&Volume, &Mutex<Vec<PageWrite>>), Failure> {
        match &self.side {
            Side::Writer { volume, staged } => Ok((volume, staged)),
            Side::Reader { .. } => Err(Failure::misuse("the handle of a reader cannot write")),
        }
    }

    pub fn stage(&self, page: u32, init: bool, patches: Vec<Patch>) -> Result<(), Failure> {
        let page = user_page(page)?;
        let (volume, staged) = self.staging()?;
        volume.standing()?;
        let write = PageWrite { page, init, patches };
        write.check()?;
        lock(staged).push(write);
        Ok(())
    }

    pub fn discard(&self) {
        if let Ok((_, staged)) = self.staging() {
            lock(staged).clear();
        }
    }

    pub fn commit(&self, header: Vec<u8>) -> Result<u64, Failure> {
        let (volume, staged) = self.staging()?;
        let writes = std::mem::take(&mut *lock(staged));
        let commit_point = volume.write(writes, header)?;
        self.note_commit(commit_point);
        Ok(commit_point)
    }

    pub fn wait(&self, point: u64, milliseconds: u32) -> Result<(), Failure> {
        let patience = match milliseconds {
            0 => self.options.patience,
            _ => Duration::from_millis(milliseconds.into()),
        };
        let waited = self.writer()?.wait(point, patience);
        self.tell();
        Ok(waited?)
    }

    pub fn advance(&self, point: u64) -> Result<(), Failure> {
        let volume = self.writer()?;
        let point = match self.commit_at(point) {
            // The point is below the least readable one, which stays.
            Err(failure) if failure.least().is_some() => return Ok(()),
            commit_point => commit_point?,
        };
        if point > 0 {
            volume.advance(READER, point)?;
            self.least.fetch_max(point, Ordering::Relaxed);
        }
        Ok(())
    }

    pub fn report(&self) -> Result<Report, Failure> {
        let (newest, generation, have, uncounted) = match &self.side {
            Side::Writer { volume, .. } => {
                let standing = volume.standing()?;
                (standing.durable, standing.generation, standing.answering, standing.uncounted)
            }
            Side::Reader { reader, .. } => (self.greatest()?, reader.generation(), reader.answering(), 0),
        };
        let least = self.least.load(Ordering::Relaxed);
        let (need, nodes) = (self.options.quorum.into(), self.options.nodes.len() as u32);
        Ok(Report { newest, least, generation, have: have as u32, need, nodes, uncounted: uncounted as u32 })
    }
}

fn lock<T>(mutex: &Mutex<T>) -> MutexGuard<'_, T> {
    mutex.lock().unwrap_or_else(PoisonError::into_inner)
}

fn user_page(page: u32) -> Result<u16, Failure> {
    u16::try_from(page).ok().filter(|page| *page > 0).ok_or_else(|| Failure::misuse("pages are 1 to 65,535"))
}

//! The folder of a store: a lock, and for each generation a log `log.N`, which begins after the snapshot `snapshot.N`.
//!
//! Generation 0 has no snapshot: its log begins with an empty segment. The store is at the newest generation that has a snapshot. A
//! checkpoint writes the next log, then the next snapshot, each under a draft name until it is whole and on the disk. The next generation
//! begins when the snapshot is renamed; then the older files are removed.

use super::entries::{Header, Kind};
use super::errors::StoreError;
use std::fs::{self, File, OpenOptions, TryLockError};
use std::io::{self, BufWriter, ErrorKind, Write};
use std::path::{Path, PathBuf};

/// The suffix of the name of an unfinished file.
const DRAFT: &str = ".draft";

pub struct Folder {
    path: PathBuf,
    /// The folder itself. It stays open, so that names can be flushed even if the process cannot open more files.
    names: File,
    /// Locked while the store is open.
    lock: File,
}

impl Drop for Folder {
    /// Unlocks the folder. A process that is being started has a copy of the descriptor, and with it the lock, until it runs its own
    /// program, so closing our descriptor does not release the lock.
    fn drop(&mut self) {
        // If this fails, closing the descriptor may still release the lock.
        let _ = self.lock.unlock();
    }
}

impl Folder {
    /// Opens or creates a folder, and locks it for this store.
    ///
    /// Errors: `Io` and `Locked`.
    pub fn open(path: &Path) -> Result<Folder, StoreError> {
        match fs::create_dir(path) {
            Err(error) if error.kind() != ErrorKind::AlreadyExists => return Err(StoreError::io(path)(error)),
            _ if path.join("lock").exists() => {}
            // The lock file is created after the folder's name is flushed, so the name of a folder without one may not be on the disk.
            _ => sync_name(path)?,
        }
        let (name, names) = (path.join("lock"), File::open(path).map_err(StoreError::io(path))?);
        let lock = OpenOptions::new().create(true).truncate(false).write(true).open(&name).map_err(StoreError::io(&name))?;
        match lock.try_lock() {
            Ok(()) => Ok(Folder { path: path.to_path_buf(), names, lock }),
            Err(TryLockError::WouldBlock) => Err(StoreError::Locked { folder: path.to_path_buf() }),
            Err(TryLockError::Error(error)) => Err(StoreError::io(&name)(error)),
        }
    }

    pub fn path(&self, kind: Kind, generation: u64) -> PathBuf {
        self.path.join(format!("{}.{generation}", kind.name()))
    }

    /// Returns the size of a file in bytes; 0 if there is no such file.
    pub fn length(&self, kind: Kind, generation: u64) -> u64 {
        fs::metadata(self.path(kind, generation)).map_or(0, |it| it.len())
    }

    /// Returns the generation of the store; `None` if the folder has no files of one.
    ///
    /// Errors: `Io`, and `Missing` if a file is missing that the others need.
    pub fn generation(&self) -> Result<Option<u64>, StoreError> {
        let (mut logs, mut snapshots) = (Vec::new(), Vec::new());
        for file in self.files()? {
            match file {
                Named::Log(generation) => logs.push(generation),
                Named::Snapshot(generation) => snapshots.push(generation),
                Named::Draft => {}
            }
        }
        let newest = snapshots.iter().copied().max().unwrap_or(0);
        // An unfinished checkpoint leaves the next log.
        let later = logs.iter().copied().find(|log| *log > newest + 1);
        if let Some(log) = later {
            return Err(StoreError::Missing { path: self.path(Kind::Snapshot, log) });
        }
        match logs.contains(&newest) {
            true => Ok(Some(newest)),
            false if logs.is_empty() && snapshots.is_empty() => Ok(None),
            false => Err(StoreError::Missing { path: self.path(Kind::Log, newest) }),
        }
    }

    /// Lists the files of stores in the folder, which may have other files.
    fn files(&self) -> Result<Vec<Named>, StoreError> {
        let names = fs::read_dir(&self.path).map_err(StoreError::io(&self.path))?;
        let names: Result<Vec<_>, _> = names.map(|entry| entry.map(|it| it.file_name())).collect();
        let names = names.map_err(StoreError::io(&self.path))?;
        Ok(names.iter().filter_map(|name| Named::of(name.to_str()?)).collect())
    }

    /// Removes the logs and snapshots of other generations.
    pub fn remove_others(&self, generation: u64) -> Result<(), StoreError> {
        for file in self.files()? {
            let path = match file {
                Named::Log(other) if other != generation => self.path(Kind::Log, other),
                Named::Snapshot(other) if other != generation => self.path(Kind::Snapshot, other),
                _ => continue,
            };
            fs::remove_file(&path).map_err(StoreError::io(&path))?;
        }
        Ok(())
    }

    /// Removes the files of a checkpoint that failed, or that a crash ended, before its generation began. A file that cannot be removed is
    /// replaced by the next checkpoint.
    pub fn remove_drafts(&self, generation: u64) {
        let (log, snapshot) = (self.path(Kind::Log, generation), self.path(Kind::Snapshot, generation));
        for path in [draft_of(&snapshot), draft_of(&log), log] {
            let _ = fs::remove_file(path);
        }
    }

    /// Creates a draft of a file of this kind, in place of an older one.
    pub fn draft(&self, header: Header) -> Result<Draft, StoreError> {
        let path = self.path(header.kind, header.generation);
        let draft = draft_of(&path);
        let file = File::create(&draft).map_err(StoreError::io(&draft))?;
        let mut writer = BufWriter::new(file);
        writer.write_all(&header.bytes()).map_err(StoreError::io(&draft))?;
        Ok(Draft { path, draft, writer, header, place: 0, entry: Vec::new() })
    }

    /// Waits until the names of the files are on the disk.
    pub fn sync(&self) -> Result<(), StoreError> {
        self.names.sync_all().map_err(StoreError::io(&self.path))
    }
}

/// Returns the name under which an unfinished file is written.
fn draft_of(path: &Path) -> PathBuf {
    let mut name = path.as_os_str().to_owned();
    name.push(DRAFT);
    name.into()
}

/// Waits until the names of a folder's files are on the disk.
pub fn sync(folder: &Path) -> Result<(), StoreError> {
    File::open(folder).and_then(|it| it.sync_all()).map_err(StoreError::io(folder))
}

/// Waits until the name of a folder is on the disk, unless this process may not read the parent folder.
fn sync_name(folder: &Path) -> Result<(), StoreError> {
    match sync(folder.parent().filter(|parent| !parent.as_os_str().is_empty()).unwrap_or(Path::new("."))) {
        Err(StoreError::Io { error, .. }) if error.kind() == ErrorKind::PermissionDenied => Ok(()),
        done => done,
    }
}

/// A file, as identified by its name.
enum Named {
    Log(u64),
    Snapshot(u64),
    Draft,
}

impl Named {
    fn of(name: &str) -> Option<Named> {
        let (kind, rest) = name.split_once('.')?;
        let (rest, is_draft) = rest.strip_suffix(DRAFT).map_or((rest, false), |rest| (rest, true));
        let generation = rest.parse().ok().filter(|it: &u64| it.to_string() == rest)?;
        match kind {
            "log" | "snapshot" if is_draft => Some(Named::Draft),
            "log" => Some(Named::Log(generation)),
            "snapshot" => Some(Named::Snapshot(generation)),
            _ => None,
        }
    }
}

/// An unfinished file.
pub struct Draft {
    path: PathBuf,
    draft: PathBuf,
    writer: BufWriter<File>,
    header: Header,
    place: u64,
    entry: Vec<u8>,
}

impl Draft {
    /// Appends an entry of request frames.
    pub fn put(&mut self, requests: &[u8]) -> Result<(), StoreError> {
        self.entry.clear();
        self.header.append_entry(&mut self.entry, self.place, requests)?;
        self.place += 1;
        self.writer.write_all(&self.entry).map_err(StoreError::io(&self.draft))
    }

    /// Writes all of it to the disk, except its name.
    pub fn sync(mut self) -> Result<Whole, StoreError> {
        self.written()?.sync_all().map_err(self.failure())?;
        Ok(self.whole())
    }

    /// Passes all of it to the system, and returns the file, so that another thread can flush it.
    pub fn written(&mut self) -> Result<File, StoreError> {
        self.writer.flush().and_then(|()| self.writer.get_ref().try_clone()).map_err(StoreError::io(&self.draft))
    }

    /// Marks the file as whole; it must be on the disk.
    pub fn whole(self) -> Whole {
        Whole { path: self.path, draft: self.draft }
    }

    /// Converts an error of the system for this file.
    pub fn failure(&self) -> impl FnOnce(io::Error) -> StoreError + '_ {
        StoreError::io(&self.draft)
    }
}

/// A whole file under its draft name.
pub struct Whole {
    path: PathBuf,
    draft: PathBuf,
}

impl Whole {
    pub fn rename(self) -> Result<(), StoreError> {
        fs::rename(&self.draft, &self.path).map_err(StoreError::io(&self.path))
    }
}

#[cfg(test)]
mod tests {
    use super::super::log::tests::Place;
    use super::*;

    /// A process that is being started has a copy of each descriptor until it runs its own program.
    #[test]
    fn a_closed_folder_is_free_although_a_copy_of_its_lock_is_open() {
        let place = Place::new("copies");
        let folder = Folder::open(place.path()).unwrap();
        let copy = folder.lock.try_clone().unwrap();
        assert!(matches!(Folder::open(place.path()), Err(StoreError::Locked { .. })));
        drop(folder);
        assert!(Folder::open(place.path()).is_ok());
        drop(copy);
    }

    #[test]
    fn the_drafts_of_a_generation_go() {
        let place = Place::new("drafts");
        let folder = Folder::open(place.path()).unwrap();
        for name in ["log.3", "log.4", "log.4.draft", "snapshot.4.draft", "other"] {
            fs::write(place.path().join(name), "").unwrap();
        }
        folder.remove_drafts(4);
        let mut names: Vec<_> = fs::read_dir(place.path()).unwrap().map(|it| it.unwrap().file_name()).collect();
        names.sort();
        assert_eq!(names, ["lock", "log.3", "other"]);
    }
}

//! The log of the requests after a snapshot.

use super::cache::drop_kept;
use super::entries::{Entries, Header, Kind, Next};
use super::errors::StoreError;
use std::fs::{File, OpenOptions};
use std::io::{self, Write};
use std::path::{Path, PathBuf};
use std::time::{Duration, Instant};

/// A log to which entries are appended. All of them are on the disk, except those of `append_unflushed` before the next `flush`.
pub struct Log {
    path: PathBuf,
    file: File,
    header: Header,
    /// The place of the next entry.
    place: u64,
    /// The offset of the next entry.
    length: u64,
    entry: Vec<u8>,
}

impl Log {
    /// Opens a log, passes the requests of each entry to `each`, and cuts off what a crash has left of the last entry. Also returns the
    /// number of bytes that were cut off.
    ///
    /// Errors: `Io`, `Damaged`, and those of `each`. Nothing is cut off then, unless `Io` is the error of the flush after the cut.
    pub fn recover<F>(path: &Path, generation: u64, mut each: F) -> Result<(Log, u64), StoreError>
    where
        F: FnMut(&[&[u8]]) -> Result<(), StoreError>,
    {
        let file = OpenOptions::new().append(true).open(path).map_err(StoreError::io(path))?;
        // The last entry may not be on the disk: its writer may have been killed after it gave the bytes to the system and before it
        // flushed, or the flush may have failed.
        file.sync_all().map_err(StoreError::io(path))?;
        drop_kept(&file);
        let (mut entries, mut bytes) = (Entries::open(path, Kind::Log, generation)?, Vec::new());
        let torn = loop {
            match entries.next(&mut bytes)? {
                Next::Entry => each(&entries.requests(&bytes)?)?,
                Next::End => break 0,
                Next::Spoiled => break entries.torn()?,
            }
        };
        if torn > 0 {
            file.set_len(entries.offset()).and_then(|()| file.sync_all()).map_err(StoreError::io(path))?;
        }
        let (path, header, place, length) = (path.to_path_buf(), entries.header(), entries.place(), entries.offset());
        Ok((Log { path, file, header, place, length, entry: Vec::new() }, torn))
    }

    /// Returns the size of the log in bytes.
    pub fn length(&self) -> u64 {
        self.length
    }

    /// Appends an entry of request frames, waits until it is on the disk, and returns the duration of the flush.
    ///
    /// Errors: `Full`, which leaves the log as it was; `Io` and `TooLong`, after which the log must not be used.
    pub fn append(&mut self, requests: &[u8]) -> Result<Duration, StoreError> {
        self.write(requests)?;
        let begin = Instant::now();
        self.file.sync_data().map_err(|error| self.take_back(error))?;
        self.count();
        Ok(begin.elapsed())
    }

    /// Like `append`, but does not wait for the disk: for a log that is flushed before it is used.
    pub fn append_unflushed(&mut self, requests: &[u8]) -> Result<(), StoreError> {
        self.write(requests)?;
        self.count();
        Ok(())
    }

    /// Waits until all entries are on the disk.
    ///
    /// Errors: `Io`, after which the log must not be used.
    pub fn flush(&mut self) -> Result<(), StoreError> {
        self.file.sync_data().map_err(StoreError::io(&self.path))
    }

    fn write(&mut self, requests: &[u8]) -> Result<(), StoreError> {
        self.entry.clear();
        self.header.append_entry(&mut self.entry, self.place, requests)?;
        let written = self.file.write_all(&self.entry);
        written.map_err(|error| self.take_back(error))
    }

    /// Counts the entry that was written last.
    fn count(&mut self) {
        self.place += 1;
        self.length += self.entry.len() as u64;
    }

    /// Cuts off an entry whose write or flush failed. After `Full` the whole entry is written again later; a failed flush alone is never
    /// tried again: the system may have dropped what it could not write, and report success the next time.
    fn take_back(&mut self, error: io::Error) -> StoreError {
        match self.file.set_len(self.length) {
            Ok(()) if StoreError::is_full(&error) => StoreError::Full { path: self.path.clone(), error },
            _ => StoreError::Io { path: self.path.clone(), error },
        }
    }

    /// Passes the requests of each entry to `each` again.
    pub fn replay<F>(&self, mut each: F) -> Result<(), StoreError>
    where
        F: FnMut(&[&[u8]]) -> Result<(), StoreError>,
    {
        let (mut entries, mut bytes) = (Entries::open(&self.path, Kind::Log, self.header.generation)?, Vec::new());
        while entries.place() < self.place {
            match entries.next(&mut bytes)? {
                Next::Entry => each(&entries.requests(&bytes)?)?,
                _ => return Err(entries.damaged()),
            }
        }
        Ok(())
    }
}

#[cfg(test)]
pub(super) mod tests {
    use super::*;
    use crate::store::folder::Folder;
    use std::{env, fs, process};
    use yieldcleat_client::frames;

    /// The folder of a test, which is removed with it.
    pub struct Place(PathBuf);

    impl Place {
        pub fn new(name: &str) -> Place {
            let path = env::temp_dir().join(format!("yieldcleat-{}-{name}", process::id()));
            let _ = fs::remove_dir_all(&path);
            Place(path)
        }

        pub fn path(&self) -> &Path {
            &self.0
        }
    }

    impl Drop for Place {
        fn drop(&mut self) {
            let _ = fs::remove_dir_all(&self.0);
        }
    }

    impl Log {
        /// Makes the system refuse to write the log.
        pub fn refuse(&mut self) {
            self.file = File::open(&self.path).unwrap();
        }
    }

    fn framed(requests: &[&[u8]]) -> Vec<u8> {
        let mut bytes = Vec::new();
        requests.iter().for_each(|request| frames::append(&mut bytes, &[request]).unwrap());
        bytes
    }

    const BATCHES: [&[&[u8]]; 3] = [&[b"open 1"], &[b"take a", b"take b"], &[b"take ccc"]];

    /// Makes a log of generation 4 with these batches, and returns where each entry ends.
    fn written(place: &Place) -> (PathBuf, Vec<usize>) {
        let folder = Folder::open(place.path()).unwrap();
        folder.draft(Header::new(Kind::Log, 4, 0)).unwrap().sync().unwrap().rename().unwrap();
        let path = folder.path(Kind::Log, 4);
        let mut log = Log::recover(&path, 4, |_| panic!("no entry")).unwrap().0;
        let mut ends = vec![fs::metadata(&path).unwrap().len() as usize];
        for batch in BATCHES {
            log.append(&framed(batch)).unwrap();
            ends.push(fs::metadata(&path).unwrap().len() as usize);
        }
        (path, ends)
    }

    /// Checks that a log has the first of the batches, and returns their number and the number of torn bytes.
    fn recovered(path: &Path) -> Result<(usize, u64), StoreError> {
        let mut count = 0;
        let (_, torn) = Log::recover(path, 4, |requests| {
            assert_eq!(requests, BATCHES[count]);
            count += 1;
            Ok(())
        })?;
        Ok((count, torn))
    }

    fn is_damaged(path: &Path) -> bool {
        matches!(recovered(path), Err(StoreError::Damaged { .. }))
    }

    #[test]
    fn batches_come_back() {
        let place = Place::new("batches");
        let (path, _) = written(&place);
        assert_eq!(recovered(&path).unwrap(), (3, 0));
        let mut log = Log::recover(&path, 4, |_| Ok(())).unwrap().0;
        log.append(&framed(&[b"front"])).unwrap();
        let mut replayed = Vec::new();
        log.replay(|requests| {
            replayed.push(framed(requests));
            Ok(())
        })
        .unwrap();
        assert_eq!(replayed, [framed(BATCHES[0]), framed(BATCHES[1]), framed(BATCHES[2]), framed(&[b"front"])]);
    }

    /// A crash leaves any beginning of the last entry, and the log continues after the entry before it.
    #[test]
    fn a_torn_end_is_cut_off() {
        let place = Place::new("torn");
        let (path, ends) = written(&place);
        let whole = fs::read(&path).unwrap();
        for length in ends[2]..ends[3] {
            fs::write(&path, &whole[..length]).unwrap();
            assert_eq!(recovered(&path).unwrap(), (2, (length - ends[2]) as u64));
            assert_eq!(fs::read(&path).unwrap(), whole[..ends[2]]);
            let mut log = Log::recover(&path, 4, |_| Ok(())).unwrap().0;
            log.append(&framed(BATCHES[2])).unwrap();
            assert_eq!(fs::read(&path).unwrap(), whole);
        }
    }

    /// A crash may leave any of the last entry's bytes as zeros, because the file gets its length before its bytes.
    #[test]
    fn zeros_are_no_entry() {
        let place = Place::new("zeros");
        let (path, ends) = written(&place);
        let whole = fs::read(&path).unwrap();
        for from in ends[2]..ends[3] {
            for to in from + 1..=ends[3] {
                let mut bytes = whole.clone();
                bytes[from..to].fill(0);
                if bytes == whole {
                    continue;
                }
                fs::write(&path, &bytes).unwrap();
                assert_eq!(recovered(&path).unwrap(), (2, (ends[3] - ends[2]) as u64), "zeros from {from} to {to}");
            }
        }
        for count in [1, 4, 19, 20, 4096] {
            fs::write(&path, [&whole[..], &vec![0; count]].concat()).unwrap();
            assert_eq!(recovered(&path).unwrap(), (3, count as u64));
        }
    }

    /// An entry with another one after it was on the disk, so no crash explains other contents.
    #[test]
    fn a_damaged_middle_is_refused() {
        let place = Place::new("middle");
        let (path, ends) = written(&place);
        let whole = fs::read(&path).unwrap();
        for at in 0..ends[2] {
            for change in [1, 0x80, 0xff] {
                let mut bytes = whole.clone();
                bytes[at] ^= change;
                fs::write(&path, &bytes).unwrap();
                assert!(is_damaged(&path), "byte {at}");
                assert_eq!(fs::read(&path).unwrap(), bytes, "nothing is cut off");
            }
        }
        let missing = [&whole[..ends[0]], &whole[ends[1]..]].concat();
        let longer = [&whole[..ends[1]], &[0; 3], &whole[ends[1]..]].concat();
        let shorter = [&whole[..ends[1] - 1], &whole[ends[1]..]].concat();
        let twice = [&whole[..], &whole[ends[2]..]].concat();
        let spoiled = [&whole[..ends[2] - 1], &[0; 51]].concat();
        for bytes in [missing, longer, shorter, twice, spoiled, vec![], whole[..10].to_vec(), vec![0; 100]] {
            fs::write(&path, &bytes).unwrap();
            assert!(is_damaged(&path));
        }
        fs::write(&path, &whole).unwrap();
        assert!(matches!(Log::recover(&path, 5, |_| Ok(())), Err(StoreError::Damaged { offset: 0, .. })));
    }

    /// Bytes of a request that look like an entry do not turn a torn end into damage.
    #[test]
    fn requests_imitate_no_entry() {
        let place = Place::new("imitation");
        let (path, ends) = written(&place);
        let other = Header::new(Kind::Log, 4, 0);
        let mut imitation = b"take ".to_vec();
        other.append_entry(&mut imitation, 4, &framed(&[b"front"])).unwrap();
        let mut log = Log::recover(&path, 4, |_| Ok(())).unwrap().0;
        log.append(&framed(&[&imitation])).unwrap();
        let whole = fs::read(&path).unwrap();
        let mut bytes = whole.clone();
        bytes[ends[3] + 3] ^= 1;
        fs::write(&path, &bytes).unwrap();
        assert_eq!(recovered(&path).unwrap(), (3, (whole.len() - ends[3]) as u64));
    }
}

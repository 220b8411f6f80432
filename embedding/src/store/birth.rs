//! The birth of a node: a number that no earlier life of the node had. It is lost together with the node's files, and never changes while
//! they exist.

use super::errors::StoreError;
use super::folder::{sync, Folder};
use crate::crc32c::crc32c;
use std::fs::{self, File};
use std::io::{ErrorKind, Read, Write};
use std::path::Path;

const MAGIC: &[u8; 8] = b"yc birth";
const LENGTH: usize = 20;

/// A locked folder, and the birth of its node. `Store::open_in` takes it over with its lock, so no other process can draw another birth in
/// between.
pub struct Home {
    folder: Folder,
    birth: u64,
}

impl Home {
    /// Opens or creates a folder, and reads its birth. A folder without a log of a store gets a new birth.
    ///
    /// A birth without a log is not used again: the files may have been lost, and the node must not count as one that has their contents.
    ///
    /// Errors: `Io`; `Locked` while a store has the folder open; `Missing` if a file of the store is missing beside others; `Damaged`.
    pub fn open(path: &Path) -> Result<Home, StoreError> {
        let folder = Folder::open(path)?;
        let birth = birth_in(path, &folder)?;
        Ok(Home { folder, birth })
    }

    /// Returns the birth with which the node must be opened, by `Node::open_as`.
    pub fn birth(&self) -> u64 {
        self.birth
    }

    /// Returns the folder, which stays locked.
    pub(super) fn into_folder(self) -> Folder {
        self.folder
    }
}

/// Reads or draws the birth of a folder as `Home::open` does, with the same errors.
///
/// The folder is unlocked when this returns. Another process may draw another birth before a store opens the folder, which keeps only the
/// last one. If that can happen, open a store in a `Home`.
pub fn birth(folder: &Path) -> Result<u64, StoreError> {
    Home::open(folder).map(|home| home.birth())
}

/// Reads or draws the birth of a locked folder.
fn birth_in(folder: &Path, lock: &Folder) -> Result<u64, StoreError> {
    let path = folder.join("birth");
    match File::open(&path) {
        Ok(file) => {
            let birth = read(file, &path)?;
            let has_lived = lock.generation()?.is_some();
            if has_lived {
                Ok(birth)
            } else {
                write(folder, &path)
            }
        }
        Err(error) if error.kind() == ErrorKind::NotFound => draw(folder, &path),
        Err(error) => Err(StoreError::io(&path)(error)),
    }
}

fn read(file: File, path: &Path) -> Result<u64, StoreError> {
    let mut bytes = Vec::new();
    file.take(LENGTH as u64 + 1).read_to_end(&mut bytes).map_err(StoreError::io(path))?;
    let number = bytes.get(8..16).and_then(|bytes| bytes.try_into().ok()).map(u64::from_be_bytes);
    match number {
        Some(birth) if encoded(birth) == bytes => Ok(birth),
        _ => Err(StoreError::Damaged { path: path.to_path_buf(), offset: 0 }),
    }
}

fn encoded(birth: u64) -> Vec<u8> {
    let mut bytes = [&MAGIC[..], &birth.to_be_bytes()].concat();
    bytes.extend_from_slice(&crc32c(&[&bytes]).to_be_bytes());
    bytes
}

/// Draws the birth of a folder without files.
fn draw(folder: &Path, path: &Path) -> Result<u64, StoreError> {
    refuse_files(folder, path)?;
    write(folder, path)
}

/// Draws a new birth and writes it, all of it or nothing.
fn write(folder: &Path, path: &Path) -> Result<u64, StoreError> {
    let birth = random().map_err(StoreError::io(Path::new(RANDOM)))?;
    let draft = folder.join("birth.draft");
    let mut file = File::create(&draft).map_err(StoreError::io(&draft))?;
    file.write_all(&encoded(birth)).and_then(|()| file.sync_all()).map_err(StoreError::io(&draft))?;
    fs::rename(&draft, path).map_err(StoreError::io(path))?;
    sync(folder)?;
    Ok(birth)
}

/// Refuses a folder that has files of a store and no birth.
fn refuse_files(folder: &Path, path: &Path) -> Result<(), StoreError> {
    for entry in fs::read_dir(folder).map_err(StoreError::io(folder))? {
        let name = entry.map_err(StoreError::io(folder))?.file_name();
        if name.to_str().is_some_and(|name| name.starts_with("log.") || name.starts_with("snapshot.")) {
            return Err(StoreError::Missing { path: path.to_path_buf() });
        }
    }
    Ok(())
}

const RANDOM: &str = "/dev/urandom";

fn random() -> std::io::Result<u64> {
    let mut bytes = [0; 8];
    File::open(RANDOM)?.read_exact(&mut bytes)?;
    Ok(u64::from_be_bytes(bytes))
}

#[cfg(test)]
mod tests {
    use super::super::log::tests::Place;
    use super::super::Store;
    use super::*;
    use crate::Node;

    #[test]
    fn a_birth_stays_with_its_folder() {
        let place = Place::new("birth");
        let first = birth(place.path()).unwrap();
        fs::write(place.path().join("log.0"), "").unwrap();
        assert_eq!(birth(place.path()).unwrap(), first);
        let folder = Folder::open(place.path()).unwrap();
        assert!(matches!(birth(place.path()), Err(StoreError::Locked { .. })));
        drop(folder);
        fs::remove_dir_all(place.path()).unwrap();
        assert_ne!(birth(place.path()).unwrap(), first);
        let mut names: Vec<_> = fs::read_dir(place.path()).unwrap().map(|it| it.unwrap().file_name()).collect();
        names.sort();
        assert_eq!(names, ["birth", "lock"]);
    }

    #[test]
    fn a_home_is_locked_from_its_birth_to_the_end_of_its_store() {
        let place = Place::new("home");
        let is_locked = || matches!(birth(place.path()), Err(StoreError::Locked { .. }));
        let home = Home::open(place.path()).unwrap();
        let first = home.birth();
        assert!(is_locked());
        let mut store = Store::open_in(home, Node::open_as(1, first).unwrap(), 1).unwrap().0;
        assert!(is_locked());
        let status = store.answer(&[b"status"]).unwrap().remove(0);
        assert_eq!(String::from_utf8_lossy(&status), format!("status 0 {first} 0 0 0 0"));
        drop(store);
        assert_eq!(Home::open(place.path()).unwrap().birth(), first);
    }

    #[test]
    fn a_folder_that_lost_its_log_is_born_again() {
        let place = Place::new("emptied");
        let first = birth(place.path()).unwrap();
        let log = place.path().join("log.0");
        fs::write(&log, "").unwrap();
        fs::remove_file(&log).unwrap();
        let second = birth(place.path()).unwrap();
        assert_ne!(second, first);
        fs::write(place.path().join("snapshot.1"), "").unwrap();
        assert!(matches!(birth(place.path()), Err(StoreError::Missing { .. })));
        fs::write(place.path().join("log.1"), "").unwrap();
        assert_eq!(birth(place.path()).unwrap(), second);
    }

    #[test]
    fn no_birth_is_made_up_beside_files() {
        let place = Place::new("lived");
        birth(place.path()).unwrap();
        let path = place.path().join("birth");
        let whole = fs::read(&path).unwrap();
        for at in 0..LENGTH {
            let mut bytes = whole.clone();
            bytes[at] ^= 1;
            fs::write(&path, bytes).unwrap();
            assert!(matches!(birth(place.path()), Err(StoreError::Damaged { .. })));
        }
        fs::write(&path, &whole[..7]).unwrap();
        assert!(matches!(birth(place.path()), Err(StoreError::Damaged { .. })));
        fs::remove_file(&path).unwrap();
        fs::write(place.path().join("log.0"), "").unwrap();
        assert!(matches!(birth(place.path()), Err(StoreError::Missing { .. })));
        assert!(!path.exists());
    }
}

//! Files of entries, each with a checksum. Numbers have their most significant byte first.
//!
//! | Part | Bytes |
//! |---|---|
//! | header | the kind (8), the generation (8), a random salt (8), the number of entries (8, 0 in a log), CRC-32C of these (4) |
//! | entry | its place from 0 (8), its length (4), CRC-32C of its bytes (4), CRC-32C of salt and these (4); its bytes: request frames |
//!
//! A log grows by one entry at a time, and each entry is on the disk before the next one is written. So a crash can spoil only the last
//! entry, in any of its sectors; a spoiled entry with a whole head after it means that the file was damaged. The salt prevents bytes that a
//! client sent in a request from being taken for a head.

use super::errors::StoreError;
use crate::crc32c::crc32c;
use std::collections::hash_map::RandomState;
use std::fs::File;
use std::hash::{BuildHasher, Hasher};
use std::io::{BufReader, Read, Seek, SeekFrom};
use std::path::{Path, PathBuf};
use yieldcleat_client::frames;

const HEADER: usize = 36;
const HEAD: usize = 20;

#[derive(Debug, Clone, Copy, PartialEq, Eq)]
pub enum Kind {
    Log,
    Snapshot,
}

impl Kind {
    /// Returns the first bytes of the file, which include the version of the format.
    fn magic(self) -> &'static [u8; 8] {
        match self {
            Kind::Log => b"yc log 1",
            Kind::Snapshot => b"yc snap1",
        }
    }

    pub fn name(self) -> &'static str {
        match self {
            Kind::Log => "log",
            Kind::Snapshot => "snapshot",
        }
    }
}

/// Returns the size of an entry that has only this request, in bytes.
pub fn length(request: &[u8]) -> u64 {
    (HEAD + 4 + request.len()) as u64
}

/// Decodes the number in `count` bytes from an offset on, which must exist.
fn number(bytes: &[u8], from: usize, count: usize) -> u64 {
    bytes[from..from + count].iter().fold(0, |number, byte| number << 8 | u64::from(*byte))
}

/// The header of a file.
#[derive(Debug, Clone, Copy, PartialEq, Eq)]
pub struct Header {
    pub kind: Kind,
    pub generation: u64,
    pub salt: u64,
    /// The number of entries of a snapshot, and 0 in a log.
    pub count: u64,
}

impl Header {
    pub fn new(kind: Kind, generation: u64, count: u64) -> Header {
        Header { kind, generation, salt: RandomState::new().build_hasher().finish(), count }
    }

    pub fn bytes(&self) -> Vec<u8> {
        let numbers = [self.generation, self.salt, self.count].map(u64::to_be_bytes);
        let mut bytes = [&self.kind.magic()[..], &numbers.concat()].concat();
        bytes.extend_from_slice(&crc32c(&[&bytes]).to_be_bytes());
        bytes
    }

    /// Decodes a header of this kind and generation.
    fn of(bytes: &[u8], kind: Kind, generation: u64) -> Option<Header> {
        let header =
            (bytes.len() == HEADER).then(|| Header { kind, generation, salt: number(bytes, 16, 8), count: number(bytes, 24, 8) })?;
        (header.bytes() == bytes).then_some(header)
    }

    /// Appends the entry of this place to a buffer.
    pub fn append_entry(&self, buffer: &mut Vec<u8>, place: u64, bytes: &[u8]) -> Result<(), StoreError> {
        let length = u32::try_from(bytes.len()).map_err(|_| StoreError::TooLong)?;
        let head = Head { place, length, sum: crc32c(&[bytes]) };
        buffer.extend_from_slice(&head.bytes(self.salt));
        buffer.extend_from_slice(bytes);
        Ok(())
    }
}

/// The head of an entry.
#[derive(Debug, Clone, Copy, PartialEq, Eq)]
struct Head {
    place: u64,
    length: u32,
    sum: u32,
}

impl Head {
    fn bytes(&self, salt: u64) -> Vec<u8> {
        let mut bytes = [&self.place.to_be_bytes()[..], &self.length.to_be_bytes(), &self.sum.to_be_bytes()].concat();
        bytes.extend_from_slice(&crc32c(&[&salt.to_be_bytes(), &bytes]).to_be_bytes());
        bytes
    }

    /// Decodes the head in the first bytes.
    fn of(bytes: &[u8], salt: u64) -> Option<Head> {
        let bytes = bytes.get(..HEAD)?;
        let is_whole = u64::from(crc32c(&[&salt.to_be_bytes(), &bytes[..16]])) == number(bytes, 16, 4);
        is_whole.then(|| Head { place: number(bytes, 0, 8), length: number(bytes, 8, 4) as u32, sum: number(bytes, 12, 4) as u32 })
    }
}

/// What a file has at an offset.
#[derive(Debug, Clone, Copy, PartialEq, Eq)]
pub enum Next {
    /// A whole entry, which is in the buffer.
    Entry,
    /// The end of the file.
    End,
    /// Something that is not a whole entry.
    Spoiled,
}

/// A file that is read entry by entry.
pub struct Entries {
    path: PathBuf,
    reader: BufReader<File>,
    header: Header,
    /// The place of the next entry.
    place: u64,
    /// The offset of the next entry.
    offset: u64,
}

impl Entries {
    /// Opens a file and reads its header.
    ///
    /// Errors: `Io`, and `Damaged` for a file that does not begin with the header of this kind and generation.
    pub fn open(path: &Path, kind: Kind, generation: u64) -> Result<Entries, StoreError> {
        let (mut bytes, file) = (Vec::new(), File::open(path).map_err(StoreError::io(path))?);
        let mut reader = BufReader::new(file);
        reader.by_ref().take(HEADER as u64).read_to_end(&mut bytes).map_err(StoreError::io(path))?;
        let damaged = || StoreError::Damaged { path: path.to_path_buf(), offset: 0 };
        let header = Header::of(&bytes, kind, generation).ok_or_else(damaged)?;
        Ok(Entries { path: path.to_path_buf(), reader, header, place: 0, offset: HEADER as u64 })
    }

    pub fn header(&self) -> Header {
        self.header
    }

    pub fn place(&self) -> u64 {
        self.place
    }

    /// Returns the offset at which the whole entries that were read end.
    pub fn offset(&self) -> u64 {
        self.offset
    }

    pub fn damaged(&self) -> StoreError {
        StoreError::Damaged { path: self.path.clone(), offset: self.offset }
    }

    /// Reads the next entry into the buffer, whose contents it replaces.
    ///
    /// Errors: `Io`.
    pub fn next(&mut self, bytes: &mut Vec<u8>) -> Result<Next, StoreError> {
        self.read(HEAD as u64, bytes)?;
        if bytes.is_empty() {
            return Ok(Next::End);
        }
        let Some(head) = Head::of(bytes, self.header.salt).filter(|head| head.place == self.place) else {
            return Ok(Next::Spoiled);
        };
        self.read(head.length.into(), bytes)?;
        if bytes.len() != head.length as usize || crc32c(&[bytes]) != head.sum {
            return Ok(Next::Spoiled);
        }
        self.place += 1;
        self.offset += HEAD as u64 + u64::from(head.length);
        Ok(Next::Entry)
    }

    fn read(&mut self, length: u64, bytes: &mut Vec<u8>) -> Result<(), StoreError> {
        bytes.clear();
        self.reader.by_ref().take(length).read_to_end(bytes).map(drop).map_err(StoreError::io(&self.path))
    }

    /// Splits an entry into its requests.
    pub fn requests<'a>(&self, bytes: &'a [u8]) -> Result<Vec<&'a [u8]>, StoreError> {
        frames::inside(bytes).ok_or_else(|| self.damaged())
    }

    /// Returns the number of bytes after the whole entries: what a crash has left of the last one.
    ///
    /// Errors: `Io`, and `Damaged` if no crash leaves such bytes, because something was written after them.
    pub fn torn(&mut self) -> Result<u64, StoreError> {
        let mut rest = Vec::new();
        self.reader.seek(SeekFrom::Start(self.offset)).map_err(StoreError::io(&self.path))?;
        self.read(u64::MAX, &mut rest)?;
        let own = Head::of(&rest, self.header.salt).filter(|head| head.place == self.place);
        let is_last = own.is_none_or(|head| HEAD + head.length as usize >= rest.len());
        let behind = &rest[usize::from(own.is_some())..];
        if is_last && !self.has_head(behind) {
            Ok(rest.len() as u64)
        } else {
            Err(self.damaged())
        }
    }

    /// Returns whether a head of this file is anywhere in these bytes.
    fn has_head(&self, bytes: &[u8]) -> bool {
        let most = self.place.saturating_add(bytes.len() as u64);
        bytes.windows(HEAD).any(|it| number(it, 0, 8) <= most && Head::of(it, self.header.salt).is_some())
    }
}

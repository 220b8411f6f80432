//! Decoding of answers. Each function decodes one kind of answer, and returns the error that any other answer means.

use crate::engines;
use crate::errors::{Error, ReadFault, Refused, SnapshotFault, StagingFault, Uncovered, WireFault};

/// The effect of a fact on the segment's meaning.
#[derive(Debug, Clone, Copy, PartialEq, Eq)]
pub enum Taken {
    Changed,
    Unchanged,
}

/// The front of a segment: how far its log is complete, and from which point it can be read.
#[derive(Debug, Clone, Copy, PartialEq, Eq)]
pub struct Front {
    /// The complete epoch.
    pub epoch: u16,
    /// The complete point: no record at or below it is missing.
    pub complete: u64,
    /// The minimum read point.
    pub min: u64,
}

impl Front {
    /// Returns whether this front acknowledges the record of a sound log with this key. Only a front of the record's own epoch does:
    /// `unchanged` may also be the answer to a dead record, and fronts of different epochs do not compare.
    pub fn has(&self, key: Key) -> bool {
        self.epoch == key.epoch && self.complete >= key.number
    }
}

/// Counts of what the segment stores, and the points that bound it.
#[derive(Debug, Clone, Copy, PartialEq, Eq)]
pub struct State {
    /// The complete epoch.
    pub epoch: u16,
    /// The complete point.
    pub complete: u64,
    /// The minimum read point.
    pub min: u64,
    /// The greatest linked LSN not above the minimum read point.
    pub anchor: u64,
    /// The base point: a point up to which nothing is missing, and below which records may have been discarded.
    pub base: u64,
    /// The number of stored records.
    pub held: u64,
    /// The number of kept records: those alive above the anchor, or waiting for a later epoch.
    pub kept: u64,
    /// The number of page images.
    pub images: u64,
    /// The number of truncations.
    pub truncations: u64,
    /// The number of advances that wait for a later epoch.
    pub waiting: u64,
}

/// What the complete point waits for.
#[derive(Debug, Clone, Copy, PartialEq, Eq)]
pub enum Gap {
    /// The record with this LSN: later ones are stored, and it is missing.
    Record { number: u64 },
    /// The truncation that begins this epoch: records wait for it.
    Truncation { epoch: u16 },
}

/// The key of a record: its epoch and LSN.
#[derive(Debug, Clone, Copy, PartialEq, Eq, PartialOrd, Ord, Default)]
pub struct Key {
    pub epoch: u16,
    pub number: u64,
}

/// A stored record: its key, and its encoding as a fact.
#[derive(Debug, Clone, PartialEq, Eq)]
pub struct Held {
    pub key: Key,
    pub bytes: Vec<u8>,
}

/// Parses exactly N decimal numbers after a word. `None` if there are more or fewer, or one exceeds 64 bits.
fn numbers<const N: usize>(answer: &[u8], word: &str) -> Option<[u64; N]> {
    let rest = std::str::from_utf8(answer).ok()?.strip_prefix(word)?;
    let mut numbers = [0; N];
    let mut words = rest.split(' ');
    for number in &mut numbers {
        *number = words.next()?.parse().ok()?;
    }
    words.next().is_none().then_some(numbers)
}

/// Converts a number to a field of fewer bits, if it fits.
fn small<T: TryFrom<u64>>(number: u64) -> Option<T> {
    T::try_from(number).ok()
}

fn refused(answer: &[u8]) -> Option<Refused> {
    if answer == b"refused by record" {
        return Some(Refused::Record);
    }
    if let Some([own, shown]) = numbers(answer, "refused by roster ") {
        return Some(Refused::Roster { own: small(own)?, shown: small(shown)? });
    }
    if let Some([epoch, lo, hi]) = numbers(answer, "refused by other cut ") {
        return Some(Refused::OtherTruncation { epoch: small(epoch)?, lo, hi });
    }
    if let Some([epoch, point, reader]) = numbers(answer, "refused by min ") {
        return Some(Refused::Advance { epoch: small(epoch)?, point, reader: small(reader)? });
    }
    if let Some([epoch, lo, hi]) = numbers(answer, "refused by cut ") {
        return Some(Refused::Truncation { epoch: small(epoch)?, lo, hi });
    }
    numbers(answer, "refused by least ").map(|[min]| Refused::Least { min })
}

fn staging(answer: &[u8]) -> Option<StagingFault> {
    match answer {
        b"no staging" => return Some(StagingFault::NoStaging),
        b"stranger" => return Some(StagingFault::Stranger),
        _ => {}
    }
    if let Some([index]) = numbers(answer, "double ") {
        return Some(StagingFault::Double { index: small(index)? });
    }
    if let Some([index]) = numbers(answer, "missing ") {
        return Some(StagingFault::Missing { index: small(index)? });
    }
    let [index] = numbers(answer, "malformed ")?;
    Some(StagingFault::Malformed { index: small(index)? })
}

/// Decodes the errors that consist of a word and numbers.
fn numbered(answer: &[u8]) -> Option<Error> {
    if let Some([fault]) = numbers(answer, "wire ") {
        return Some(Error::Wire(WireFault::of(fault)?));
    }
    if let Some([min]) = numbers(answer, "below ") {
        return Some(Error::Read(ReadFault::Below { min }));
    }
    if let Some([complete]) = numbers(answer, "above ") {
        return Some(Error::Read(ReadFault::Above { complete }));
    }
    if let Some([page, number]) = numbers(answer, "broken ") {
        return Some(Error::Broken { page: small(page)?, number });
    }
    if let Some([anchor]) = numbers(answer, "uncovered anchor ") {
        return Some(Error::Uncovered(Uncovered::Anchor { anchor }));
    }
    let [epoch, number] = numbers(answer, "uncovered key ")?;
    Some(Error::Uncovered(Uncovered::Key { epoch: small(epoch)?, number }))
}

/// Returns the error that an answer means.
pub fn error_of(answer: &[u8]) -> Error {
    match answer {
        b"memory" => Error::Memory,
        b"bad request" => Error::BadRequest,
        b"long frame" => Error::LongFrame,
        b"summary too long" | b"delta too long" | b"piece too long" => Error::TooLong,
        b"large" => Error::Large,
        b"long" => Error::LongAnswer,
        b"too many" => Error::Snapshot(SnapshotFault::TooMany),
        b"no snapshot" => Error::Snapshot(SnapshotFault::NoSnapshot),
        b"no piece" => Error::Snapshot(SnapshotFault::NoPiece),
        b"disk full" => Error::DiskFull,
        b"not allowed" => Error::NotAllowed,
        b"busy" => Error::Busy,
        _ => refused(answer)
            .map(Error::Refused)
            .or_else(|| staging(answer).map(Error::Staging))
            .or_else(|| numbered(answer))
            .or_else(|| engines::declined(answer).map(Error::Declined))
            .unwrap_or_else(|| Error::Strange(answer.to_vec())),
    }
}

/// Checks that an answer is exactly these words.
pub fn done(answer: &[u8], words: &str) -> Result<(), Error> {
    if answer == words.as_bytes() {
        Ok(())
    } else {
        Err(error_of(answer))
    }
}

/// Returns the bytes after a word. (Those of a page may be any bytes; other values begin with a tag.)
pub fn bytes(answer: &[u8], word: &str) -> Result<Vec<u8>, Error> {
    match answer.strip_prefix(word.as_bytes()) {
        Some(bytes) if bytes != b"too long" || word == "page " => Ok(bytes.to_vec()),
        _ => Err(error_of(answer)),
    }
}

pub fn taken(answer: &[u8]) -> Result<Taken, Error> {
    match answer {
        b"changed" => Ok(Taken::Changed),
        b"unchanged" => Ok(Taken::Unchanged),
        _ => Err(error_of(answer)),
    }
}

pub fn front(answer: &[u8]) -> Result<Front, Error> {
    let front = || {
        let [epoch, complete, min] = numbers(answer, "front ")?;
        Some(Front { epoch: small(epoch)?, complete, min })
    };
    front().ok_or_else(|| error_of(answer))
}

pub fn state(answer: &[u8]) -> Result<State, Error> {
    let words = ["epoch", "complete", "min", "anchor", "base", "held", "kept", "images", "cuts", "waits"];
    let state = || {
        let text = std::str::from_utf8(answer).ok()?.strip_prefix("state ")?;
        let parts: Vec<&str> = text.split(' ').collect();
        let named = parts.chunks(2).map(|part| part[0]).eq(words);
        let values: Option<Vec<u64>> = parts.chunks(2).map(|part| part.get(1)?.parse().ok()).collect();
        let [epoch, complete, min, anchor, base, held, kept, images, truncations, waiting] = values?.try_into().ok()?;
        let epoch = small(epoch).filter(|_| named)?;
        Some(State { epoch, complete, min, anchor, base, held, kept, images, truncations, waiting })
    };
    state().ok_or_else(|| error_of(answer))
}

/// Returns the number of pieces of the frozen snapshot.
pub fn frozen(answer: &[u8]) -> Result<u32, Error> {
    numbers(answer, "frozen ").and_then(|[total]| small(total)).ok_or_else(|| error_of(answer))
}

pub fn gap(answer: &[u8]) -> Result<Option<Gap>, Error> {
    if answer == b"no gap" {
        return Ok(None);
    }
    if let Some([number]) = numbers(answer, "gap record ") {
        return Ok(Some(Gap::Record { number }));
    }
    let truncation = numbers(answer, "gap truncation ").and_then(|[epoch]| small(epoch));
    truncation.map(|epoch| Some(Gap::Truncation { epoch })).ok_or_else(|| error_of(answer))
}

/// Returns the stored record in an answer; `None` if there is none.
pub fn held(answer: &[u8]) -> Result<Option<Held>, Error> {
    if answer == b"none" {
        return Ok(None);
    }
    let held = || {
        let bytes = answer.strip_prefix(b"record ")?;
        let epoch = u16::from_be_bytes(bytes.get(1..3)?.try_into().ok()?);
        let number = bytes.get(3..9)?.iter().fold(0, |number, byte| number << 8 | u64::from(*byte));
        Some(Held { key: Key { epoch, number }, bytes: bytes.to_vec() })
    };
    held().map(Some).ok_or_else(|| error_of(answer))
}

#[cfg(test)]
mod tests {
    use super::*;

    #[test]
    fn each_answer_has_its_value() {
        assert_eq!(taken(b"unchanged"), Ok(Taken::Unchanged));
        assert_eq!(front(b"front 1 281474976710655 3"), Ok(Front { epoch: 1, complete: (1 << 48) - 1, min: 3 }));
        let told = b"state epoch 1 complete 2 min 3 anchor 4 base 5 held 6 kept 7 images 8 cuts 9 waits 10";
        let state = state(told).unwrap();
        assert_eq!((state.epoch, state.anchor, state.truncations, state.waiting), (1, 4, 9, 10));
        assert_eq!(frozen(b"frozen 4294967295"), Ok(u32::MAX));
        assert_eq!(bytes(b"page \n \0", "page "), Ok(b"\n \0".to_vec()));
        assert_eq!(bytes(b"page too long", "page "), Ok(b"too long".to_vec()));
        assert_eq!(gap(b"no gap"), Ok(None));
        assert_eq!(gap(b"gap record 7"), Ok(Some(Gap::Record { number: 7 })));
        assert_eq!(gap(b"gap truncation 2"), Ok(Some(Gap::Truncation { epoch: 2 })));
        let record = held(b"record \x01\0\x02\0\0\0\0\x01\x03and more").unwrap().unwrap();
        assert_eq!(record.key, Key { epoch: 2, number: 259 });
        assert_eq!(held(b"none"), Ok(None));
    }

    #[test]
    fn only_the_front_of_its_epoch_has_a_record() {
        let front = Front { epoch: 1, complete: 5, min: 3 };
        assert!(front.has(Key { epoch: 1, number: 5 }) && front.has(Key { epoch: 1, number: 4 }));
        for key in [Key { epoch: 1, number: 6 }, Key { epoch: 0, number: 5 }, Key { epoch: 2, number: 5 }] {
            assert!(!front.has(key), "{key:?}");
        }
    }

    #[test]
    fn each_fault_has_its_error() {
        let faults: [(&[u8], Error); 28] = [
            (b"memory", Error::Memory),
            (b"bad request", Error::BadRequest),
            (b"long frame", Error::LongFrame),
            (b"wire 4", Error::Wire(WireFault::Order)),
            (b"refused by roster 1 2", Error::Refused(Refused::Roster { own: 1, shown: 2 })),
            (b"refused by other cut 1 2 3", Error::Refused(Refused::OtherTruncation { epoch: 1, lo: 2, hi: 3 })),
            (b"refused by least 5", Error::Refused(Refused::Least { min: 5 })),
            (b"refused by min 1 2 3", Error::Refused(Refused::Advance { epoch: 1, point: 2, reader: 3 })),
            (b"refused by cut 1 2 3", Error::Refused(Refused::Truncation { epoch: 1, lo: 2, hi: 3 })),
            (b"refused by record", Error::Refused(Refused::Record)),
            (b"uncovered anchor 5", Error::Uncovered(Uncovered::Anchor { anchor: 5 })),
            (b"uncovered key 0 1", Error::Uncovered(Uncovered::Key { epoch: 0, number: 1 })),
            (b"below 5", Error::Read(ReadFault::Below { min: 5 })),
            (b"above 9", Error::Read(ReadFault::Above { complete: 9 })),
            (b"broken 7 3", Error::Broken { page: 7, number: 3 }),
            (b"delta too long", Error::TooLong),
            (b"large", Error::Large),
            (b"long", Error::LongAnswer),
            (b"too many", Error::Snapshot(SnapshotFault::TooMany)),
            (b"no snapshot", Error::Snapshot(SnapshotFault::NoSnapshot)),
            (b"no piece", Error::Snapshot(SnapshotFault::NoPiece)),
            (b"stranger", Error::Staging(StagingFault::Stranger)),
            (b"double 2", Error::Staging(StagingFault::Double { index: 2 })),
            (b"missing 0", Error::Staging(StagingFault::Missing { index: 0 })),
            (b"malformed 1", Error::Staging(StagingFault::Malformed { index: 1 })),
            (b"disk full", Error::DiskFull),
            (b"not allowed", Error::NotAllowed),
            (b"busy", Error::Busy),
        ];
        for (answer, error) in faults {
            assert_eq!(error_of(answer), error);
        }
        for answer in [&b"wire 7"[..], b"wire x", b"below", b"below 1 2", b"front 70000 1 1", b"\xff"] {
            assert_eq!(error_of(answer), Error::Strange(answer.to_vec()));
        }
        assert_eq!(bytes(b"delta too long", "delta "), Err(Error::TooLong));
        assert_eq!(front(b"front 70000 1 1"), Err(Error::Strange(b"front 70000 1 1".to_vec())));
    }
}

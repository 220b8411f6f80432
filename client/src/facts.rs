//! Facts, and their encoding by `docs/FORMATS.md`.

use crate::answers::Key;
use std::fmt;

/// The greatest LSN, and the greatest point.
pub const MOST_NUMBER: u64 = (1 << 48) - 1;

/// The size of a page in bytes.
pub const PAGE_LEN: usize = 4096;

const MOST_PATCHES: usize = 64;
const MOST_BYTES: usize = 8192;

/// A change of bytes of a page, within its 4,096 bytes.
#[derive(Debug, Clone, PartialEq, Eq)]
pub enum Patch {
    Write {
        offset: u16,
        bytes: Vec<u8>,
    },
    /// `count` copies of one byte.
    Fill {
        offset: u16,
        count: u16,
        byte: u8,
    },
}

/// A redo record: the change that one write of the database makes to one page.
#[derive(Debug, Clone, PartialEq, Eq)]
pub struct Record {
    pub epoch: u16,
    /// The LSN, from 1.
    pub number: u64,
    /// The LSN of the previous record of the segment, or 0.
    pub back: u64,
    pub page: u16,
    /// The LSN of the previous record of the page, or 0.
    pub block_back: u64,
    /// Whether the page is all zeros before the patches are applied.
    pub begins_anew: bool,
    /// At most 64 patches; the writes among them have at most 8,192 bytes together.
    pub patches: Vec<Patch>,
}

/// A truncation, which begins an epoch from 1 on: it annuls the LSNs of earlier epochs above `lo`, and the LSNs of its own epoch are above
/// `hi`.
#[derive(Debug, Clone, Copy, PartialEq, Eq)]
pub struct Truncation {
    pub epoch: u16,
    pub lo: u64,
    pub hi: u64,
}

/// An advance: the reader, 1 to 15, reads nothing below this point.
#[derive(Debug, Clone, Copy, PartialEq, Eq)]
pub struct Advance {
    pub epoch: u16,
    pub reader: u8,
    pub point: u64,
}

#[derive(Debug, Clone, PartialEq, Eq)]
pub enum Fact {
    Record(Record),
    Truncation(Truncation),
    Advance(Advance),
}

/// The shape rule that a fact breaks, so that it has no encoding.
#[derive(Debug, Clone, Copy, PartialEq, Eq)]
pub enum Shape {
    /// A number is above 2^48 - 1, or the LSN of a record or the point of an advance is 0.
    Number,
    /// A backlink is not below the LSN, or the block backlink is above the segment backlink.
    Backlink,
    /// A patch is empty or ends past the page.
    Patch,
    /// There are more than 64 patches, or their writes have more than 8,192 bytes.
    Size,
    /// A truncation has epoch 0, or a `lo` above its `hi`.
    Truncation,
    /// A reader is not 1 to 15.
    Reader,
}

impl fmt::Display for Shape {
    fn fmt(&self, f: &mut fmt::Formatter<'_>) -> fmt::Result {
        f.write_str(match self {
            Shape::Number => "a number is out of range",
            Shape::Backlink => "a backlink is not below its LSN",
            Shape::Patch => "a patch is empty or ends past its page",
            Shape::Size => "too many patches or bytes",
            Shape::Truncation => "the truncation has epoch 0, or lo above hi",
            Shape::Reader => "readers are 1 to 15",
        })
    }
}

impl std::error::Error for Shape {}

fn need(holds: bool, shape: Shape) -> Result<(), Shape> {
    if holds {
        Ok(())
    } else {
        Err(shape)
    }
}

/// Appends the six bytes of a number that is known to fit.
fn number(bytes: &mut Vec<u8>, value: u64) {
    bytes.extend_from_slice(&value.to_be_bytes()[2..]);
}

impl Patch {
    /// Makes a patch that writes these bytes at an offset.
    pub fn write(offset: u16, bytes: &[u8]) -> Patch {
        Patch::Write { offset, bytes: bytes.to_vec() }
    }

    fn place(&self) -> (u16, usize) {
        match self {
            Patch::Write { offset, bytes } => (*offset, bytes.len()),
            Patch::Fill { offset, count, .. } => (*offset, usize::from(*count)),
        }
    }

    fn append(&self, bytes: &mut Vec<u8>, has_kind: bool) -> Result<(), Shape> {
        let (offset, length) = self.place();
        need(length > 0 && usize::from(offset) + length <= PAGE_LEN, Shape::Patch)?;
        if has_kind {
            bytes.push(matches!(self, Patch::Fill { .. }).into());
        }
        bytes.extend_from_slice(&offset.to_be_bytes());
        bytes.extend_from_slice(&(length as u16).to_be_bytes());
        match self {
            Patch::Write { bytes: written, .. } => bytes.extend_from_slice(written),
            Patch::Fill { byte, .. } => bytes.push(*byte),
        }
        Ok(())
    }
}

impl Record {
    /// The key under which a segment stores the record.
    pub fn key(&self) -> Key {
        Key { epoch: self.epoch, number: self.number }
    }

    fn check(&self) -> Result<(), Shape> {
        need(self.number >= 1 && self.number <= MOST_NUMBER, Shape::Number)?;
        need(self.back < self.number && self.block_back <= self.back, Shape::Backlink)?;
        let written = |patch: &Patch| if let Patch::Write { bytes, .. } = patch { bytes.len() } else { 0 };
        let total: usize = self.patches.iter().map(written).sum();
        need(self.patches.len() <= MOST_PATCHES && total <= MOST_BYTES, Shape::Size)
    }

    /// Encodes the record.
    ///
    /// Errors: the shape rule that it breaks.
    pub fn encode(&self) -> Result<Vec<u8>, Shape> {
        self.check()?;
        let is_plain = !self.begins_anew && !self.patches.iter().any(|patch| matches!(patch, Patch::Fill { .. }));
        let mut bytes = vec![if is_plain { 1 } else { 6 }];
        bytes.extend_from_slice(&self.epoch.to_be_bytes());
        number(&mut bytes, self.number);
        number(&mut bytes, self.back);
        bytes.extend_from_slice(&self.page.to_be_bytes());
        number(&mut bytes, self.block_back);
        if !is_plain {
            bytes.push(self.begins_anew.into());
        }
        bytes.push(self.patches.len() as u8);
        self.patches.iter().try_for_each(|patch| patch.append(&mut bytes, !is_plain))?;
        Ok(bytes)
    }
}

impl Truncation {
    /// Encodes the truncation.
    ///
    /// Errors: the shape rule that it breaks.
    pub fn encode(&self) -> Result<Vec<u8>, Shape> {
        need(self.hi <= MOST_NUMBER, Shape::Number)?;
        need(self.epoch >= 1 && self.lo <= self.hi, Shape::Truncation)?;
        let mut bytes = vec![2];
        bytes.extend_from_slice(&self.epoch.to_be_bytes());
        number(&mut bytes, self.lo);
        number(&mut bytes, self.hi);
        Ok(bytes)
    }
}

impl Advance {
    /// Encodes the advance.
    ///
    /// Errors: the shape rule that it breaks.
    pub fn encode(&self) -> Result<Vec<u8>, Shape> {
        need((1..=15).contains(&self.reader), Shape::Reader)?;
        need(self.point >= 1 && self.point <= MOST_NUMBER, Shape::Number)?;
        let is_first = self.reader == 1;
        let mut bytes = vec![if is_first { 3 } else { 5 }];
        bytes.extend_from_slice(&self.epoch.to_be_bytes());
        if !is_first {
            bytes.push(self.reader);
        }
        number(&mut bytes, self.point);
        Ok(bytes)
    }
}

impl Fact {
    /// Encodes the fact.
    ///
    /// Errors: the shape rule that it breaks.
    pub fn encode(&self) -> Result<Vec<u8>, Shape> {
        match self {
            Fact::Record(record) => record.encode(),
            Fact::Truncation(truncation) => truncation.encode(),
            Fact::Advance(advance) => advance.encode(),
        }
    }
}

#[cfg(test)]
mod tests {
    use super::*;

    fn record(begins_anew: bool, patches: Vec<Patch>) -> Record {
        Record { epoch: 0, number: 3, back: 0, page: 7, block_back: 0, begins_anew, patches }
    }

    fn digits(bytes: &[u8]) -> String {
        bytes.iter().map(|byte| format!("{byte:02x}")).collect()
    }

    /// The vectors of `docs/FORMATS.md`.
    #[test]
    fn facts_have_the_bytes_of_the_format() {
        let fill = Patch::Fill { offset: 0, count: 16, byte: 0xff };
        let facts = [
            (Fact::Record(record(false, vec![Patch::write(0, b"aa")])), "010000000000000003000000000000000700000000000001000000026161"),
            (Fact::Record(record(true, vec![fill])), "06000000000000000300000000000000070000000000000101010000 0010ff"),
            (Fact::Truncation(Truncation { epoch: 1, lo: 5, hi: 20 }), "020001000000000005000000000014"),
            (Fact::Advance(Advance { epoch: 0, reader: 1, point: 5 }), "030000000000000005"),
            (Fact::Advance(Advance { epoch: 0, reader: 2, point: 3 }), "05000002000000000003"),
        ];
        for (fact, wanted) in facts {
            assert_eq!(digits(&fact.encode().unwrap()), wanted.replace(' ', ""), "{fact:?}");
        }
    }

    #[test]
    fn no_bytes_for_what_has_no_shape() {
        let most = vec![Patch::write(0, &[1; PAGE_LEN]), Patch::write(0, &[2; PAGE_LEN])];
        assert!(record(false, most.clone()).encode().is_ok());
        let faults = [
            (Record { number: 0, ..record(false, vec![]) }, Shape::Number),
            (Record { number: MOST_NUMBER + 1, ..record(false, vec![]) }, Shape::Number),
            (Record { back: 3, ..record(false, vec![]) }, Shape::Backlink),
            (Record { back: 1, block_back: 2, ..record(false, vec![]) }, Shape::Backlink),
            (record(false, vec![Patch::write(4096, b"a")]), Shape::Patch),
            (record(true, vec![Patch::Fill { offset: 1, count: 0, byte: 1 }]), Shape::Patch),
            (record(false, vec![Patch::write(0, b"a"); 65]), Shape::Size),
            (record(false, [most, vec![Patch::write(0, b"a")]].concat()), Shape::Size),
        ];
        for (record, shape) in faults {
            assert_eq!(record.encode(), Err(shape));
        }
        assert_eq!(Truncation { epoch: 0, lo: 1, hi: 2 }.encode(), Err(Shape::Truncation));
        assert_eq!(Truncation { epoch: 1, lo: 3, hi: 2 }.encode(), Err(Shape::Truncation));
        assert_eq!(Advance { epoch: 0, reader: 16, point: 1 }.encode(), Err(Shape::Reader));
        assert_eq!(Advance { epoch: 0, reader: 1, point: 0 }.encode(), Err(Shape::Number));
    }
}

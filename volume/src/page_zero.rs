//! The part of page 0 that the volume writes at each commit: the generation and epoch that committed, and the engine's own header. The last
//! 8 bytes are the commit point, as those of each page are the LSN of its last record.

use yieldcleat_client::PAGE_LEN;

/// The greatest number of bytes of a header.
pub const MOST_HEADER: usize = 1024;
const HEADER: usize = 12;
const NUMBER: usize = PAGE_LEN - 8;

/// Page 0 at some point.
#[derive(Debug, Clone, PartialEq, Eq)]
pub struct PageZero {
    /// The generation of the engine that committed last; 0 before the first commit.
    pub generation: u64,
    pub epoch: u16,
    pub commit_point: u64,
    pub header: Vec<u8>,
}

fn number(bytes: &[u8]) -> u64 {
    bytes.iter().fold(0, |number, byte| number << 8 | u64::from(*byte))
}

impl PageZero {
    /// Decodes a whole page. `None` if no volume has written it.
    pub fn read(page: &[u8]) -> Option<PageZero> {
        if page.len() != PAGE_LEN {
            return None;
        }
        let length = number(&page[10..HEADER]) as usize;
        let header = page.get(HEADER..HEADER + length).filter(|_| length <= MOST_HEADER)?.to_vec();
        let epoch = number(&page[8..10]) as u16;
        Some(PageZero { generation: number(&page[..8]), epoch, commit_point: number(&page[NUMBER..]), header })
    }
}

#[cfg(test)]
mod tests {
    use super::*;

    #[test]
    fn pages_are_read() {
        let mut page = vec![0; PAGE_LEN];
        assert_eq!(PageZero::read(&page), Some(PageZero { generation: 0, epoch: 0, commit_point: 0, header: vec![] }));
        page[7] = 3;
        page[9] = 2;
        page[11] = 4;
        page[12..16].copy_from_slice(b"size");
        page[PAGE_LEN - 1] = 9;
        assert_eq!(PageZero::read(&page), Some(PageZero { generation: 3, epoch: 2, commit_point: 9, header: b"size".to_vec() }));
        page[10] = 4;
        page[11] = 1;
        assert_eq!(PageZero::read(&page), None);
        assert_eq!(PageZero::read(&page[1..]), None);
    }
}

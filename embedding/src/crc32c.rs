//! CRC-32C, the checksum of files.

/// The Castagnoli polynomial, lowest bit first.
const POLYNOMIAL: u32 = 0x82f6_3b78;

const TABLE: [u32; 256] = table();

const fn table() -> [u32; 256] {
    let mut table = [0; 256];
    let mut place = 0;
    while place < 256 {
        table[place] = shifted(place as u32);
        place += 1;
    }
    table
}

/// Returns the remainder after eight bits.
const fn shifted(mut bits: u32) -> u32 {
    let mut count = 0;
    while count < 8 {
        bits = if bits & 1 == 1 { bits >> 1 ^ POLYNOMIAL } else { bits >> 1 };
        count += 1;
    }
    bits
}

/// Returns the checksum of these parts, in order.
pub fn crc32c(parts: &[&[u8]]) -> u32 {
    let bytes = parts.iter().copied().flatten();
    !bytes.fold(u32::MAX, |sum, byte| sum >> 8 ^ TABLE[usize::from(sum as u8 ^ byte)])
}

#[cfg(test)]
mod tests {
    use super::crc32c;

    /// The values in the definition of iSCSI, and the checksum of the digits 1 to 9.
    #[test]
    fn known_sums() {
        assert_eq!(crc32c(&[b"123456789"]), 0xe306_9283);
        assert_eq!(crc32c(&[b"1234", b"", b"56789"]), 0xe306_9283);
        assert_eq!(crc32c(&[&[0; 32]]), 0x8a91_36aa);
        assert_eq!(crc32c(&[&[0xff; 32]]), 0x62a8_ab43);
        assert_eq!(crc32c(&[]), 0);
    }
}

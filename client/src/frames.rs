//! Frames: a length of four bytes, most significant first, and that many bytes.

use std::io::{self, Read, Write};

/// The greatest number of bytes of a frame that a segment reads. It answers `long frame` to a longer one.
pub const LONGEST: u32 = 1 << 26;

/// Appends a frame that consists of these parts, in order, to a buffer.
///
/// Errors: parts of 2^32 bytes or more together; nothing is appended.
pub fn append(buffer: &mut Vec<u8>, parts: &[&[u8]]) -> io::Result<()> {
    let length: usize = parts.iter().map(|part| part.len()).sum();
    let length = u32::try_from(length).map_err(|_| io::ErrorKind::InvalidInput)?;
    buffer.extend_from_slice(&length.to_be_bytes());
    parts.iter().for_each(|part| buffer.extend_from_slice(part));
    Ok(())
}

/// Writes a frame in one call of `write_all`.
pub fn write(writer: &mut impl Write, bytes: &[u8]) -> io::Result<()> {
    let mut frame = Vec::with_capacity(bytes.len() + 4);
    append(&mut frame, &[bytes])?;
    writer.write_all(&frame)
}

/// Reads the next frame into the buffer, whose contents it replaces. Returns false if the input ended before a whole frame.
///
/// Use it for a trusted sender: the frame may have any length.
pub fn read(reader: &mut impl Read, frame: &mut Vec<u8>) -> io::Result<bool> {
    Ok(matches!(read_within(reader, frame, u32::MAX)?, Next::Frame))
}

/// The result of reading a frame that may be too long.
#[derive(Debug, Clone, Copy, PartialEq, Eq)]
pub enum Next {
    /// A frame, which is in the buffer.
    Frame,
    /// A frame of this length, whose bytes are not read: `skip` drops them.
    TooLong(u32),
    /// The input ended before a whole frame.
    End,
}

/// Reads the next frame into the buffer, whose contents it replaces, if it has at most `longest` bytes.
pub fn read_within(reader: &mut impl Read, frame: &mut Vec<u8>, longest: u32) -> io::Result<Next> {
    frame.clear();
    reader.by_ref().take(4).read_to_end(frame)?;
    let Ok(length) = <[u8; 4]>::try_from(frame.as_slice()).map(u32::from_be_bytes) else {
        return Ok(Next::End);
    };
    frame.clear();
    if length > longest {
        return Ok(Next::TooLong(length));
    }
    let read = reader.by_ref().take(length.into()).read_to_end(frame)?;
    Ok(if read == length as usize { Next::Frame } else { Next::End })
}

/// Reads `length` bytes and drops them; fewer if the input ends.
pub fn skip(reader: &mut impl Read, length: u32) -> io::Result<()> {
    io::copy(&mut reader.by_ref().take(length.into()), &mut io::sink()).map(drop)
}

/// Splits bytes into the frames that they consist of; `None` if they do not end with a whole frame.
pub fn inside(mut bytes: &[u8]) -> Option<Vec<&[u8]>> {
    let mut frames = Vec::new();
    while !bytes.is_empty() {
        let (length, rest) = bytes.split_first_chunk()?;
        let (frame, behind) = rest.split_at_checked(u32::from_be_bytes(*length) as usize)?;
        frames.push(frame);
        bytes = behind;
    }
    Some(frames)
}

/// Returns whether the bytes begin with a whole frame.
pub fn is_whole(bytes: &[u8]) -> bool {
    bytes.split_first_chunk().is_some_and(|(length, rest)| rest.len() >= u32::from_be_bytes(*length) as usize)
}

#[cfg(test)]
mod tests {
    use super::*;

    #[test]
    fn frames_come_back_in_order() {
        let mut bytes = Vec::new();
        append(&mut bytes, &[b"take ", &[0, 255]]).unwrap();
        write(&mut bytes, b"").unwrap();
        assert_eq!(bytes, b"\0\0\0\x07take \0\xff\0\0\0\0");
        let (mut rest, mut frame) = (bytes.as_slice(), b"older".to_vec());
        assert!(read(&mut rest, &mut frame).unwrap());
        assert_eq!(frame, b"take \0\xff");
        assert!(read(&mut rest, &mut frame).unwrap());
        assert_eq!(frame, b"");
        assert!(!read(&mut rest, &mut frame).unwrap());
    }

    #[test]
    fn frames_stand_in_bytes() {
        assert_eq!(inside(b""), Some(vec![]));
        assert_eq!(inside(b"\0\0\0\x02ab\0\0\0\0"), Some(vec![&b"ab"[..], b""]));
        assert_eq!(inside(b"\0\0\0\x02ab\0\0\0"), None);
    }

    #[test]
    fn a_long_frame_is_not_read() {
        let mut bytes: &[u8] = b"\xff\xff\xff\xffabc";
        let mut frame = b"older".to_vec();
        assert_eq!(read_within(&mut bytes, &mut frame, LONGEST).unwrap(), Next::TooLong(u32::MAX));
        assert_eq!((bytes, frame.as_slice()), (&b"abc"[..], &b""[..]));
        let mut bytes: &[u8] = b"\0\0\0\x03abc\0\0\0\x02de\0\0\0\x02f";
        assert_eq!(read_within(&mut bytes, &mut frame, 2).unwrap(), Next::TooLong(3));
        skip(&mut bytes, 3).unwrap();
        assert_eq!(read_within(&mut bytes, &mut frame, 2).unwrap(), Next::Frame);
        assert_eq!(frame, b"de");
        assert_eq!(read_within(&mut bytes, &mut frame, 2).unwrap(), Next::End);
    }

    #[test]
    fn a_torn_frame_is_none() {
        for torn in [&b"\0\0\0"[..], b"\0\0\0\x02a", b"\xff\xff\xff\xffabc"] {
            assert!(!is_whole(torn));
            assert_eq!(inside(torn), None);
            assert!(!read(&mut &*torn, &mut Vec::new()).unwrap());
        }
        assert!(is_whole(b"\0\0\0\0"));
        assert!(is_whole(b"\0\0\0\x01ab"));
    }
}

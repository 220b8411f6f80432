//! The system's cache of a file. The standard library has no call for it, so this file calls the C library; no other file of the store
//! does.

use std::fs::File;
use std::os::fd::AsRawFd;

/// The advice that the bytes of a file will not be needed soon.
const NOT_NEEDED: i32 = 4;

extern "C" {
    fn posix_fadvise(descriptor: i32, from: i64, count: i64, advice: i32) -> i32;
}

/// Advises the system to drop its cache of a flushed file, so that later reads come from the disk. A file system may ignore that.
///
/// After a failed flush the cache may have bytes that the disk does not have. Readers get these bytes, and later flushes succeed although
/// the system never writes them.
pub fn drop_kept(file: &File) {
    // SAFETY: the descriptor is open, and the call takes only numbers. A count of 0 means all bytes.
    // An error means that the system does not take the advice for this file, and keeps its cache.
    let _ = unsafe { posix_fadvise(file.as_raw_fd(), 0, 0, NOT_NEEDED) };
}

//! The calls of the header. Each is safe under the conditions of the header: each unsafe block here depends on what the header requires of
//! pointers.

use crate::faults::{last, Details, Failure, Fault};
use crate::handles::{Handle, Report, PAGE_BYTES};
use std::ffi::{c_char, c_void, CStr, OsStr};
use std::os::unix::ffi::OsStrExt;
use std::panic::{catch_unwind, AssertUnwindSafe};
use std::path::Path;
use yieldcleat_client::Patch;
use yieldcleat_volume::MOST_HEADER;

/// The value in place of a point for a reader that follows the commits.
const FOLLOW: u64 = u64::MAX;
const MOST_PATCHES: usize = 63;

/// `struct yieldcleat_options`.
#[repr(C)]
pub struct OpenOptions {
    milliseconds: u32,
    may_create: bool,
}

/// `struct yieldcleat_patch`.
#[repr(C)]
pub struct RawPatch {
    offset: u16,
    length: u16,
    is_fill: bool,
    bytes: *const u8,
}

/// `struct yieldcleat_range`, which C passes by value.
#[repr(C)]
pub struct RawRange {
    page: u32,
    offset: u32,
    length: u32,
}

/// Runs a call, and keeps the details if it fails. A panic does not unwind into C.
fn run(call: impl FnOnce() -> Result<(), Failure>) -> Fault {
    match catch_unwind(AssertUnwindSafe(call)) {
        Ok(Ok(())) => Fault::Ok,
        Ok(Err(failure)) => failure.tell(),
        Err(_) => Failure::panicked().tell(),
    }
}

/// Returns the handle at a pointer.
///
/// # Safety
/// The pointer must be null, or a handle that an opening has returned and that is not closed.
unsafe fn handle<'a>(volume: *const Handle) -> Result<&'a Handle, Failure> {
    // SAFETY: the caller meets the condition.
    unsafe { volume.as_ref() }.ok_or_else(|| Failure::misuse("no handle"))
}

/// Returns the place for a result.
///
/// # Safety
/// The pointer must be null, or valid for a write.
unsafe fn place<'a, T>(place: *mut T) -> Result<&'a mut T, Failure> {
    // SAFETY: the caller meets the condition.
    unsafe { place.as_mut() }.ok_or_else(|| Failure::misuse("no place for the result"))
}

/// Returns bytes of the caller.
///
/// # Safety
/// The pointer must be null, or to `length` bytes; it may be any if `length` is 0.
unsafe fn bytes<'a>(from: *const u8, length: usize) -> Result<&'a [u8], Failure> {
    match (from.is_null(), length) {
        (_, 0) => Ok(&[]),
        (true, _) => Err(Failure::misuse("no bytes")),
        // SAFETY: the caller meets the condition.
        (false, _) => Ok(unsafe { std::slice::from_raw_parts(from, length) }),
    }
}

/// Returns a path of the caller.
///
/// # Safety
/// The pointer must be null, or to a text that ends with a zero byte.
unsafe fn path<'a>(text: *const c_char) -> Result<&'a Path, Failure> {
    if text.is_null() {
        return Err(Failure::misuse("no place"));
    }
    // SAFETY: the caller meets the condition.
    Ok(Path::new(OsStr::from_bytes(unsafe { CStr::from_ptr(text) }.to_bytes())))
}

/// # Safety
/// The pointers must be as the header requires.
#[no_mangle]
pub unsafe extern "C" fn yieldcleat_volume_open_writer(
    text: *const c_char,
    options: *const OpenOptions,
    volume: *mut *mut Handle,
) -> Fault {
    run(|| {
        // SAFETY: the caller meets the conditions of the header.
        let (text, options, volume) = unsafe { (path(text)?, options.as_ref(), place(volume)?) };
        let (milliseconds, may_create) = options.map_or((0, false), |options| (options.milliseconds, options.may_create));
        *volume = Box::into_raw(Box::new(Handle::open_writer(text, milliseconds, may_create)?));
        Ok(())
    })
}

/// # Safety
/// The pointers must be as the header requires.
#[no_mangle]
pub unsafe extern "C" fn yieldcleat_volume_open_reader(
    text: *const c_char,
    options: *const OpenOptions,
    point: u64,
    volume: *mut *mut Handle,
) -> Fault {
    run(|| {
        // SAFETY: the caller meets the conditions of the header.
        let (text, options, volume) = unsafe { (path(text)?, options.as_ref(), place(volume)?) };
        let point = (point != FOLLOW).then_some(point);
        let milliseconds = options.map_or(0, |options| options.milliseconds);
        *volume = Box::into_raw(Box::new(Handle::open_reader(text, milliseconds, point)?));
        Ok(())
    })
}

/// # Safety
/// The pointers must be as the header requires.
#[no_mangle]
pub unsafe extern "C" fn yieldcleat_volume_close(volume: *mut Handle) {
    if !volume.is_null() {
        // A panic does not unwind into C.
        // SAFETY: an opening has made it by `Box::into_raw`, and it is closed only once.
        let _ = catch_unwind(AssertUnwindSafe(|| drop(unsafe { Box::from_raw(volume) })));
    }
}

/// # Safety
/// The pointers must be as the header requires.
#[no_mangle]
pub unsafe extern "C" fn yieldcleat_volume_newest(volume: *mut Handle, point: *mut u64) -> Fault {
    run(|| {
        // SAFETY: the caller meets the conditions of the header.
        let (volume, point) = unsafe { (handle(volume)?, place(point)?) };
        *point = volume.newest()?;
        Ok(())
    })
}

/// # Safety
/// The pointers must be as the header requires.
#[no_mangle]
pub unsafe extern "C" fn yieldcleat_volume_header(
    volume: *mut Handle,
    point: u64,
    commit_point: *mut u64,
    header: *mut c_void,
    length: *mut usize,
) -> Fault {
    run(|| {
        // SAFETY: the caller meets the conditions of the header.
        let (volume, commit_point, length) = unsafe { (handle(volume)?, place(commit_point)?, place(length)?) };
        let page = volume.page_zero(point)?;
        if header.is_null() {
            return Err(Failure::misuse("no place for the header"));
        }
        // SAFETY: there is room for 1,024 bytes, and no header has more.
        unsafe { std::ptr::copy_nonoverlapping(page.header.as_ptr(), header.cast(), page.header.len().min(MOST_HEADER)) };
        (*commit_point, *length) = (page.commit_point, page.header.len());
        Ok(())
    })
}

/// # Safety
/// The pointers must be as the header requires.
#[no_mangle]
pub unsafe extern "C" fn yieldcleat_volume_read(volume: *mut Handle, point: u64, range: RawRange, into: *mut c_void) -> Fault {
    run(|| {
        let RawRange { page, offset, length } = range;
        // SAFETY: the caller meets the conditions of the header.
        let volume = unsafe { handle(volume)? };
        let found = volume.read(point, page, offset, length)?;
        if into.is_null() || found.len() != length as usize || length > PAGE_BYTES {
            return Err(Failure::misuse("no place for the bytes"));
        }
        // SAFETY: there is room for `length` bytes.
        unsafe { std::ptr::copy_nonoverlapping(found.as_ptr(), into.cast(), found.len()) };
        Ok(())
    })
}

/// # Safety
/// The pointers must be as the header requires.
#[no_mangle]
pub unsafe extern "C" fn yieldcleat_volume_stage(
    volume: *mut Handle,
    page: u32,
    from_zeros: bool,
    patches: *const RawPatch,
    count: usize,
) -> Fault {
    run(|| {
        // SAFETY: the caller meets the conditions of the header.
        let volume = unsafe { handle(volume)? };
        if count > MOST_PATCHES || (patches.is_null() && count > 0) {
            return Err(Failure::misuse("0 to 63 patches"));
        }
        // SAFETY: there are `count` patches.
        let raw = if count == 0 { &[][..] } else { unsafe { std::slice::from_raw_parts(patches, count) } };
        let patches: Result<Vec<_>, _> = raw.iter().map(|raw| unsafe { patch(raw) }).collect();
        volume.stage(page, from_zeros, patches?)
    })
}

/// Converts a patch of the caller.
///
/// # Safety
/// The bytes must be as the header requires.
unsafe fn patch(raw: &RawPatch) -> Result<Patch, Failure> {
    if raw.length == 0 || u32::from(raw.offset) + u32::from(raw.length) > PAGE_BYTES {
        return Err(Failure::misuse("a patch outside the page"));
    }
    // SAFETY: the caller meets the condition.
    let bytes = unsafe { bytes(raw.bytes, if raw.is_fill { 1 } else { raw.length.into() })? };
    Ok(match raw.is_fill {
        true => Patch::Fill { offset: raw.offset, count: raw.length, byte: bytes[0] },
        false => Patch::write(raw.offset, bytes),
    })
}

/// # Safety
/// The pointers must be as the header requires.
#[no_mangle]
pub unsafe extern "C" fn yieldcleat_volume_discard(volume: *mut Handle) {
    // SAFETY: the caller meets the conditions of the header.
    if let Ok(volume) = unsafe { handle(volume) } {
        volume.discard();
    }
}

/// # Safety
/// The pointers must be as the header requires.
#[no_mangle]
pub unsafe extern "C" fn yieldcleat_volume_commit(volume: *mut Handle, header: *const c_void, length: usize, point: *mut u64) -> Fault {
    run(|| {
        // SAFETY: the caller meets the conditions of the header.
        let volume = unsafe { handle(volume)? };
        // SAFETY: the caller meets the conditions of the header.
        let arguments = unsafe { place(point).and_then(|point| Ok((point, commit_header(header, length)?))) };
        // Wrong arguments also discard what is staged.
        let (point, header) = arguments.inspect_err(|_| volume.discard())?;
        *point = volume.commit(header)?;
        Ok(())
    })
}

/// Returns the header of a commit.
///
/// # Safety
/// The pointer must be null, or to `length` bytes; it may be any if `length` is 0.
unsafe fn commit_header(header: *const c_void, length: usize) -> Result<Vec<u8>, Failure> {
    if length > MOST_HEADER {
        return Err(Failure::misuse("a header of more than 1,024 bytes"));
    }
    // SAFETY: the caller meets the condition.
    Ok(unsafe { bytes(header.cast(), length)? }.to_vec())
}

/// # Safety
/// The pointers must be as the header requires.
#[no_mangle]
pub unsafe extern "C" fn yieldcleat_volume_wait(volume: *mut Handle, point: u64, milliseconds: u32) -> Fault {
    // SAFETY: the caller meets the conditions of the header.
    run(|| unsafe { handle(volume)? }.wait(point, milliseconds))
}

/// # Safety
/// The pointers must be as the header requires.
#[no_mangle]
pub unsafe extern "C" fn yieldcleat_volume_advance(volume: *mut Handle, point: u64) -> Fault {
    // SAFETY: the caller meets the conditions of the header.
    run(|| unsafe { handle(volume)? }.advance(point))
}

/// # Safety
/// The pointers must be as the header requires.
#[no_mangle]
pub unsafe extern "C" fn yieldcleat_volume_status(volume: *mut Handle, status: *mut Report) -> Fault {
    run(|| {
        // SAFETY: the caller meets the conditions of the header.
        let (volume, status) = unsafe { (handle(volume)?, place(status)?) };
        *status = volume.report()?;
        Ok(())
    })
}

/// # Safety
/// The pointers must be as the header requires.
#[no_mangle]
pub unsafe extern "C" fn yieldcleat_volume_last_error(error: *mut Details) {
    // SAFETY: the caller meets the conditions of the header.
    if let Some(error) = unsafe { error.as_mut() } {
        *error = last();
    }
}

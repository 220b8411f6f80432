//! The calls of `../include/yieldcleat_volume.h`: a volume for C, and for languages that call C.
//!
//! `handles` carries out the calls and `faults` has their errors. `calls` alone uses pointers, and `proved` alone calls the archive of the
//! proved machine.

#[allow(unsafe_code)]
mod calls;
mod faults;
mod handles;
mod known;
#[allow(unsafe_code)]
mod proved;

pub use proved::Proved;

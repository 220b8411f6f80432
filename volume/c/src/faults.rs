//! The errors of calls, as C gets them.

use std::cell::RefCell;
use std::ffi::c_char;
use std::io::ErrorKind;
use yieldcleat_volume::{BadPlace, Fault as Refusal, Quorum, VolumeError};

const MESSAGE_BYTES: usize = 256;

/// The values of `enum yieldcleat_fault`.
#[repr(C)]
#[derive(Debug, Clone, Copy, PartialEq, Eq)]
pub enum Fault {
    Ok = 0,
    Fenced = 1,
    NoQuorum = 2,
    Timeout = 3,
    Full = 4,
    NotFound = 5,
    Below = 6,
    Above = 7,
    Io = 8,
    NoMemory = 9,
    Misuse = 10,
}

/// `struct yieldcleat_error`.
#[repr(C)]
#[derive(Debug, Clone, Copy)]
pub struct Details {
    pub fault: Fault,
    pub have: u32,
    pub need: u32,
    pub point: u64,
    pub message: [c_char; MESSAGE_BYTES],
}

impl Details {
    const NONE: Details = Details { fault: Fault::Ok, have: 0, need: 0, point: 0, message: [0; MESSAGE_BYTES] };
}

/// Why a call failed.
#[derive(Debug)]
pub struct Failure {
    fault: Fault,
    have: u32,
    need: u32,
    point: u64,
    message: String,
}

impl Failure {
    fn new(fault: Fault, message: String) -> Failure {
        Failure { fault, have: 0, need: 0, point: 0, message }
    }

    pub fn misuse(message: &str) -> Failure {
        Failure::new(Fault::Misuse, message.into())
    }

    /// Makes the error for a point above the newest one.
    pub fn above(point: u64, newest: u64) -> Failure {
        Failure { point: newest, ..Failure::new(Fault::Above, format!("the point {point} is above the newest one, {newest}")) }
    }

    pub fn panicked() -> Failure {
        Failure::new(Fault::Io, "an internal error".into())
    }

    /// Returns the least readable point, if the call failed because of it.
    pub fn least(&self) -> Option<u64> {
        (self.fault == Fault::Below).then_some(self.point)
    }

    /// Keeps the details for this thread, and returns the fault.
    pub fn tell(&self) -> Fault {
        let mut details = Details { fault: self.fault, have: self.have, need: self.need, point: self.point, ..Details::NONE };
        for (place, byte) in details.message[..MESSAGE_BYTES - 1].iter_mut().zip(self.message.bytes()) {
            *place = byte as c_char;
        }
        LAST.with(|last| *last.borrow_mut() = details);
        self.fault
    }
}

thread_local! {
    static LAST: RefCell<Details> = const { RefCell::new(Details::NONE) };
}

/// Returns the details of the last failed call on this thread.
pub fn last() -> Details {
    LAST.with(|last| *last.borrow())
}

impl From<VolumeError> for Failure {
    fn from(error: VolumeError) -> Failure {
        let of = |fault| Failure::new(fault, error.to_string());
        let counted = |fault, quorum: Quorum| Failure { have: quorum.have as u32, need: quorum.need.into(), ..of(fault) };
        match error {
            VolumeError::Fenced { .. } => of(Fault::Fenced),
            VolumeError::Empty => of(Fault::NotFound),
            VolumeError::NotOpened(quorum) | VolumeError::Unproved(quorum) | VolumeError::NotAsked(quorum) => {
                counted(Fault::NoQuorum, quorum)
            }
            VolumeError::Busy(quorum) | VolumeError::NotReopened(quorum) => counted(Fault::NoQuorum, quorum),
            VolumeError::Refused(Refusal::NoQuorum { have, need }) => {
                Failure { have: have.into(), need: need.into(), ..of(Fault::NoQuorum) }
            }
            VolumeError::InDoubt { quorum, .. } => counted(Fault::Timeout, quorum),
            // A read requires the answer of one node.
            VolumeError::NotRead { .. } => Failure { need: 1, ..of(Fault::NoQuorum) },
            VolumeError::Below { min } => Failure { point: min, ..of(Fault::Below) },
            VolumeError::Above { newest } => Failure { point: newest, ..of(Fault::Above) },
            VolumeError::Refused(Refusal::Ahead { durable }) => Failure { point: durable, ..of(Fault::Above) },
            VolumeError::Refused(Refusal::Full) => of(Fault::Full),
            VolumeError::Refused(Refusal::Damaged | Refusal::NotFresh) | VolumeError::Thread(_) | VolumeError::Closed => of(Fault::Io),
            VolumeError::Memory => of(Fault::NoMemory),
            VolumeError::Options(_) | VolumeError::Refused(_) | VolumeError::Argument(_) => of(Fault::Misuse),
        }
    }
}

impl From<BadPlace> for Failure {
    fn from(bad: BadPlace) -> Failure {
        let fault = match &bad {
            BadPlace::Io(error) if error.kind() == ErrorKind::NotFound => Fault::NotFound,
            _ => Fault::Io,
        };
        Failure::new(fault, bad.to_string())
    }
}

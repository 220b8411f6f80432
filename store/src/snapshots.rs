//! The owner of the snapshot that a segment keeps. A segment keeps one at a time, so a second reader waits until the first has all pieces.

use std::sync::{Mutex, MutexGuard, PoisonError};
use std::time::{Duration, Instant};
use yieldcleat_client::{frames, requests};

/// The lease: a reader that requests no piece for this long may lose the snapshot to another reader.
const LEASE: Duration = Duration::from_secs(5);

/// Who uses the snapshot.
#[derive(Debug, Clone, Copy, PartialEq, Eq)]
pub enum Owner {
    /// The server writes it to its files.
    Server,
    /// The connection with this number reads its pieces.
    Connection(u64),
}

/// The owner of the snapshot, and when it was last used.
#[derive(Default)]
pub struct Snapshots(Mutex<Option<(Owner, Instant)>>);

impl Snapshots {
    /// Makes this the owner unless another one still uses the snapshot. Returns whether it is the owner.
    pub fn take(&self, owner: Owner) -> bool {
        self.take_at(owner, Instant::now())
    }

    fn take_at(&self, owner: Owner, now: Instant) -> bool {
        let mut held = self.lock();
        let is_free = held.is_none_or(|(other, used)| other == owner || (other != Owner::Server && now >= used + LEASE));
        if is_free {
            *held = Some((owner, now));
        }
        is_free
    }

    /// Extends the lease of the owner. Does nothing for anyone else.
    fn renew_at(&self, owner: Owner, now: Instant) {
        if let Some((_, used)) = self.lock().as_mut().filter(|(other, _)| *other == owner) {
            *used = now;
        }
    }

    /// Ends the lease of the owner. Does nothing for anyone else.
    pub fn release(&self, owner: Owner) {
        let mut held = self.lock();
        if held.is_some_and(|(other, _)| other == owner) {
            *held = None;
        }
    }

    /// Makes the server the owner, even while a connection reads.
    pub fn seize(&self) {
        *self.lock() = Some((Owner::Server, Instant::now()));
    }

    /// Returns whether the connection may send this request to the segment: a `freeze` must wait while another owner uses the present
    /// snapshot.
    pub fn allows(&self, connection: u64, request: &[u8]) -> bool {
        let owner = Owner::Connection(connection);
        asked(request).into_iter().all(|word| match word {
            b"freeze" => self.take(owner),
            b"piece" => {
                self.renew_at(owner, Instant::now());
                true
            }
            _ => true,
        })
    }

    fn lock(&self) -> MutexGuard<'_, Option<(Owner, Instant)>> {
        self.0.lock().unwrap_or_else(PoisonError::into_inner)
    }
}

/// Returns the first word of each request, also in a `many` and under a generation.
fn asked(request: &[u8]) -> Vec<&[u8]> {
    let inside = request.strip_prefix(b"many ").map(|it| frames::inside(it).unwrap_or_default());
    inside.unwrap_or_else(|| vec![request]).into_iter().map(|it| requests::word(requests::heading(it).1)).collect()
}

#[cfg(test)]
mod tests {
    use super::*;

    #[test]
    fn one_reads_at_a_time() {
        let (held, now) = (Snapshots::default(), Instant::now());
        let (one, other) = (Owner::Connection(1), Owner::Connection(2));
        assert!(held.take_at(one, now) && held.take_at(one, now) && !held.take_at(other, now));
        held.renew_at(one, now + LEASE);
        held.renew_at(other, now + 9 * LEASE);
        assert!(!held.take_at(other, now + LEASE) && held.take_at(other, now + 2 * LEASE));
        held.release(one);
        assert!(!held.take_at(one, now));
        held.release(other);
        assert!(held.take_at(one, now));
    }

    #[test]
    fn the_server_waits_for_nobody_where_it_must_not() {
        let (held, now) = (Snapshots::default(), Instant::now());
        assert!(held.take_at(Owner::Connection(1), now) && !held.take_at(Owner::Server, now));
        held.seize();
        assert!(!held.take_at(Owner::Connection(1), now + 9 * LEASE));
        held.release(Owner::Server);
        assert!(held.take_at(Owner::Connection(1), now));
    }

    #[test]
    fn requests_name_what_they_do() {
        let held = Snapshots::default();
        let many = requests::many([&b"front"[..], b"as 1 2 freeze 3"]).unwrap();
        assert!(held.allows(1, b"piece 0") && held.allows(1, &many) && held.allows(1, b"piece 0"));
        assert!(!held.allows(2, b"freeze 4") && !held.allows(2, &many) && held.allows(2, b"piece 0") && held.allows(2, b"front"));
    }
}

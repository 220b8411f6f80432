//! What an opening sends to nodes that lack something.
//!
//! The machine sends each node what the node's summary lacks, and requests a front afterwards. It continues with a quorum that has what the
//! opening keeps. A node that has discarded less than others is sent all pages, although it has their records. So long absorbs are held
//! back until the fronts have arrived. If the machine continues then, those for nodes that have as much as any other are dropped, like lost
//! messages. Otherwise they are sent.

use crate::link::LONG;
use std::time::{Duration, Instant};
use yieldcleat_client::answers;

/// An epoch, and the complete point in it.
pub type Reached = (u16, u64);

/// An absorb request that is held back, and since when.
#[derive(Debug)]
struct Held {
    request: Vec<u8>,
    since: Instant,
}

/// The state of a node while an opening spreads what it has gathered.
#[derive(Debug, Default)]
pub struct Spread {
    held: Option<Held>,
    /// Whether the node was asked for its summary, and has not reported its front.
    awaits_front: bool,
    /// The front that it reported after that.
    front: Option<Reached>,
}

/// Returns the request or answer inside one under a generation and a birth.
fn inside(bytes: &[u8]) -> Option<&[u8]> {
    bytes.strip_prefix(b"as ")?.splitn(3, |byte| *byte == b' ').nth(2)
}

/// Returns whether the machine sends this once a quorum has what the opening keeps.
pub fn is_proposal(request: &[u8]) -> bool {
    request.starts_with(b"propose ")
}

/// Returns whether the machine sends this when it begins to spread.
pub fn is_question(request: &[u8]) -> bool {
    inside(request) == Some(b"ask")
}

impl Spread {
    /// Notes a request of an opening, and returns it unless it is held back.
    pub fn ask(&mut self, request: Vec<u8>, now: Instant) -> Option<Vec<u8>> {
        if is_question(&request) {
            *self = Spread { awaits_front: true, ..Spread::default() };
        } else if request.len() > LONG && inside(&request).is_some_and(|it| it.starts_with(b"absorb ")) {
            self.held = Some(Held { request, since: now });
            return None;
        }
        Some(request)
    }

    /// Notes an answer to the engine of a generation.
    pub fn hear(&mut self, answer: &[u8], generation: u64) {
        let is_own = answer.starts_with(format!("as {generation} ").as_bytes());
        let own = inside(answer).filter(|it| is_own && it.starts_with(b"front "));
        if let Some(Ok(front)) = own.map(answers::front) {
            (self.awaits_front, self.front) = (false, Some((front.epoch, front.complete)));
        }
    }

    pub fn is_holding(&self) -> bool {
        self.held.is_some()
    }

    pub fn awaits_front(&self) -> bool {
        self.awaits_front
    }

    pub fn front(&self) -> Option<Reached> {
        self.front
    }

    /// Returns whether a request has been held back for `pause`.
    pub fn is_overdue(&self, now: Instant, pause: Duration) -> bool {
        self.held.as_ref().is_some_and(|held| now >= held.since + pause)
    }

    /// Drops the request that is held back.
    pub fn drop_held(&mut self) {
        self.held = None;
    }

    /// Returns the request that is held back, and a request for the front after it.
    pub fn release(&mut self) -> Option<[Vec<u8>; 2]> {
        let absorb = self.held.take()?.request;
        let heading = absorb.len() - inside(&absorb)?.len();
        let front = [&absorb[..heading], b"front"].concat();
        self.awaits_front = true;
        Some([absorb, front])
    }
}

#[cfg(test)]
mod tests {
    use super::*;

    fn long_absorb() -> Vec<u8> {
        [b"as 3 77 absorb 5 ", vec![b'x'; LONG].as_slice()].concat()
    }

    #[test]
    fn only_long_absorbs_under_a_generation_are_held() {
        let (mut spread, now) = (Spread::default(), Instant::now());
        for request in [&b"as 3 77 ask"[..], b"as 3 77 absorb 5 x", b"as 3 77 front", b"propose 3 77 1 5 9"] {
            assert_eq!(spread.ask(request.to_vec(), now).as_deref(), Some(request));
        }
        let to_fresh_one = long_absorb().split_off(b"as 3 77 ".len());
        assert_eq!(spread.ask(to_fresh_one.clone(), now), Some(to_fresh_one));
        assert!(!spread.is_holding() && spread.release().is_none());
        assert_eq!(spread.ask(long_absorb(), now), None);
        assert!(spread.is_holding() && spread.is_overdue(now + Duration::from_secs(1), Duration::from_secs(1)));
        assert!(!spread.is_overdue(now, Duration::from_secs(1)));
        assert_eq!(spread.release(), Some([long_absorb(), b"as 3 77 front".to_vec()]));
        assert!(!spread.is_holding());
    }

    #[test]
    fn fronts_are_noted() {
        let (mut spread, now) = (Spread::default(), Instant::now());
        spread.ask(b"as 3 77 ask".to_vec(), now);
        for answer in [&b"as 3 77 summary front"[..], b"front 1 9 0", b"as 3 77 absorbed", b"as 2 77 front 1 9 0"] {
            spread.hear(answer, 3);
            assert!(spread.awaits_front() && spread.front().is_none());
        }
        spread.hear(b"as 3 77 front 1 9 0", 3);
        assert!(!spread.awaits_front() && spread.front() == Some((1, 9)));
        spread.ask(long_absorb(), now);
        // A new question leads to another absorb.
        spread.ask(b"as 3 77 ask".to_vec(), now);
        assert!(spread.awaits_front() && spread.front().is_none() && !spread.is_holding());
    }
}

//! The state of a node in the driver.

use crate::reopening::Outside;
use crate::spreading::Spread;
use std::sync::mpsc::Sender;
use std::time::Instant;
use yieldcleat_client::{engines, Declined, Error};

/// The beginning of a request to become a member.
const ADMIT: &[u8] = b"admit ";

pub struct Peer {
    /// The queue of requests; `None` while the node is not connected.
    pub queue: Option<Sender<Vec<u8>>>,
    /// Whether its link has been connected, or has failed to connect.
    pub was_tried: bool,
    /// Whether it has answered on this connection.
    pub is_answering: bool,
    /// Whether its connection ended during an opening after it had answered, and it has not reported since that it serves the generation.
    pub is_lost: bool,
    /// The number of bytes of unanswered requests.
    pub pending: usize,
    /// The number of these bytes that an earlier opening sent.
    pub earlier: usize,
    /// When it last got a request or answered one.
    pub active: Instant,
    /// Why it does not count, if it has reported that.
    pub outside: Option<Outside>,
    /// Whether it was connected when an open volume was opened again, and has not answered the fence.
    pub awaits_fence: bool,
    /// Whether it was asked to become a member, and has not answered.
    pub awaits_admission: bool,
    /// Whether it was asked what it has, and has not answered.
    pub awaits_pull: bool,
    /// The requests that an opening holds back from it.
    pub spread: Spread,
}

impl Peer {
    pub fn new() -> Peer {
        Peer {
            queue: None,
            was_tried: false,
            is_answering: false,
            is_lost: false,
            pending: 0,
            earlier: 0,
            active: Instant::now(),
            outside: None,
            awaits_fence: false,
            awaits_admission: false,
            awaits_pull: false,
            spread: Spread::default(),
        }
    }

    /// Queues a request.
    pub fn ask(&mut self, request: Vec<u8>) {
        self.pending += request.len();
        self.active = Instant::now();
        if let Some(queue) = &self.queue {
            self.awaits_admission |= request.starts_with(ADMIT);
            self.awaits_pull |= is_pull(&request);
            // A link that has ended reports that next.
            let _ = queue.send(request);
        }
    }

    /// Begins another opening, which does not wait for answers to earlier requests.
    pub fn begin_opening(&mut self) {
        (self.earlier, self.is_lost) = (self.pending, false);
        (self.awaits_admission, self.awaits_pull, self.spread) = (false, false, Spread::default());
    }

    /// Returns whether an earlier opening sent the request that is answered now. Requests are answered in order.
    pub fn is_earlier(&mut self, request: &[u8]) -> bool {
        let is_earlier = self.earlier > 0;
        self.earlier = self.earlier.saturating_sub(request.len());
        is_earlier
    }

    /// Notes an answer to the engine of a generation. Returns whether this changes how many nodes answer or count.
    pub fn hear(&mut self, request: &[u8], answer: &[u8], generation: u64) -> bool {
        self.pending = self.pending.saturating_sub(request.len());
        self.active = Instant::now();
        let before = (self.is_answering, self.outside);
        self.is_answering = true;
        self.is_lost = self.is_lost && !is_of_member(answer, generation);
        self.awaits_admission &= !request.starts_with(ADMIT);
        self.awaits_pull &= !is_pull(request);
        self.spread.hear(answer, generation);
        if [&b"as "[..], b"fenced ", b"admitted "].iter().any(|word| answer.starts_with(word)) {
            self.outside = None;
        } else if let Some(birth) = fresh_birth(answer) {
            self.outside = Some(Outside::Fresh(birth));
        } else if is_own_fence(request, answer, generation) {
            self.outside = Some(Outside::Unheard(generation));
        }
        before != (self.is_answering, self.outside)
    }

    /// Returns whether this answer shows that another engine has the generation of this fence: the node has it, and no answer was lost.
    pub fn is_of_another(&mut self, request: &[u8], answer: &[u8], generation: u64) -> bool {
        if !self.awaits_fence || request != engines::fence(generation) {
            return false;
        }
        self.awaits_fence = false;
        is_own_fence(request, answer, generation)
    }
}

/// Returns whether this requests what a node has beyond a summary: `as G B answer SUMMARY`.
fn is_pull(request: &[u8]) -> bool {
    let mut words = request.splitn(4, |byte| *byte == b' ');
    words.next() == Some(b"as") && words.nth(2).is_some_and(|word| word.starts_with(b"answer "))
}

/// Returns whether a node reports that it serves a generation.
fn is_of_member(answer: &[u8], generation: u64) -> bool {
    let is_own = |word| answer.starts_with(format!("{word} {generation} ").as_bytes());
    is_own("as") || is_own("accepted") || engines::membership(answer).is_ok_and(|it| it.is_member && it.generation == generation)
}

/// Returns the birth of a node that reports that it is not a member.
fn fresh_birth(answer: &[u8]) -> Option<u64> {
    if answer.starts_with(b"status ") {
        return engines::membership(answer).ok().filter(|it| !it.is_member).map(|it| it.birth);
    }
    match answer.starts_with(b"fresh ").then(|| engines::fenced(answer)) {
        Some(Err(Error::Declined(Declined::Fresh { birth }))) => Some(birth),
        _ => None,
    }
}

/// Returns whether a node that is asked to serve a generation has it already.
fn is_own_fence(request: &[u8], answer: &[u8], generation: u64) -> bool {
    answer.starts_with(b"stale ") && request == engines::fence(generation) && answer == format!("stale {generation}").as_bytes()
}

#[cfg(test)]
mod tests {
    use super::*;

    #[test]
    fn who_does_not_count() {
        let mut peer = Peer::new();
        assert!(peer.hear(b"as 3 7 front", b"fresh 9", 3));
        assert_eq!(peer.outside, Some(Outside::Fresh(9)));
        assert!(!peer.hear(b"as 3 7 front", b"fresh 9", 3));
        assert!(!peer.hear(b"admit 3 9 1 5", b"behind 1 4", 3));
        assert!(peer.hear(b"admit 3 9 1 5", b"admitted 3 9", 3));
        assert_eq!(peer.outside, None);
        assert!(!peer.hear(b"as 3 9 front", b"stale 3", 3) && !peer.hear(b"fence 3", b"stale 4", 3));
        assert!(peer.hear(b"fence 3", b"stale 3", 3));
        assert_eq!(peer.outside, Some(Outside::Unheard(3)));
        assert!(peer.hear(b"fence 4", b"fenced 4 9", 4));
        assert_eq!(peer.outside, None);
        assert!(!peer.hear(b"status", b"status 4 9 1 0 0 0", 4) && peer.hear(b"status", b"status 0 10 0 0 0 0", 4));
        assert_eq!(peer.outside, Some(Outside::Fresh(10)));
    }

    #[test]
    fn a_member_that_is_back() {
        let lost = || Peer { is_lost: true, ..Peer::new() };
        for answer in [&b"as 3 7 front 1 2 0"[..], b"accepted 3 7 1", b"status 3 7 1 0 0 0"] {
            let mut peer = lost();
            peer.hear(b"x", answer, 3);
            assert!(!peer.is_lost);
        }
        for answer in [&b"as 2 7 front 1 2 0"[..], b"status 2 7 1 0 0 0", b"status 3 7 0 0 0 0", b"fresh 8", b"stale 3", b"disk full"] {
            let mut peer = lost();
            peer.hear(b"x", answer, 3);
            assert!(peer.is_lost);
        }
    }

    #[test]
    fn what_a_node_has_is_awaited() {
        let (queue, asked) = std::sync::mpsc::channel();
        let mut peer = Peer { queue: Some(queue), ..Peer::new() };
        for request in [&b"as 3 7 front"[..], b"answer x", b"as 3 7 take answer x", b"fence 3"] {
            peer.ask(request.to_vec());
            assert!(!peer.awaits_pull);
        }
        peer.ask(b"as 3 7 answer x".to_vec());
        assert!(peer.awaits_pull && asked.iter().take(5).count() == 5);
        peer.hear(b"as 3 7 front", b"as 3 7 front 1 2 0", 3);
        assert!(peer.awaits_pull);
        peer.hear(b"as 3 7 answer x", b"memory", 3);
        assert!(!peer.awaits_pull);
    }

    #[test]
    fn answers_to_an_earlier_opening() {
        let (queue, _asked) = std::sync::mpsc::channel();
        let mut peer = Peer { queue: Some(queue), ..Peer::new() };
        peer.ask(b"fence 3".to_vec());
        peer.ask(b"as 3 7 front".to_vec());
        assert!(!peer.is_earlier(b"fence 3"));
        peer.hear(b"fence 3", b"fenced 3 7", 3);
        peer.begin_opening();
        peer.ask(b"fence 4".to_vec());
        assert!(peer.is_earlier(b"as 3 7 front") && !peer.is_earlier(b"fence 4"));
    }

    #[test]
    fn a_generation_of_another_engine() {
        let mut peer = Peer { awaits_fence: true, ..Peer::new() };
        assert!(!peer.is_of_another(b"fence 3", b"stale 3", 4));
        assert!(peer.is_of_another(b"fence 4", b"stale 4", 4));
        assert!(!peer.is_of_another(b"fence 4", b"stale 4", 4));
        let mut peer = Peer { awaits_fence: true, ..Peer::new() };
        assert!(!peer.is_of_another(b"fence 4", b"fenced 4 9", 4));
        assert!(!peer.is_of_another(b"fence 4", b"stale 4", 4));
    }
}

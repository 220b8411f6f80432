//! The requests of a client that reach the segment and its guard.
//!
//! The guard in the archive decides which engine the node answers. This module refuses clients a request that replaces the segment, which
//! the guard allows while the node is not a member, and it limits the size of each delta. An engine that opens a volume needs all that a
//! node has at once, so its deltas are not limited.

use yieldcleat_client::{frames, requests};

/// What to do with a request.
#[derive(Debug, Clone, PartialEq, Eq)]
pub enum Verdict {
    /// Send this request to the segment.
    Ask(Vec<u8>),
    /// Answer without the segment.
    Answer(Vec<u8>),
    /// Answer with the report.
    Report,
    /// Answer with the metrics.
    Metrics,
}

/// Requests that replace the segment, and so lose facts that were acknowledged.
const REPLACING: [&[u8]; 2] = [b"open", b"finish"];

/// Judges a request. A delta has at most `most` bytes, unless it is requested under a generation.
pub fn judge(request: Vec<u8>, most: u32) -> Verdict {
    match requests::word(&request) {
        b"report" => Verdict::Report,
        b"metrics" => Verdict::Metrics,
        b"many" => judge_many(request, most),
        word if REPLACING.contains(&word) => Verdict::Answer(b"not allowed".to_vec()),
        b"answer" | b"within" => Verdict::Ask(bounded(&request, most).unwrap_or(request)),
        _ => Verdict::Ask(request),
    }
}

/// Judges the requests in a `many`. If one is refused, all are.
fn judge_many(request: Vec<u8>, most: u32) -> Verdict {
    let inside = request.strip_prefix(b"many ").and_then(frames::inside).unwrap_or_default();
    if inside.iter().any(|it| REPLACING.contains(&requests::word(it))) {
        return Verdict::Answer(b"not allowed".to_vec());
    }
    let limited: Vec<_> = inside.iter().map(|it| bounded(it, most)).collect();
    if limited.iter().all(Option::is_none) {
        return Verdict::Ask(request);
    }
    let asked = inside.iter().zip(&limited).map(|(it, limited)| limited.as_deref().unwrap_or(it));
    // The request is too long only if the limits make it exceed 4 GiB.
    requests::many(asked).map_or_else(|_| Verdict::Answer(b"long frame".to_vec()), Verdict::Ask)
}

/// Adds a limit to the request for a delta. `None` if it is within the limit, if the segment will find it malformed, or if an engine sends
/// it under its generation.
fn bounded(request: &[u8], most: u32) -> Option<Vec<u8>> {
    if let Some(summary) = request.strip_prefix(b"answer ") {
        return Some(requests::within(summary, most));
    }
    let rest = request.strip_prefix(b"within ")?;
    let end = rest.iter().position(|byte| *byte == b' ')?;
    let asked: u32 = std::str::from_utf8(&rest[..end]).ok()?.parse().ok()?;
    (asked > most).then(|| requests::within(&rest[end + 1..], most))
}

#[cfg(test)]
mod tests {
    use super::*;

    fn judged(request: &[u8]) -> Verdict {
        judge(request.to_vec(), 100)
    }

    #[test]
    fn nothing_replaces_the_segment() {
        let refused = Verdict::Answer(b"not allowed".to_vec());
        let many = requests::many([&b"front"[..], b"open 1"]).unwrap();
        for request in [&b"open 1"[..], b"open", b"finish", b"finish 1", &many] {
            assert_eq!(judged(request), refused);
        }
        let harmless = requests::many([&b"front"[..], b"take \x03"]).unwrap();
        for request in [&b"front"[..], b"", b"opened", b"many x", &harmless, b"unite"] {
            assert_eq!(judged(request), Verdict::Ask(request.to_vec()));
        }
        assert_eq!((judged(b"report"), judged(b"metrics")), (Verdict::Report, Verdict::Metrics));
    }

    #[test]
    fn deltas_have_a_bound() {
        let ask = |request: &[u8]| Verdict::Ask(request.to_vec());
        assert_eq!(judged(b"answer \x10 \0"), ask(b"within 100 \x10 \0"));
        assert_eq!(judged(b"within 101 \x10 \0"), ask(b"within 100 \x10 \0"));
        assert_eq!(judged(b"as 3 7 answer \x10 \0"), ask(b"as 3 7 answer \x10 \0"));
        assert_eq!(judged(b"as 3 7 take \x03"), ask(b"as 3 7 take \x03"));
        let many = requests::many([&b"front"[..], b"answer \x10", b"within 99 \x10"]).unwrap();
        let limited = requests::many([&b"front"[..], b"within 100 \x10", b"within 99 \x10"]).unwrap();
        assert_eq!(judged(&many), ask(&limited));
        for kept in [&b"within 99 \x10"[..], b"within 100 \x10", b"within x \x10", b"within", b"answer", b"within 5000000000 x"] {
            assert_eq!(judged(kept), ask(kept));
        }
    }
}

//! The encoding of requests in frames, and the effect of each, which determines what a server must store.

use crate::frames;
use std::io;

/// The effect of a request on the state that a node must have again after a crash.
#[derive(Debug, Clone, Copy, PartialEq, Eq)]
pub enum Effect {
    /// No effect, whatever the answer. `fold`, `discard` and `tidy` change no answer that depends on facts, and a snapshot for `piece` can
    /// be made again.
    None,
    /// A change of the facts, the roster or the staging, exactly if this is the answer. Sent again in the same order, such requests give a
    /// new node the same facts and the same staging.
    Changes { answer: &'static [u8] },
    /// A change of the guard (generation, accepted truncation or membership), exactly if the answer begins with this word.
    Guards { word: &'static [u8] },
    /// The effects of the requests inside it.
    Many,
}

const READS: [&[u8]; 13] =
    [b"front", b"gap", b"state", b"read", b"next", b"ask", b"answer", b"within", b"fold", b"discard", b"tidy", b"freeze", b"piece"];

/// The requests that change the segment, each with the answer that reports a change.
const CHANGES: [(&[u8], &[u8]); 7] = [
    (b"open", b"opened"),
    (b"take", b"changed"),
    (b"absorb", b"absorbed"),
    (b"stage", b"staged"),
    (b"add", b"added"),
    (b"finish", b"restored"),
    (b"unite", b"united"),
];

/// The requests that change a guard, each with the first word of the answer that reports a change.
const GUARDS: [(&[u8], &[u8]); 3] = [(b"fence", b"fenced"), (b"propose", b"accepted"), (b"admit", b"admitted")];

/// Returns the first word of a request.
pub fn word(request: &[u8]) -> &[u8] {
    request.split(|byte| *byte == b' ').next().unwrap_or_default()
}

/// Returns the effect of a request, by its first word; `None` for a word that this package does not know, so that a server can refuse it.
pub fn effect(request: &[u8]) -> Option<Effect> {
    let (heading, asked) = heading(request);
    let of_guard = if heading.is_empty() { effect_on_guard(word(asked)) } else { None };
    of_guard.or_else(|| effect_on_segment(word(asked)))
}

fn effect_on_segment(word: &[u8]) -> Option<Effect> {
    if READS.contains(&word) {
        return Some(Effect::None);
    }
    CHANGES.iter().find(|it| it.0 == word).map(|it| Effect::Changes { answer: it.1 })
}

/// Returns the effect of a request that cannot be sent under a generation.
fn effect_on_guard(word: &[u8]) -> Option<Effect> {
    match word {
        b"many" => Some(Effect::Many),
        b"status" => Some(Effect::None),
        _ => GUARDS.iter().find(|it| it.0 == word).map(|it| Effect::Guards { word: it.1 }),
    }
}

/// Splits a request into its heading and the rest. A request under a generation has the heading `as G B `, as has its answer; any other
/// request has an empty one.
pub fn heading(request: &[u8]) -> (&[u8], &[u8]) {
    let mut spaces = request.iter().enumerate().filter(|(_, byte)| **byte == b' ').map(|(place, _)| place);
    match (request.starts_with(b"as "), spaces.nth(2)) {
        (true, Some(last)) => request.split_at(last + 1),
        _ => (&[], request),
    }
}

/// Returns whether a request with this answer has changed what a node must have again after a crash. Always false for a `many`: check the
/// requests inside it.
pub fn has_changed(request: &[u8], answer: &[u8]) -> bool {
    match effect(request) {
        Some(Effect::Changes { answer: wanted }) => answer.strip_prefix(heading(request).0) == Some(wanted),
        Some(Effect::Guards { word: wanted }) => word(answer) == wanted,
        _ => false,
    }
}

/// Replaces the segment with an empty one of 1 to 15 readers.
pub fn open(readers: u8) -> Vec<u8> {
    format!("open {readers}").into_bytes()
}

fn behind(word: &str, parts: &[&[u8]]) -> Vec<u8> {
    let mut request = word.as_bytes().to_vec();
    parts.iter().for_each(|part| request.extend_from_slice(part));
    request
}

/// Delivers a fact.
pub fn take(fact: &[u8]) -> Vec<u8> {
    behind("take ", &[fact])
}

/// Requests the delta for a summary.
pub fn answer(summary: &[u8]) -> Vec<u8> {
    behind("answer ", &[summary])
}

/// Requests the delta for a summary, if it has at most `most` bytes.
pub fn within(summary: &[u8], most: u32) -> Vec<u8> {
    behind(&format!("within {most} "), &[summary])
}

/// Delivers the delta for a summary of this node.
pub fn absorb(summary: &[u8], delta: &[u8]) -> Vec<u8> {
    behind(&format!("absorb {} ", summary.len()), &[summary, delta])
}

/// Folds a page up to the anchor.
pub fn fold(page: u16) -> Vec<u8> {
    format!("fold {page}").into_bytes()
}

/// Begins a staging for the `total` pieces of the snapshot of that name.
pub fn stage(name: u64, total: u32) -> Vec<u8> {
    format!("stage {name} {total}").into_bytes()
}

/// Adds a piece of the staged snapshot.
pub fn add(piece: &[u8]) -> Vec<u8> {
    behind("add ", &[piece])
}

/// Replaces the segment with the staged one.
pub fn finish() -> Vec<u8> {
    b"finish".to_vec()
}

/// Joins the staged segment into the segment.
pub fn unite() -> Vec<u8> {
    b"unite".to_vec()
}

/// Encodes many requests as one. Each is carried out as if it were sent alone, and the answer consists of the frames of their answers
/// (`frames::inside`). A `many` inside a `many` is a bad request.
///
/// Errors: a request of 2^32 bytes or more.
pub fn many<'a>(requests: impl IntoIterator<Item = &'a [u8]>) -> io::Result<Vec<u8>> {
    let mut request = b"many ".to_vec();
    requests.into_iter().try_for_each(|it| frames::append(&mut request, &[it]))?;
    Ok(request)
}

#[cfg(test)]
mod tests {
    use super::*;

    #[test]
    fn answers_say_what_has_changed() {
        for (request, answer) in [
            (&b"take \x03"[..], &b"changed"[..]),
            (b"as 3 7 take \x03", b"as 3 7 changed"),
            (b"as 3 7 absorb 1 \x10\x11", b"as 3 7 absorbed"),
            (b"fence 3", b"fenced 3 7"),
            (b"fence 3", b"fenced 3 7 2 1 0 0"),
            (b"propose 3 7 1 0 0", b"accepted 3 7 1"),
            (b"admit 3 7 0 0", b"admitted 3 7"),
        ] {
            assert!(has_changed(request, answer), "{request:?}");
        }
        for (request, answer) in [
            (&b"take \x03"[..], &b"unchanged"[..]),
            (b"as 3 7 take \x03", b"changed"),
            (b"as 3 7 take \x03", b"as 3 8 changed"),
            (b"as 3 7 take \x03", b"stale 4"),
            (b"fence 3", b"stale 3"),
            (b"admit 3 7 0 0", b"member"),
            (b"status", b"status 3 7 1 0 0 0"),
            (b"front", b"fenced 3 7"),
        ] {
            assert!(!has_changed(request, answer), "{request:?}");
        }
    }

    #[test]
    fn each_request_has_its_effect() {
        let changes = |answer| Some(Effect::Changes { answer });
        assert_eq!(effect(&take(b"\x03 \n")), changes(b"changed"));
        assert_eq!(effect(&absorb(b" ", b"")), changes(b"absorbed"));
        assert_eq!(effect(&open(3)), changes(b"opened"));
        assert_eq!(effect(&finish()), changes(b"restored"));
        assert_eq!(effect(&unite()), changes(b"united"));
        assert_eq!(effect(&answer(b"\x10")), Some(Effect::None));
        assert_eq!(effect(&within(b"\x10", 9)), Some(Effect::None));
        assert_eq!(effect(b"status"), Some(Effect::None));
        assert_eq!(effect(b"fence 3"), Some(Effect::Guards { word: b"fenced" }));
        assert_eq!(effect(b"as 3 7 take \x03"), changes(b"changed"));
        assert_eq!(effect(b"as 3 7 front"), Some(Effect::None));
        for unknown in [&b"as 3 7 fence 4"[..], b"as 3 7 many ", b"as 3 7", b"as 3 7 as 3 7 front", b"other"] {
            assert_eq!(effect(unknown), None);
        }
        assert_eq!(effect(b"tidy"), Some(Effect::None));
        assert_eq!(effect(b"many \0\0\0\0"), Some(Effect::Many));
        for unknown in [&b""[..], b" ", b" take", b"taken", b"wipe", b"Take"] {
            assert_eq!(effect(unknown), None);
        }
    }

    #[test]
    fn requests_stand_in_one() {
        assert_eq!(super::many([&b"front"[..], b""]).unwrap(), b"many \0\0\0\x05front\0\0\0\0");
    }

    #[test]
    fn bytes_stand_as_they_are() {
        assert_eq!(super::take(&[3, 10, 0]), b"take \x03\n\0");
        assert_eq!(super::absorb(&[1, 2], &[3]), b"absorb 2 \x01\x02\x03");
        assert_eq!(super::within(&[1, 2], 8_000_000), b"within 8000000 \x01\x02");
        assert_eq!(super::stage(9, 3), b"stage 9 3");
    }
}

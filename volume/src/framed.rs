//! A machine at the other end of a pair of streams. An event is a frame, and its answer is one frame with a frame inside for each action.
//!
//! | Event | Frame |
//! |---|---|
//! | create, open, advance, failed | `create`, `open G`, `advance R P`, `failed N` |
//! | write | `write ` and the bytes of a record with the page and the patches, LSN 1, epoch 0 and no backlinks |
//! | commit | `commit ` and the header |
//! | answered | `answered N ` and the answer |
//!
//! | Action | Frame |
//! |---|---|
//! | ask | `ask N ` and the request |
//! | created | `created` |
//! | opened | `opened E C ` and the header |
//! | committed, durable | `committed C`, `durable C` |
//! | refused | `fenced G`, `no quorum H N`, `not open`, `ahead C`, `full`, `not fresh`, `reserved`, `long header`, `damaged`, `shape` |
//!
//! The answer `memory` means that the event had no effect, as if it had not arrived.

use crate::machine::{Action, Event, Fault, Machine, OutOfMemory};
use std::io::{Read, Write};
use yieldcleat_client::{frames, Record};

/// Encodes an event. `None` for a write that breaks a shape rule.
pub fn event_bytes(event: &Event<'_>) -> Option<Vec<u8>> {
    let behind = |word: &str, bytes: &[u8]| [word.as_bytes(), bytes].concat();
    Some(match event {
        Event::Create => b"create".to_vec(),
        Event::Open { generation } => format!("open {generation}").into_bytes(),
        Event::Write { page, init, patches } => {
            let (epoch, number, back, block_back) = (0, 1, 0, 0);
            let record = Record { epoch, number, back, page: *page, block_back, begins_anew: *init, patches: patches.to_vec() };
            behind("write ", &record.encode().ok()?)
        }
        Event::Commit { header } => behind("commit ", header),
        Event::Advance { reader, point } => format!("advance {reader} {point}").into_bytes(),
        Event::Answered { node, answer, .. } => behind(&format!("answered {node} "), answer),
        Event::Failed { node } => format!("failed {node}").into_bytes(),
    })
}

/// Decodes the actions of an answer. `None` if the bytes are not an answer.
pub fn actions_of(answer: &[u8]) -> Option<Result<Vec<Action>, OutOfMemory>> {
    if answer == b"memory" {
        return Some(Err(OutOfMemory));
    }
    frames::inside(answer)?.into_iter().map(action_of).collect::<Option<_>>().map(Ok)
}

/// Splits bytes at the first space.
fn split(bytes: &[u8]) -> (&[u8], &[u8]) {
    match bytes.iter().position(|byte| *byte == b' ') {
        Some(end) => (&bytes[..end], &bytes[end + 1..]),
        None => (bytes, &[]),
    }
}

fn number<N: std::str::FromStr>(word: &[u8]) -> Option<N> {
    std::str::from_utf8(word).ok()?.parse().ok()
}

fn action_of(frame: &[u8]) -> Option<Action> {
    let (word, rest) = split(frame);
    Some(match word {
        b"ask" => {
            let (node, request) = split(rest);
            Action::Ask { node: number(node)?, request: request.to_vec() }
        }
        b"created" if rest.is_empty() => Action::Created,
        b"opened" => {
            let (epoch, rest) = split(rest);
            let (point, header) = split(rest);
            Action::Opened { epoch: number(epoch)?, commit_point: number(point)?, header: header.to_vec() }
        }
        b"committed" => Action::Committed { commit_point: number(rest)? },
        b"durable" => Action::Durable { commit_point: number(rest)? },
        _ => Action::Refused(fault_of(std::str::from_utf8(frame).ok()?)?),
    })
}

fn fault_of(text: &str) -> Option<Fault> {
    let words: Vec<_> = text.split(' ').collect();
    Some(match words[..] {
        ["fenced", generation] => Fault::Fenced { generation: generation.parse().ok()? },
        ["no", "quorum", have, need] => Fault::NoQuorum { have: have.parse().ok()?, need: need.parse().ok()? },
        ["not", "open"] => Fault::NotOpen,
        ["ahead", durable] => Fault::Ahead { durable: durable.parse().ok()? },
        ["full"] => Fault::Full,
        ["not", "fresh"] => Fault::NotFresh,
        ["reserved"] => Fault::Reserved,
        ["long", "header"] => Fault::LongHeader,
        ["damaged"] => Fault::Damaged,
        ["shape"] => Fault::Shape,
        _ => return None,
    })
}

/// A machine that reads events from one stream and writes its answers to another: that of the archive, over a socket, or a process.
pub struct Framed<R, W> {
    answers: R,
    events: W,
    frame: Vec<u8>,
}

impl<R: Read + Send, W: Write + Send> Framed<R, W> {
    pub fn over(answers: R, events: W) -> Framed<R, W> {
        Framed { answers, events, frame: Vec::new() }
    }
}

impl<R: Read + Send, W: Write + Send> Machine for Framed<R, W> {
    /// Sends an event and reads its answer. If the machine has ended, the answer is `Damaged`: nothing more can be decided.
    fn step(&mut self, event: Event<'_>) -> Result<Vec<Action>, OutOfMemory> {
        let Some(bytes) = event_bytes(&event) else {
            return Ok(vec![Action::Refused(Fault::Shape)]);
        };
        let is_answered = frames::write(&mut self.events, &bytes).and_then(|()| self.events.flush()).is_ok()
            && frames::read(&mut self.answers, &mut self.frame).unwrap_or(false);
        match actions_of(&self.frame).filter(|_| is_answered) {
            Some(actions) => actions,
            None => Ok(vec![Action::Refused(Fault::Damaged)]),
        }
    }
}

#[cfg(test)]
mod tests {
    use super::*;
    use yieldcleat_client::Patch;

    #[test]
    fn events_are_written() {
        let patches = [Patch::write(0, b"aa")];
        let answer = b"as 2 7 front 1 5 0";
        for (event, wanted) in [
            (Event::Create, &b"create"[..]),
            (Event::Open { generation: 9 }, b"open 9"),
            (Event::Commit { header: b"a b" }, b"commit a b"),
            (Event::Commit { header: b"" }, b"commit "),
            (Event::Advance { reader: 1, point: 5 }, b"advance 1 5"),
            (Event::Failed { node: 3 }, b"failed 3"),
            (Event::Answered { node: 3, request: b"x", answer }, b"answered 3 as 2 7 front 1 5 0"),
        ] {
            assert_eq!(event_bytes(&event).as_deref(), Some(wanted));
        }
        let write = event_bytes(&Event::Write { page: 7, init: false, patches: &patches }).unwrap();
        assert_eq!(write, b"write \x01\0\0\0\0\0\0\0\x01\0\0\0\0\0\0\0\x07\0\0\0\0\0\0\x01\0\0\0\x02aa");
        assert_eq!(event_bytes(&Event::Write { page: 7, init: false, patches: &[Patch::write(0, b"")] }), None);
    }

    #[test]
    fn actions_are_read() {
        let mut answer = Vec::new();
        let parts: [&[u8]; 8] = [
            b"ask 3 as 2 7 take \x01 x",
            b"created",
            b"opened 2 70 a b",
            b"opened 2 0 ",
            b"committed 72",
            b"durable 72",
            b"fenced 3",
            b"no quorum 3 4",
        ];
        parts.iter().for_each(|part| frames::append(&mut answer, &[part]).unwrap());
        let wanted = vec![
            Action::Ask { node: 3, request: b"as 2 7 take \x01 x".to_vec() },
            Action::Created,
            Action::Opened { epoch: 2, commit_point: 70, header: b"a b".to_vec() },
            Action::Opened { epoch: 2, commit_point: 0, header: vec![] },
            Action::Committed { commit_point: 72 },
            Action::Durable { commit_point: 72 },
            Action::Refused(Fault::Fenced { generation: 3 }),
            Action::Refused(Fault::NoQuorum { have: 3, need: 4 }),
        ];
        assert_eq!(actions_of(&answer), Some(Ok(wanted)));
        assert_eq!(actions_of(b"memory"), Some(Err(OutOfMemory)));
        assert_eq!(actions_of(b""), Some(Ok(vec![])));
        for other in [&b"x"[..], b"\0\0\0\x03ask", b"\0\0\0\x05other"] {
            assert_eq!(actions_of(other), None);
        }
    }

    #[test]
    fn a_machine_that_has_ended_is_damaged() {
        let mut machine = Framed::over(&b""[..], Vec::new());
        assert_eq!(machine.step(Event::Create), Ok(vec![Action::Refused(Fault::Damaged)]));
        let mut machine = Framed::over(&b"\0\0\0\x06memory"[..], Vec::new());
        assert_eq!(machine.step(Event::Open { generation: 2 }), Err(OutOfMemory));
        assert_eq!(machine.events, b"\0\0\0\x06open 2");
    }
}

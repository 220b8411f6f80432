//! Nodes behind sockets, with one chain of records, no epochs and a guard.

use std::collections::BTreeMap;
use std::io::{self, Write};
use std::os::unix::net::{UnixListener, UnixStream};
use std::path::{Path, PathBuf};
use std::sync::{Arc, Mutex};
use std::thread;
use std::time::Duration;
use yieldcleat_client::{frames, PAGE_LEN};

/// The page of a record, and what it writes where.
type Written = (u16, Vec<(usize, Vec<u8>)>);

pub struct State {
    pub records: BTreeMap<u64, Written>,
    pub is_away: bool,
    /// Whether it refuses new connections as busy, and the number that it has refused.
    pub is_busy: bool,
    pub turned_away: usize,
    /// Whether its disk is full.
    pub is_full: bool,
    /// Each connection ends after so many frames.
    pub frames: Option<usize>,
    pub delay: Duration,
    pub stale: Option<u64>,
    pub generation: u64,
    pub birth: u64,
    pub is_member: bool,
    /// Whether another engine is quicker with each generation.
    pub is_overtaken: bool,
    /// Whether it goes away when it is to be fenced.
    pub leaves: bool,
    /// How long a front takes that comes in parts, as a long answer; zero for a short one at once.
    pub long_front: Duration,
    connections: Vec<UnixStream>,
}

impl Default for State {
    /// A member with nothing in it.
    fn default() -> State {
        State {
            records: BTreeMap::new(),
            is_away: false,
            is_busy: false,
            turned_away: 0,
            is_full: false,
            frames: None,
            delay: Duration::ZERO,
            stale: None,
            generation: 2,
            birth: 7,
            is_member: true,
            is_overtaken: false,
            leaves: false,
            long_front: Duration::ZERO,
            connections: Vec::new(),
        }
    }
}

pub struct Node {
    pub path: PathBuf,
    pub state: Arc<Mutex<State>>,
}

fn number(bytes: &[u8]) -> u64 {
    bytes.iter().fold(0, |number, byte| number << 8 | u64::from(*byte))
}

impl State {
    fn complete(&self) -> u64 {
        (1..).take_while(|number| self.records.contains_key(number)).last().unwrap_or(0)
    }

    /// Takes a record of plain writes.
    fn take(&mut self, fact: &[u8]) -> Vec<u8> {
        let (place, page) = (number(&fact[3..9]), number(&fact[15..17]) as u16);
        let (mut rest, mut writes) = (&fact[24..], Vec::new());
        for _ in 0..fact[23] {
            let (offset, length) = (number(&rest[..2]) as usize, number(&rest[2..4]) as usize);
            writes.push((offset, rest[4..4 + length].to_vec()));
            rest = &rest[4 + length..];
        }
        self.records.insert(place, (page, writes));
        b"changed".to_vec()
    }

    fn read(&self, numbers: &[u64]) -> Vec<u8> {
        let [page, point, offset, length] = [0, 1, 2, 3].map(|place| numbers[place] as usize);
        if point as u64 > self.complete() {
            return format!("above {}", self.complete()).into_bytes();
        }
        let mut image = vec![0; PAGE_LEN];
        for (_, writes) in self.records.range(..=point as u64).map(|it| it.1).filter(|it| usize::from(it.0) == page) {
            for (offset, bytes) in writes {
                image[*offset..*offset + bytes.len()].copy_from_slice(bytes);
            }
        }
        [b"page ", &image[offset..offset + length]].concat()
    }

    /// What the node says where it is no member, or serves another engine.
    fn refused(&self, is_served: bool) -> Option<String> {
        match (self.is_member, is_served) {
            (false, _) => Some(format!("fresh {}", self.birth)),
            (true, false) => Some(format!("stale {}", self.generation)),
            (true, true) => None,
        }
    }

    fn fence(&mut self, generation: u64) -> String {
        if self.is_overtaken && self.is_member {
            self.generation = self.generation.max(generation);
        }
        let refused = self.refused(generation > self.generation);
        refused.unwrap_or_else(|| {
            self.generation = generation;
            format!("fenced {generation} {}", self.birth)
        })
    }

    fn under(&mut self, heading: &[u64], request: &[u8]) -> Vec<u8> {
        match self.refused(heading == [self.generation, self.birth]) {
            Some(refused) => refused.into_bytes(),
            None => [format!("as {} {} ", self.generation, self.birth).as_bytes(), &self.answer(request)].concat(),
        }
    }

    fn admit(&mut self, numbers: &[u64]) -> String {
        if self.is_member || numbers[1] != self.birth {
            return if self.is_member { "member".into() } else { format!("stranger {}", self.birth) };
        }
        if self.complete() < numbers[3] {
            return format!("behind 0 {}", self.complete());
        }
        (self.is_member, self.generation) = (true, numbers[0]);
        format!("admitted {} {}", self.generation, self.birth)
    }

    fn answer(&mut self, request: &[u8]) -> Vec<u8> {
        if self.is_full {
            return b"disk full".to_vec();
        }
        if let Some(inside) = request.strip_prefix(b"many ") {
            let mut answers = Vec::new();
            for request in frames::inside(inside).unwrap() {
                frames::append(&mut answers, &[&self.answer(request)]).unwrap();
            }
            return answers;
        }
        if let Some(generation) = self.stale {
            return format!("stale {generation}").into_bytes();
        }
        if let Some(fact) = request.strip_prefix(b"take ") {
            return self.take(fact);
        }
        let words: Vec<_> = request.splitn(4, |byte| *byte == b' ').collect();
        let text = String::from_utf8_lossy(request).into_owned();
        let numbers: Vec<u64> = text.split(' ').skip(1).map_while(|word| word.parse().ok()).collect();
        match words[0] {
            b"as" => self.under(&numbers[..2], words[3]),
            b"front" => format!("front 0 {} 0", self.complete()).into_bytes(),
            b"status" => {
                let (generation, birth, is_member) = (self.generation, self.birth, u8::from(self.is_member));
                format!("status {generation} {birth} {is_member} 0 {} 0", self.complete()).into_bytes()
            }
            b"read" => self.read(&numbers),
            b"fence" => self.fence(numbers[0]).into_bytes(),
            b"admit" => self.admit(&numbers).into_bytes(),
            _ => b"bad request".to_vec(),
        }
    }

    fn leave(&mut self) {
        self.is_away = true;
        self.cut_off();
    }

    /// Its connections end.
    pub fn cut_off(&mut self) {
        self.connections.drain(..).for_each(|stream| drop(stream.shutdown(std::net::Shutdown::Both)));
    }
}

impl Node {
    pub fn start(folder: &Path, place: usize) -> Node {
        let node = Node { path: folder.join(format!("node{place}")), state: Arc::default() };
        let (listener, state) = (UnixListener::bind(&node.path).unwrap(), node.state.clone());
        thread::spawn(move || {
            for stream in listener.incoming() {
                let (stream, state) = (stream.unwrap(), state.clone());
                thread::spawn(move || serve(stream, &state));
            }
        });
        node
    }

    pub fn set(&self, change: impl FnOnce(&mut State)) {
        change(&mut self.state.lock().unwrap());
    }

    pub fn go_away(&self) {
        self.set(State::leave);
    }
}

/// Writes an answer with a million bytes behind it, over a time.
fn write_in_parts(stream: &mut UnixStream, mut answer: Vec<u8>, time: Duration) -> io::Result<()> {
    const PARTS: u32 = 16;
    answer.resize(1 << 20, b' ');
    let mut frame = Vec::new();
    frames::append(&mut frame, &[&answer])?;
    frame.chunks(frame.len().div_ceil(PARTS as usize)).try_for_each(|part| {
        thread::sleep(time / PARTS);
        stream.write_all(part)
    })
}

fn serve(mut stream: UnixStream, state: &Mutex<State>) {
    let most = {
        let mut state = state.lock().unwrap();
        if state.is_away {
            return;
        }
        if state.is_busy {
            state.turned_away += 1;
            return drop(frames::write(&mut stream, b"busy"));
        }
        state.connections.push(stream.try_clone().unwrap());
        state.frames.unwrap_or(usize::MAX)
    };
    let mut frame = Vec::new();
    for _ in 0..most {
        if !frames::read(&mut stream, &mut frame).unwrap_or(false) {
            return;
        }
        let delay = state.lock().unwrap().delay;
        thread::sleep(delay);
        let mut state = state.lock().unwrap();
        if state.leaves && frame.starts_with(b"fence ") {
            return state.leave();
        }
        let (answer, long_front) = (state.answer(&frame), state.long_front);
        drop(state);
        let is_sent = match frame == b"front" && !long_front.is_zero() {
            true => write_in_parts(&mut stream, answer, long_front),
            false => frames::write(&mut stream, &answer),
        };
        if is_sent.is_err() {
            return;
        }
    }
    let _ = stream.shutdown(std::net::Shutdown::Both);
}

//! Two processes with a segment in each. The first takes the even records of a log and its truncation, the second the odd records and an
//! advance; then they gossip over TCP on 127.0.0.1 until both send the same summary, byte for byte. They end with status 0 if the summaries
//! become equal and a page is that of a plain replay of the log.

use std::io::BufReader;
use std::net::{Shutdown, TcpListener, TcpStream};
use std::process::Command;
use std::time::Duration;
use std::{env, process};
use yieldcleat::frames::{self, Next};
use yieldcleat::{Advance, Calls, Node, Patch, Record, Truncation, PAGE_LEN};

type Failed = Box<dyn std::error::Error>;

/// The number of records of epoch 0. The last two are annulled, and epoch 1 continues after `LO`.
const LAST: u64 = 1000;
const LO: u64 = LAST - 2;
const HI: u64 = LAST + 10;
const ROUNDS: u32 = 5;
/// How long a peer may send nothing, or read nothing.
const PATIENCE: Duration = Duration::from_secs(30);

/// Returns what a record writes to page 3, and at which offset.
fn written(number: u64) -> (u16, [u8; 2]) {
    ((number % 64) as u16 * 2, (number as u16).to_be_bytes())
}

/// Returns record `number` of one chain, all of one page.
fn record(epoch: u16, number: u64, back: u64) -> Record {
    let (offset, bytes) = written(number);
    Record { epoch, number, back, page: 3, block_back: back, begins_anew: false, patches: vec![Patch::write(offset, &bytes)] }
}

/// Returns the log, which is divided between the nodes.
fn log() -> Result<Vec<Vec<u8>>, Failed> {
    let mut log: Vec<_> = (1..=LAST).map(|number| record(0, number, number - 1).encode()).collect::<Result<_, _>>()?;
    log.push(Advance { epoch: 0, reader: 1, point: LAST / 2 }.encode()?);
    log.push(Truncation { epoch: 1, lo: LO, hi: HI }.encode()?);
    log.push(record(1, HI + 1, LO).encode()?);
    Ok(log)
}

/// Returns the page after the whole log.
fn page() -> Vec<u8> {
    let mut page = vec![0; PAGE_LEN];
    for number in (1..=LO).chain([HI + 1]) {
        let (offset, bytes) = written(number);
        page[usize::from(offset)..][..2].copy_from_slice(&bytes);
    }
    page
}

/// A peer, over a connection.
struct Peer {
    reader: BufReader<TcpStream>,
    frame: Vec<u8>,
}

impl Peer {
    fn new(stream: TcpStream) -> Result<Peer, Failed> {
        stream.set_read_timeout(Some(PATIENCE))?;
        stream.set_write_timeout(Some(PATIENCE))?;
        stream.set_nodelay(true)?;
        Ok(Peer { reader: BufReader::new(stream), frame: Vec::new() })
    }

    /// Sends a frame and receives one at the same time: if both peers sent first, frames that exceed the buffers of the connection would
    /// block both.
    fn exchange(&mut self, told: &[u8]) -> Result<Vec<u8>, Failed> {
        let mut writer = self.reader.get_ref().try_clone()?;
        std::thread::scope(|scope| {
            let sender = scope.spawn(move || frames::write(&mut writer, told));
            let next = frames::read_within(&mut self.reader, &mut self.frame, frames::LONGEST);
            if !matches!(next, Ok(Next::Frame)) {
                // This ends the sender. An error means that the connection has ended already.
                let _ = self.reader.get_ref().shutdown(Shutdown::Both);
            }
            let sent = sender.join().map_err(|_| "the sender failed")?;
            match next? {
                Next::Frame => sent.map(|()| self.frame.clone()).map_err(Failed::from),
                Next::TooLong(_) => Err("the frame is too long".into()),
                Next::End => Err("the peer has left".into()),
            }
        })
    }
}

/// Exchanges summaries and deltas until both summaries are equal, and returns the number of rounds.
fn gossip(node: &mut Node, peer: &mut Peer) -> Result<u32, Failed> {
    for round in 0..ROUNDS {
        let own = node.summary()?;
        let theirs = peer.exchange(&own)?;
        if own == theirs {
            return Ok(round);
        }
        let delta = peer.exchange(&node.reply(&theirs)?)?;
        node.absorb(&own, &delta)?;
    }
    Err("the summaries still differ".into())
}

fn run(name: &str, parity: usize, mut peer: Peer) -> Result<(), Failed> {
    let mut node = Node::open(1)?;
    let log = log()?;
    let own = log.iter().enumerate().rev().filter(|(place, _)| place % 2 == parity).map(|(_, fact)| fact.as_slice());
    for taken in node.take_all(own)? {
        taken?;
    }
    println!("{name} alone: {:?}", node.front()?);
    let rounds = gossip(&mut node, &mut peer)?;
    node.tidy()?;
    let front = node.front()?;
    println!("{name} after {rounds} round: {front:?}");
    if (front.epoch, front.complete) != (1, HI + 1) || node.read(3, front.complete, 0, 4096)? != page() {
        return Err(format!("{name} differs from the log").into());
    }
    println!("{name}: the page is that of a plain replay");
    Ok(())
}

fn main() -> Result<(), Failed> {
    let mut words = env::args().skip(1);
    if let Some(address) = words.next() {
        return run("second", 1, Peer::new(TcpStream::connect(address)?)?);
    }
    let listener = TcpListener::bind("127.0.0.1:0")?;
    let mut second = Command::new(env::current_exe()?).arg(listener.local_addr()?.to_string()).spawn()?;
    let peer = Peer::new(listener.accept()?.0)?;
    run("first", 0, peer)?;
    process::exit(second.wait()?.code().unwrap_or(1))
}

//! A node that survives crashes. The child is a server over a `Store`: the changes of a request are on the disk before it is answered, and
//! from time to time a snapshot replaces the log. Its parent acts as the database and kills it at random moments. Each time a new child
//! restores the node from the folder, and the parent checks that nothing that was acknowledged is lost. The parent ends with status 0 if
//! nothing is lost and, at the end, each page is that of a plain replay of the log.
//!
//!     durable [SEED]            the parent, with the files in a new folder of the system's temporary folder
//!     durable --forgetful       the same with a child that stores nothing, so that records are lost: status 1
//!     durable serve FOLDER      the child: request frames on standard input, answer frames on standard output

use std::collections::hash_map::RandomState;
use std::fs;
use std::hash::{BuildHasher, Hasher};
use std::io::{self, BufReader, Read, Write};
use std::path::Path;
use std::process::{Child, ChildStdin, ChildStdout, Command, Stdio};
use std::time::Duration;
use std::{env, thread};
use yieldcleat::frames::{self, Next};
use yieldcleat::{requests, Advance, Calls, Home, Node, Patch, Record, Store, StoreError, PAGE_LEN};

type Failed = Box<dyn std::error::Error>;

// What the child does

/// The number of requests that the log has at least before a snapshot replaces it.
const CHECKPOINT: u64 = 100;

/// Reads the next request and those that have arrived whole after it. A request that is too long is `None`; the batch is empty at the end
/// of the input.
fn batch(input: &mut BufReader<impl Read>) -> io::Result<Vec<Option<Vec<u8>>>> {
    let (mut batch, mut request) = (Vec::new(), Vec::new());
    while batch.is_empty() || frames::is_whole(input.buffer()) {
        match frames::read_within(input, &mut request, frames::LONGEST)? {
            Next::Frame => batch.push(Some(request.clone())),
            Next::TooLong(length) => {
                frames::skip(input, length)?;
                batch.push(None);
            }
            Next::End => break,
        }
    }
    Ok(batch)
}

/// Answers the requests of its input on its output, a batch at a time.
fn serve(mut answers_to: impl FnMut(&[&Vec<u8>]) -> Result<Vec<Vec<u8>>, StoreError>) -> Result<(), Failed> {
    let (mut input, mut output) = (BufReader::new(io::stdin()), io::stdout());
    loop {
        let batch = batch(&mut input)?;
        if batch.is_empty() {
            return Ok(());
        }
        let asked: Vec<_> = batch.iter().flatten().collect();
        let (mut answers, mut bytes) = (answers_to(&asked)?.into_iter(), Vec::new());
        for request in &batch {
            let answer = request.as_ref().and_then(|_| answers.next()).unwrap_or_else(|| b"long frame".to_vec());
            frames::append(&mut bytes, &[&answer])?;
        }
        output.write_all(&bytes)?;
        output.flush()?;
    }
}

/// Serves a node that its folder restores.
fn serve_durably(folder: &Path) -> Result<(), Failed> {
    let home = Home::open(folder)?;
    let node = Node::open_as(1, home.birth())?;
    let (mut store, recovery) = Store::open_in(home, node, 1)?;
    if recovery.torn > 0 {
        eprintln!("durable: cut off {} bytes of a request that had no answer", recovery.torn);
    }
    let mut until = CHECKPOINT;
    serve(|batch| {
        if store.logged() >= until {
            // The log continues without a snapshot: the disk may be full for now.
            store.checkpoint().unwrap_or_else(|error| eprintln!("durable: no checkpoint: {error}"));
            // After a checkpoint the log has the staging, if there is one: it doubles before it is written again.
            until = 2 * store.logged() + CHECKPOINT;
        }
        store.answer(batch)
    })
}

/// Serves a node that loses everything when it is killed.
fn serve_forgetfully() -> Result<(), Failed> {
    let mut node = Node::open(1)?;
    serve(|batch| batch.iter().map(|request| Ok(node.ask(request)?.to_vec())).collect())
}

// What the parent does

const RECORDS: u64 = 2000;
const PAGES: u64 = 8;
const KILLS: u64 = 6;
/// The number of records that the parent sends before it reads an answer.
const WINDOW: u64 = 16;

/// Returns what a record writes to its page, and at which offset.
fn written(number: u64) -> (u16, [u8; 2]) {
    ((number % 100) as u16 * 2, (number as u16).to_be_bytes())
}

/// Returns record `number` of one chain; every 50th one is followed by an advance.
fn facts(number: u64) -> Result<Vec<Vec<u8>>, Failed> {
    let (offset, bytes) = written(number);
    let (page, block_back) = ((number % PAGES) as u16, number.saturating_sub(PAGES));
    let patches = vec![Patch::write(offset, &bytes)];
    let record = Record { epoch: 0, number, back: number - 1, page, block_back, begins_anew: false, patches };
    let advance = Advance { epoch: 0, reader: 1, point: number / 2 };
    Ok(if number.is_multiple_of(50) { vec![record.encode()?, advance.encode()?] } else { vec![record.encode()?] })
}

/// Returns a page after all records.
fn page(page: u64) -> Vec<u8> {
    let mut image = vec![0; PAGE_LEN];
    for (offset, bytes) in (1..=RECORDS).filter(|number| number % PAGES == page).map(written) {
        image[usize::from(offset)..][..2].copy_from_slice(&bytes);
    }
    image
}

/// A child, and its pipes.
struct Server {
    child: Child,
    input: ChildStdin,
    output: BufReader<ChildStdout>,
    answer: Vec<u8>,
}

impl Server {
    fn start(folder: &Path, word: &str) -> Result<Server, Failed> {
        let mut command = Command::new(env::current_exe()?);
        let mut child = command.arg(word).arg(folder).stdin(Stdio::piped()).stdout(Stdio::piped()).spawn()?;
        let (input, output) = (child.stdin.take().ok_or("no pipe")?, child.stdout.take().ok_or("no pipe")?);
        Ok(Server { child, input, output: BufReader::new(output), answer: Vec::new() })
    }

    fn answer(&mut self) -> Result<&[u8], Failed> {
        if frames::read(&mut self.output, &mut self.answer)? {
            Ok(&self.answer)
        } else {
            Err("the child has ended".into())
        }
    }

    fn ask(&mut self, request: &str) -> Result<&[u8], Failed> {
        frames::write(&mut self.input, request.as_bytes())?;
        self.answer()
    }

    fn send(&mut self, number: u64) -> Result<u64, Failed> {
        let facts = facts(number)?;
        for fact in &facts {
            frames::write(&mut self.input, &requests::take(fact))?;
        }
        Ok(facts.len() as u64)
    }

    /// Sends the records after the last acknowledged one, several at a time, until record `until` is acknowledged. The front alone
    /// acknowledges them: `unchanged` answers both a repeat and a dead record.
    fn take(&mut self, mut last: u64, until: u64) -> Result<u64, Failed> {
        while last < until {
            let mut sent = 0;
            for number in last + 1..=until.min(last + WINDOW) {
                sent += self.send(number)?;
            }
            frames::write(&mut self.input, b"front")?;
            for _ in 0..sent {
                match self.answer()? {
                    b"changed" | b"unchanged" => {}
                    other => return Err(String::from_utf8_lossy(other).into()),
                }
            }
            let complete = complete(self.answer()?)?;
            if complete <= last {
                return Err(format!("record {} was acknowledged and is missing", last + 1).into());
            }
            last = complete;
        }
        Ok(last)
    }
}

/// Returns the complete point of a front.
fn complete(front: &[u8]) -> Result<u64, Failed> {
    let front = std::str::from_utf8(front)?;
    let point = front.strip_prefix("front ").and_then(|rest| rest.split(' ').nth(1));
    Ok(point.ok_or("no front")?.parse()?)
}

/// A generator of random numbers below a bound, by Sebastiano Vigna's splitmix64.
struct Random(u64);

impl Random {
    fn below(&mut self, bound: u64) -> u64 {
        self.0 = self.0.wrapping_add(0x9e37_79b9_7f4a_7c15);
        let mixed = (self.0 ^ self.0 >> 30).wrapping_mul(0xbf58_476d_1ce4_e5b9);
        let mixed = (mixed ^ mixed >> 27).wrapping_mul(0x94d0_49bb_1331_11eb);
        (mixed ^ mixed >> 31) % bound
    }
}

/// Kills a child at a random moment, while it has requests to answer.
fn kill(mut server: Server, last: u64, random: &mut Random) -> Result<(), Failed> {
    for number in last + 1..=RECORDS.min(last + WINDOW) {
        server.send(number)?;
    }
    thread::sleep(Duration::from_micros(random.below(3000)));
    server.child.kill()?;
    server.child.wait()?;
    Ok(())
}

fn run(folder: &Path, word: &str, random: &mut Random) -> Result<(), Failed> {
    let mut last = 0;
    for place in 0..=KILLS {
        let mut server = Server::start(folder, word)?;
        let complete = complete(server.ask("front")?)?;
        println!("start {place}: {last} acknowledged, {complete} there");
        if complete < last {
            return Err(format!("{} acknowledged records are lost", last - complete).into());
        }
        if place == KILLS {
            server.take(last, RECORDS)?;
            return judge(server);
        }
        let until = last + 1 + random.below((RECORDS - last) / (KILLS - place));
        last = server.take(last, until)?;
        kill(server, last, random)?;
    }
    Ok(())
}

/// Checks each page at the complete point, and ends the child.
fn judge(mut server: Server) -> Result<(), Failed> {
    for number in 0..PAGES {
        let answer = server.ask(&format!("read {number} {RECORDS} 0 4096"))?;
        if answer.strip_prefix(b"page ") != Some(&page(number)) {
            return Err(format!("page {number} differs").into());
        }
    }
    drop(server.input);
    if !server.child.wait()?.success() {
        return Err("the child ended with an error".into());
    }
    println!("{RECORDS} records, {KILLS} kills: nothing that was acknowledged is lost, and each page is that of a plain replay");
    Ok(())
}

fn main() -> Result<(), Failed> {
    let words: Vec<String> = env::args().skip(1).collect();
    match words.iter().map(String::as_str).collect::<Vec<_>>()[..] {
        ["serve", folder] => return serve_durably(Path::new(folder)),
        ["forget", _] => return serve_forgetfully(),
        _ => {}
    }
    let is_forgetful = words.iter().any(|word| word == "--forgetful");
    let seed = words.iter().find_map(|word| word.parse().ok()).unwrap_or_else(|| RandomState::new().build_hasher().finish());
    let folder = env::temp_dir().join(format!("yieldcleat-{}-{seed}", std::process::id()));
    fs::create_dir(&folder)?;
    println!("seed {seed}");
    let ended = run(&folder, if is_forgetful { "forget" } else { "serve" }, &mut Random(seed));
    fs::remove_dir_all(&folder)?;
    ended
}

//! The server of `src/bin/durable.rs` from outside: it is killed, its files are damaged, and what it had acknowledged is there or it says
//! why not.

use std::fs;
use std::io::{BufReader, Read};
use std::os::unix::fs::symlink;
use std::path::{Path, PathBuf};
use std::process::{Child, ChildStdin, ChildStdout, Command, Stdio};
use yieldcleat::{frames, requests, Advance, Calls, Node, Patch, Record};

/// A folder for the files of a server, which goes with the test.
struct Folder(PathBuf);

impl Folder {
    fn new(name: &str) -> Folder {
        let path = std::env::temp_dir().join(format!("yieldcleat-{}-{name}", std::process::id()));
        let _ = fs::remove_dir_all(&path);
        fs::create_dir(&path).unwrap();
        Folder(path)
    }

    /// Its file whose name begins so.
    fn file(&self, names: &[&str]) -> PathBuf {
        let files: Vec<_> = fs::read_dir(&self.0).unwrap().map(|entry| entry.unwrap().path()).collect();
        let is_named = |path: &&PathBuf| names.iter().any(|name| path.file_name().unwrap().to_string_lossy().starts_with(name));
        let found: Vec<_> = files.iter().filter(is_named).collect();
        assert_eq!(found.len(), 1, "{files:?}");
        found[0].clone()
    }

    fn log(&self) -> PathBuf {
        self.file(&["log.", "tail"])
    }

    fn snapshot(&self) -> PathBuf {
        self.file(&["snapshot"])
    }
}

impl Drop for Folder {
    fn drop(&mut self) {
        let _ = fs::remove_dir_all(&self.0);
    }
}

struct Server {
    child: Child,
    input: ChildStdin,
    output: BufReader<ChildStdout>,
}

impl Server {
    fn start(folder: &Path) -> Server {
        let mut command = Command::new(env!("CARGO_BIN_EXE_durable"));
        command.arg("serve").arg(folder).stdin(Stdio::piped()).stdout(Stdio::piped()).stderr(Stdio::piped());
        let mut child = command.spawn().unwrap();
        let (input, output) = (child.stdin.take().unwrap(), BufReader::new(child.stdout.take().unwrap()));
        Server { child, input, output }
    }

    /// The answer, if the server gives one before it ends.
    fn try_ask(&mut self, request: &[u8]) -> Option<Vec<u8>> {
        let mut answer = Vec::new();
        frames::write(&mut self.input, request).ok()?;
        frames::read(&mut self.output, &mut answer).unwrap().then_some(answer)
    }

    fn ask(&mut self, request: impl AsRef<[u8]>) -> Vec<u8> {
        self.try_ask(request.as_ref()).expect("an answer")
    }

    fn expect(&mut self, request: impl AsRef<[u8]>, answer: &str) {
        assert_eq!(String::from_utf8_lossy(&self.ask(request)), answer);
    }

    fn take_all(&mut self, numbers: impl IntoIterator<Item = u64>) {
        numbers.into_iter().for_each(|number| self.expect(requests::take(&record(number)), "changed"));
    }

    fn kill(self) {}

    /// Asserts that the server has not come up, with a reason; which one.
    fn refused(mut self) -> String {
        assert_eq!(self.try_ask(b"front").map(|answer| String::from_utf8_lossy(&answer).into_owned()), None);
        let mut said = String::new();
        self.child.stderr.take().unwrap().read_to_string(&mut said).unwrap();
        assert_eq!(self.child.wait().unwrap().code(), Some(1), "{said}");
        assert!(!said.contains("panicked"), "{said}");
        said
    }
}

/// A kill at any moment is an end like another one.
impl Drop for Server {
    fn drop(&mut self) {
        let _ = self.child.kill();
        let _ = self.child.wait();
    }
}

/// Record `number` of one chain over four pages, writing its number's last byte.
fn record(number: u64) -> Vec<u8> {
    let patches = vec![Patch::write(number as u16 % 16, &[number as u8])];
    let (page, block_back) = ((number % 4) as u16, number.saturating_sub(4));
    Record { epoch: 0, number, back: number - 1, page, block_back, begins_anew: false, patches }.encode().unwrap()
}

fn many(asked: &[Vec<u8>]) -> Vec<u8> {
    requests::many(asked.iter().map(Vec::as_slice)).unwrap()
}

fn takes(numbers: std::ops::RangeInclusive<u64>) -> Vec<Vec<u8>> {
    numbers.map(|number| requests::take(&record(number))).collect()
}

/// Another node with these records.
fn other(last: u64) -> Node {
    let mut node = Node::open(1).unwrap();
    takes(1..=last).iter().for_each(|request| assert_eq!(node.ask(request).unwrap(), b"changed"));
    node
}

/// The requests that bring a snapshot of another node.
fn staged(node: &mut Node, name: u64) -> Vec<Vec<u8>> {
    let total = node.freeze(name).unwrap();
    let adds = (0..total).map(|index| requests::add(&node.piece(index).unwrap()));
    [requests::stage(name, total)].into_iter().chain(adds).collect()
}

/// What was there before a kill is there behind it, and the kill comes once more.
fn comes_back(name: &str, asked: &[Vec<u8>], front: &str) {
    let folder = Folder::new(name);
    let mut server = Server::start(&folder.0);
    asked.iter().for_each(|request| drop(server.ask(request)));
    server.expect("front", front);
    for _ in 0..2 {
        let summary = server.ask("ask");
        server.kill();
        server = Server::start(&folder.0);
        server.expect("front", front);
        assert_eq!(server.ask("ask"), summary);
    }
}

#[test]
fn takes_in_one_request_come_back() {
    comes_back("many", &[many(&takes(1..=9)), many(&takes(8..=20))], "front 0 20 0");
}

#[test]
fn absorbed_deltas_come_back() {
    let (mut from, mut empty) = (other(30), Node::open(1).unwrap());
    let summary = empty.summary().unwrap();
    let delta = from.reply(&summary).unwrap();
    comes_back("absorb", &[requests::absorb(&summary, &delta)], "front 0 30 0");
    comes_back("absorb-in-many", &[many(&[requests::absorb(&summary, &delta), b"front".to_vec()])], "front 0 30 0");
}

#[test]
fn a_roster_comes_back() {
    let advance = |reader| requests::take(&Advance { epoch: 0, reader, point: 3 }.encode().unwrap());
    comes_back("open", &[takes(1..=5), vec![requests::open(3)], takes(1..=6), vec![advance(1), advance(2)]].concat(), "front 0 6 0");
    let folder = Folder::new("open-again");
    let mut server = Server::start(&folder.0);
    server.expect(requests::open(3), "opened");
    server.kill();
    Server::start(&folder.0).expect(advance(3), "changed");
}

#[test]
fn a_restored_snapshot_comes_back() {
    let asked = [takes(7..=7), staged(&mut other(100), 5), vec![requests::finish()]].concat();
    comes_back("finish", &asked, "front 0 100 0");
}

/// A union loses nothing of what was there, and leaves no staging.
#[test]
fn a_union_comes_back() {
    let asked = [takes(101..=110), staged(&mut other(100), 5), vec![requests::unite()], takes(111..=111)].concat();
    comes_back("unite", &asked, "front 0 111 0");
    let folder = Folder::new("unite-again");
    let mut server = Server::start(&folder.0);
    asked.iter().for_each(|request| drop(server.ask(request)));
    server.take_all(112..=240);
    let _ = folder.snapshot();
    server.kill();
    let mut server = Server::start(&folder.0);
    server.expect("front", "front 0 240 0");
    server.expect("unite", "no staging");
}

#[test]
fn a_staging_comes_back() {
    let (folder, asked) = (Folder::new("staging"), staged(&mut other(300), 5));
    let mut server = Server::start(&folder.0);
    asked[..3].iter().for_each(|request| drop(server.ask(request)));
    server.kill();
    let mut server = Server::start(&folder.0);
    server.expect(&asked[2], "double 1");
    asked[3..].iter().for_each(|request| server.expect(request, "added"));
    server.expect("finish", "restored");
    server.expect("front", "front 0 300 0");
}

/// A snapshot takes the place of the log while a staging is filled.
#[test]
fn a_staging_outlives_a_checkpoint() {
    let (folder, asked) = (Folder::new("carried"), staged(&mut other(900), 5));
    let mut server = Server::start(&folder.0);
    server.expect(requests::stage(4, 2), "staged");
    asked[..3].iter().for_each(|request| drop(server.ask(request)));
    for first in [1, 200, 500] {
        server.take_all(first..first + 130);
    }
    let _ = folder.snapshot();
    server.kill();
    let mut server = Server::start(&folder.0);
    asked[3..].iter().for_each(|request| server.expect(request, "added"));
    server.expect("finish", "restored");
    server.expect("front", "front 0 900 0");
}

#[test]
fn what_is_refused_is_not_kept() {
    let folder = Folder::new("refused");
    let mut server = Server::start(&folder.0);
    server.take_all(1..=3);
    let length = fs::metadata(folder.log()).unwrap().len();
    let second = Advance { epoch: 0, reader: 2, point: 1 }.encode().unwrap();
    server.expect(requests::take(&second), "refused by roster 1 2");
    server.expect(requests::take(&record(2)), "unchanged");
    server.expect(requests::take(b"\x99"), "wire 2");
    server.expect("finish", "no staging");
    server.expect("tidy", "tidied");
    server.expect("wipe", "bad request");
    assert_eq!(fs::metadata(folder.log()).unwrap().len(), length);
    let nested = many(&[many(&takes(4..=4)), b"front".to_vec()]);
    assert_eq!(server.ask(nested), b"\0\0\0\x0bbad request\0\0\0\x0bfront 0 3 0");
    server.kill();
    Server::start(&folder.0).expect("front", "front 0 3 0");
}

/// `unchanged` comes also for a record that is dead, which no page will show: the front alone acknowledges a record.
#[test]
fn a_dead_record_is_no_acknowledgement() {
    let folder = Folder::new("dead");
    let mut server = Server::start(&folder.0);
    server.take_all(1..=3);
    let truncation = yieldcleat::Truncation { epoch: 1, lo: 3, hi: 10 }.encode().unwrap();
    server.expect(requests::take(&truncation), "changed");
    server.expect(requests::take(&record(4)), "unchanged");
    server.expect("front", "front 1 3 0");
}

/// A server with a snapshot of 40 records and a log behind it.
fn with_snapshot(name: &str) -> Folder {
    let folder = Folder::new(name);
    let mut server = Server::start(&folder.0);
    server.take_all(1..=103);
    let _ = folder.snapshot();
    server.kill();
    Server::start(&folder.0).expect("front", "front 0 103 0");
    folder
}

#[test]
fn a_damaged_snapshot_is_refused_and_stays() {
    let folder = with_snapshot("damaged-snapshot");
    let (path, whole) = (folder.snapshot(), fs::read(folder.snapshot()).unwrap());
    for at in (0..whole.len()).step_by(whole.len() / 23) {
        let mut bytes = whole.clone();
        bytes[at] ^= 0x55;
        fs::write(&path, &bytes).unwrap();
        let said = Server::start(&folder.0).refused();
        assert!(said.contains("Damaged"), "byte {at}: {said}");
        assert_eq!(fs::read(&path).unwrap(), bytes);
    }
    for length in [0, 1, 40, whole.len() / 2, whole.len() - 1] {
        fs::write(&path, &whole[..length]).unwrap();
        Server::start(&folder.0).refused();
        assert_eq!(fs::read(&path).unwrap(), whole[..length]);
    }
    fs::write(&path, [&whole[..], &whole[whole.len() - 10..]].concat()).unwrap();
    Server::start(&folder.0).refused();
    fs::write(&path, &whole).unwrap();
    Server::start(&folder.0).expect("front", "front 0 103 0");
}

/// Only a folder without files is a new one.
#[test]
fn a_file_that_does_not_open_is_not_missing() {
    let folder = with_snapshot("unreadable");
    for path in [folder.snapshot(), folder.log()] {
        let aside = folder.0.join("aside");
        fs::rename(&path, &aside).unwrap();
        symlink(&path, &path).unwrap();
        assert!(Server::start(&folder.0).refused().contains("Io"));
        fs::remove_file(&path).unwrap();
        let said = Server::start(&folder.0).refused();
        assert!(said.contains("Missing"), "{said}");
        fs::rename(&aside, &path).unwrap();
        Server::start(&folder.0).expect("front", "front 0 103 0");
    }
}

#[test]
fn a_damaged_log_is_refused_and_stays() {
    let folder = Folder::new("damaged-log");
    let mut server = Server::start(&folder.0);
    server.take_all(1..=40);
    server.kill();
    let (path, whole) = (folder.log(), fs::read(folder.log()).unwrap());
    for at in (0..whole.len() - 100).step_by(whole.len() / 17) {
        let mut bytes = whole.clone();
        bytes[at] ^= 1;
        fs::write(&path, &bytes).unwrap();
        assert!(Server::start(&folder.0).refused().contains("Damaged"), "byte {at}");
        assert_eq!(fs::read(&path).unwrap(), bytes);
    }
}

/// After a power loss the file may have its length and not yet its last bytes: those are zeros then.
#[test]
fn an_end_of_zeros_is_no_request() {
    let folder = Folder::new("zeros");
    let mut server = Server::start(&folder.0);
    server.take_all(1..=3);
    server.kill();
    let (path, whole) = (folder.log(), fs::read(folder.log()).unwrap());
    for count in [1, 2, 10] {
        let mut bytes = whole.clone();
        let length = bytes.len();
        bytes[length - count..].fill(0);
        fs::write(&path, &bytes).unwrap();
        let mut server = Server::start(&folder.0);
        server.expect("front", "front 0 2 0");
        // Nothing of it is left, so that the record comes as it was.
        server.take_all(3..=3);
        server.kill();
        let mut server = Server::start(&folder.0);
        server.expect("front", "front 0 3 0");
        server.kill();
        fs::write(&path, &whole).unwrap();
    }
}

#[test]
fn a_torn_end_is_cut_off() {
    let folder = Folder::new("torn");
    let mut server = Server::start(&folder.0);
    server.take_all(1..=3);
    server.kill();
    let (path, whole) = (folder.log(), fs::read(folder.log()).unwrap());
    for cut in [1, 20, 40] {
        fs::write(&path, &whole[..whole.len() - cut]).unwrap();
        let mut server = Server::start(&folder.0);
        server.take_all(3..=4);
        server.kill();
        Server::start(&folder.0).expect("front", "front 0 4 0");
    }
}

#[test]
fn one_server_has_a_folder() {
    let folder = Folder::new("locked");
    let mut server = Server::start(&folder.0);
    server.take_all(1..=1);
    assert!(Server::start(&folder.0).refused().contains("Locked"));
    server.kill();
    Server::start(&folder.0).expect("front", "front 0 1 0");
}

/// The server's own snapshots do not come for those of a client, whose pieces would be of two snapshots then.
#[test]
fn pieces_are_of_one_snapshot() {
    let folder = Folder::new("pieces");
    let mut server = Server::start(&folder.0);
    server.take_all(1..=90);
    assert!(server.ask("freeze 77").starts_with(b"frozen "));
    assert!(server.ask("piece 0").starts_with(b"piece "));
    server.take_all(91..=250);
    let _ = folder.snapshot();
    server.expect("piece 0", "no snapshot");
    assert_eq!(server.ask(many(&[b"piece 0".to_vec(), b"piece x".to_vec()])), b"\0\0\0\x0bno snapshot\0\0\0\x0bbad request");
    assert!(server.ask("freeze 78").starts_with(b"frozen "));
    assert!(server.ask("piece 0").starts_with(b"piece \x12\0\0\0\0\0\0\0\x4e"));
}

/// A frame that no segment reads is answered so, and what follows is served.
#[test]
fn a_long_frame_is_dropped() {
    let folder = Folder::new("long");
    let mut server = Server::start(&folder.0);
    server.expect(vec![b'x'; (1 << 26) + 1], "long frame");
    server.take_all(1..=1);
}

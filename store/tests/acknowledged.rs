//! What a client of the built server may take for an acknowledgement.

use std::fs;
use std::path::PathBuf;
use std::process::{Child, Command, Stdio};
use std::thread;
use std::time::{Duration, Instant};
use yieldcleat_client::{Advance, Calls, Connection, Error, Limits, Patch, Record, Taken, Truncation};

/// A server in a folder of its own, which goes with it.
struct Server {
    child: Child,
    folder: PathBuf,
}

impl Server {
    fn start(name: &str) -> Server {
        let folder = std::env::temp_dir().join(format!("yieldcleat-store-{}-{name}", std::process::id()));
        let _ = fs::remove_dir_all(&folder);
        fs::create_dir(&folder).unwrap();
        let mut command = Command::new(env!("CARGO_BIN_EXE_yieldcleat-store"));
        command.arg("--data").arg(folder.join("data")).arg("--listen").arg(format!("unix:{}", folder.join("node").display()));
        let child = command.args(["--connections", "1"]).stderr(Stdio::null()).spawn().unwrap();
        Server { child, folder }
    }

    fn connect(&self) -> Connection {
        let address = format!("unix:{}", self.folder.join("node").display()).parse().unwrap();
        let end = Instant::now() + Duration::from_secs(30);
        loop {
            match Connection::open(&address, Limits::default()) {
                Ok(connection) => return connection,
                Err(error) if Instant::now() > end => panic!("{error}"),
                Err(_) => thread::sleep(Duration::from_millis(10)),
            }
        }
    }
}

impl Drop for Server {
    fn drop(&mut self) {
        let _ = self.child.kill();
        let _ = self.child.wait();
        let _ = fs::remove_dir_all(&self.folder);
    }
}

fn record(epoch: u16, number: u64, back: u64) -> Record {
    Record { epoch, number, back, page: 1, block_back: back, begins_anew: false, patches: vec![Patch::write(0, &[number as u8])] }
}

#[test]
fn the_front_alone_acknowledges() {
    let server = Server::start("front");
    let mut node = server.connect();
    for number in 1..=3 {
        let record = record(0, number, number - 1);
        assert_eq!(node.store([record.encode().unwrap().as_slice()], record.key()), Ok(true));
    }
    // A record after a gap has come, and is not acknowledged until the gap is closed.
    let (later, gap) = (record(0, 5, 4), record(0, 4, 3));
    assert_eq!(node.store([later.encode().unwrap().as_slice()], later.key()), Ok(false));
    assert_eq!(node.store([gap.encode().unwrap().as_slice()], later.key()), Ok(true));
    // A dead record, of an engine that does not know the truncation, is answered as a repeat is.
    node.take(&Truncation { epoch: 1, lo: 5, hi: 10 }.encode().unwrap()).unwrap();
    let dead = record(0, 6, 5);
    assert_eq!(node.take(&dead.encode().unwrap()), Ok(Taken::Unchanged));
    assert_eq!(node.store([dead.encode().unwrap().as_slice()], dead.key()), Ok(false));
    let alive = record(1, 11, 5);
    assert_eq!(node.store([alive.encode().unwrap().as_slice()], alive.key()), Ok(true));
}

#[test]
fn the_calls_of_a_client_go_over_a_connection() {
    let server = Server::start("calls");
    let mut node = server.connect();
    let facts: Vec<Vec<u8>> = (1..=1000).map(|number| record(0, number, number - 1).encode().unwrap()).collect();
    assert_eq!(node.store(facts.iter().map(Vec::as_slice), record(0, 1000, 999).key()), Ok(true));
    node.take(&Advance { epoch: 0, reader: 1, point: 500 }.encode().unwrap()).unwrap();
    assert_eq!(node.read(1, 1000, 0, 1), Ok(vec![1000u64 as u8]));
    assert_eq!(node.finish(), Err(Error::NotAllowed));
    let summary = node.summary().unwrap();
    assert_eq!(node.reply_within(&summary, 20), Err(Error::Large));
    assert!(node.reply(&summary).is_ok());
    let total = node.freeze(1 << 40).unwrap();
    assert!(node.piece(total - 1).is_ok());
    // One connection is the limit.
    assert_eq!(server.connect().receive(), Ok(&b"busy"[..]));
    assert_eq!(node.front().unwrap().complete, 1000);
}

//! A store over a node that lacks memory, or ends.

use std::fs;
use std::os::unix::net::UnixStream;
use std::path::PathBuf;
use std::thread;
use yieldcleat::{frames, requests, Calls, Error, Node, Patch, Record, Store, StoreError};

/// A node behind a stream that answers a request by `memory` each time that `lacks` says so of the number of requests so far.
fn lacking(mut lacks: impl FnMut(u64) -> bool + Send + 'static) -> Node {
    let (own, mut other) = UnixStream::pair().unwrap();
    thread::spawn(move || {
        let (mut node, mut frame, mut count) = (Node::open(1).unwrap(), Vec::new(), 0);
        let mut answer = |request: &[u8]| {
            count += 1;
            if lacks(count) {
                b"memory".to_vec()
            } else {
                node.ask(request).unwrap().to_vec()
            }
        };
        while frames::read(&mut other, &mut frame).unwrap() {
            let told = match frame.strip_prefix(b"many ").and_then(frames::inside) {
                Some(asked) => {
                    let mut told = Vec::new();
                    asked.into_iter().for_each(|request| frames::append(&mut told, &[&answer(request)]).unwrap());
                    told
                }
                None => answer(&frame),
            };
            frames::write(&mut other, &told).unwrap();
        }
    });
    Node::behind(own).unwrap()
}

/// Ends behind so many requests.
fn ending(most: u64) -> Node {
    let (own, mut other) = UnixStream::pair().unwrap();
    thread::spawn(move || {
        let (mut node, mut frame, mut count) = (Node::open(1).unwrap(), Vec::new(), 0);
        while count < most && frames::read(&mut other, &mut frame).unwrap() {
            frames::write(&mut other, node.ask(&frame).unwrap()).unwrap();
            count += 1;
        }
    });
    Node::behind(own).unwrap()
}

struct Folder(PathBuf);

impl Folder {
    fn new(name: &str) -> Folder {
        let path = std::env::temp_dir().join(format!("yieldcleat-store-{}-{name}", std::process::id()));
        let _ = fs::remove_dir_all(&path);
        Folder(path)
    }

    fn open(&self, node: Node) -> Result<Store, StoreError> {
        Store::open(&self.0, node, 1).map(|(store, _)| store)
    }

    fn names(&self) -> Vec<String> {
        let mut names: Vec<_> = fs::read_dir(&self.0).unwrap().map(|it| it.unwrap().file_name().into_string().unwrap()).collect();
        names.sort();
        names
    }
}

impl Drop for Folder {
    fn drop(&mut self) {
        let _ = fs::remove_dir_all(&self.0);
    }
}

fn takes(numbers: std::ops::RangeInclusive<u64>) -> Vec<Vec<u8>> {
    let record = |number: u64| Record {
        epoch: 0,
        number,
        back: number - 1,
        page: (number % 4) as u16,
        block_back: number.saturating_sub(4),
        begins_anew: false,
        patches: vec![Patch::write(0, &[number as u8])],
    };
    numbers.map(|number| requests::take(&record(number).encode().unwrap())).collect()
}

fn front(store: &mut Store) -> String {
    String::from_utf8(store.answer(&[b"front"]).unwrap().remove(0)).unwrap()
}

/// A node that lacks memory for any of the requests does not come back, and the files stay for one that has it.
#[test]
fn a_restore_insists_on_each_answer() {
    let folder = Folder::new("memory");
    let mut store = folder.open(Node::open(1).unwrap()).unwrap();
    store.answer(&takes(1..=300)).unwrap();
    store.checkpoint().unwrap();
    store.answer(&takes(301..=320)).unwrap();
    drop(store);
    let (store, recovery) = Store::open(&folder.0, lacking(|_| false), 1).unwrap();
    assert!(recovery.requests > 25 && recovery.torn == 0);
    drop(store);
    let files = || folder.names().iter().map(|name| fs::read(folder.0.join(name)).unwrap()).collect::<Vec<_>>();
    let kept = files();
    for refused in 1..=recovery.requests {
        match folder.open(lacking(move |count| count == refused)) {
            Err(StoreError::Unexpected { answer, .. }) => assert_eq!(answer, "memory"),
            other => panic!("request {refused}: {:?}", other.err()),
        }
        assert_eq!(files(), kept);
    }
    for most in 0..3 {
        assert!(matches!(folder.open(ending(most)), Err(StoreError::Node(Error::Stopped(_)))));
        assert_eq!(files(), kept);
    }
    assert_eq!(front(&mut folder.open(Node::open(1).unwrap()).unwrap()), "front 0 320 0");
}

/// A request that lacks memory is not kept, and comes again.
#[test]
fn what_lacks_memory_is_not_kept() {
    let folder = Folder::new("lacking");
    // The first request is `open`, of the log.
    let mut store = folder.open(lacking(|count| count == 3)).unwrap();
    let asked = takes(1..=3);
    assert_eq!(store.answer(&asked).unwrap(), [&b"changed"[..], b"memory", b"changed"]);
    assert_eq!(store.answer(&asked[1..]).unwrap(), [&b"changed"[..], b"unchanged"]);
    drop(store);
    let (mut store, recovery) = Store::open(&folder.0, Node::open(1).unwrap(), 1).unwrap();
    assert_eq!((front(&mut store), recovery.requests), ("front 0 3 0".into(), 4));
}

/// A store whose node has ended may have changes in it that the log lacks, so it answers nothing more.
#[test]
fn a_store_without_a_node_stops() {
    let folder = Folder::new("ending");
    let mut store = folder.open(ending(3)).unwrap();
    store.answer(&takes(1..=1)).unwrap();
    assert!(matches!(store.answer(&takes(2..=4)), Err(StoreError::Node(Error::Stopped(_)))));
    assert!(matches!(store.answer(&[b"front"]), Err(StoreError::Stopped)));
    assert!(matches!(store.checkpoint(), Err(StoreError::Stopped)));
    drop(store);
    assert_eq!(front(&mut folder.open(Node::open(1).unwrap()).unwrap()), "front 0 1 0");
}

/// Where no snapshot can be written the log goes on, and the next checkpoint may succeed.
#[test]
fn a_checkpoint_may_fail() {
    let folder = Folder::new("checkpoint");
    let mut store = folder.open(lacking(|count| count == 6)).unwrap();
    store.answer(&takes(1..=3)).unwrap();
    assert!(matches!(store.checkpoint(), Err(StoreError::Node(Error::Memory))));
    let obstacle = folder.0.join("snapshot.1.draft");
    let _ = fs::remove_file(&obstacle);
    fs::create_dir(&obstacle).unwrap();
    assert!(matches!(store.checkpoint(), Err(StoreError::Io { .. })));
    store.answer(&takes(4..=5)).unwrap();
    drop(store);
    // What the checkpoints have begun goes.
    let mut store = folder.open(Node::open(1).unwrap()).unwrap();
    assert_eq!((front(&mut store), folder.names()), ("front 0 5 0".into(), vec!["lock".into(), "log.0".into(), "snapshot.1.draft".into()]));
    fs::remove_dir(&obstacle).unwrap();
    for generation in 1..=3 {
        store.checkpoint().unwrap();
        assert_eq!(folder.names(), ["lock".to_string(), format!("log.{generation}"), format!("snapshot.{generation}")]);
        assert_eq!(store.logged(), 0);
    }
    store.answer(&takes(6..=6)).unwrap();
    drop(store);
    assert_eq!(front(&mut folder.open(Node::open(1).unwrap()).unwrap()), "front 0 6 0");
}

/// A failed rename leaves it unsure which generation the folder has.
#[test]
fn a_checkpoint_that_stops_the_store_says_so() {
    let folder = Folder::new("unsure");
    let mut store = folder.open(Node::open(1).unwrap()).unwrap();
    store.answer(&takes(1..=3)).unwrap();
    fs::create_dir_all(folder.0.join("snapshot.1/inside")).unwrap();
    assert!(matches!(store.checkpoint(), Err(StoreError::Io { .. })) && store.is_stopped());
    assert!(matches!(store.answer(&[b"front"]), Err(StoreError::Stopped)));
    drop(store);
    fs::remove_dir_all(folder.0.join("snapshot.1")).unwrap();
    assert_eq!(front(&mut folder.open(Node::open(1).unwrap()).unwrap()), "front 0 3 0");
}

/// The next log begins with a staging that is not at its end: so many bytes, also after a restart.
#[test]
fn the_bytes_of_a_staging_are_known() {
    let (folder, mut other) = (Folder::new("staged"), Node::open(1).unwrap());
    takes(1..=300).iter().for_each(|request| assert_eq!(other.ask(request).unwrap(), b"changed"));
    let total = other.freeze(7).unwrap();
    let adds = (0..total).map(|index| requests::add(&other.piece(index).unwrap()));
    let staged: Vec<_> = [requests::stage(7, total)].into_iter().chain(adds).collect();
    let mut store = folder.open(Node::open(1).unwrap()).unwrap();
    store.answer(&takes(1..=50)).unwrap();
    assert_eq!(store.activity().staging, 0);
    store.answer(&staged).unwrap();
    let staging = store.activity().staging;
    assert!(staging > staged.iter().map(|it| it.len() as u64).sum());
    store.checkpoint().unwrap();
    for _ in 0..2 {
        // The other bytes are those of the header.
        assert_eq!((store.activity().staging, store.activity().log), (staging, staging + 36));
        drop(store);
        store = folder.open(Node::open(1).unwrap()).unwrap();
    }
    assert_eq!(store.answer(&[requests::unite()]).unwrap(), [b"united"]);
    assert_eq!((store.activity().staging, front(&mut store)), (0, "front 0 300 0".into()));
}

/// Long answers are given in portions, and what was not asked has changed nothing.
#[test]
fn answers_end_where_they_are_enough() {
    let folder = Folder::new("portions");
    let mut store = folder.open(Node::open(1).unwrap()).unwrap();
    let asked = takes(1..=5);
    assert_eq!(store.answer_until(&asked, 20).unwrap(), [b"changed"; 3]);
    assert_eq!((front(&mut store), store.logged()), ("front 0 3 0".into(), 4));
    assert_eq!(store.answer_until(&asked[3..], 0).unwrap(), [b"changed"]);
    assert!(store.answer_until(&[] as &[&[u8]], 0).unwrap().is_empty());
}

/// A crash at any step of a checkpoint leaves a generation that is whole.
#[test]
fn a_crash_within_a_checkpoint() {
    let folder = Folder::new("steps");
    let mut store = folder.open(Node::open(1).unwrap()).unwrap();
    store.answer(&takes(1..=5)).unwrap();
    drop(store);
    let older = fs::read(folder.0.join("log.0")).unwrap();
    let mut store = folder.open(Node::open(1).unwrap()).unwrap();
    store.checkpoint().unwrap();
    drop(store);
    let (log, snapshot) = (fs::read(folder.0.join("log.1")).unwrap(), fs::read(folder.0.join("snapshot.1")).unwrap());
    let steps: [&[(&str, &[u8])]; 6] = [
        &[("log.0", &older), ("log.1.draft", &log[..9])],
        &[("log.0", &older), ("log.1", &log)],
        &[("log.0", &older), ("log.1", &log), ("snapshot.1.draft", &snapshot[..50])],
        &[("log.0", &older), ("log.1", &log), ("snapshot.1.draft", &snapshot)],
        &[("log.0", &older), ("log.1", &log), ("snapshot.1", &snapshot)],
        &[("log.1", &log), ("snapshot.1", &snapshot)],
    ];
    for step in steps {
        folder.names().iter().for_each(|name| fs::remove_file(folder.0.join(name)).unwrap());
        step.iter().for_each(|(name, bytes)| fs::write(folder.0.join(name), bytes).unwrap());
        let mut store = folder.open(Node::open(1).unwrap()).unwrap();
        assert_eq!(front(&mut store), "front 0 5 0");
        assert!(folder.names().iter().all(|name| !name.ends_with(".draft")), "{:?}", folder.names());
        store.answer(&takes(6..=6)).unwrap();
        store.checkpoint().unwrap();
        drop(store);
        assert_eq!(front(&mut folder.open(Node::open(1).unwrap()).unwrap()), "front 0 6 0");
    }
}

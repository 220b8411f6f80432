//! The driver over a machine that only counts fronts, and nodes that keep one chain of records: connections that break, nodes that are
//! away, slow or fenced. The proved machine has tests of its own; this one opens nothing again and recovers nothing.

mod counting;
mod nodes;
mod waiting;

use counting::Counting;
use nodes::{Node, State};
use std::path::PathBuf;
use std::sync::atomic::{AtomicU32, Ordering};
use std::time::{Duration, Instant};
use std::{env, fs, process, thread};
use waiting::until;
use yieldcleat_client::{Address, Limits, Patch};
use yieldcleat_volume::{Fault, Options, PageWrite, Quorum, Reader, Volume, VolumeError};

// A volume of three such nodes

struct Three {
    folder: PathBuf,
    nodes: Vec<Node>,
}

static PLACE: AtomicU32 = AtomicU32::new(0);

impl Three {
    fn new() -> Three {
        let folder = env::temp_dir().join(format!("yieldcleat-volume-{}-{}", process::id(), PLACE.fetch_add(1, Ordering::Relaxed)));
        let _ = fs::remove_dir_all(&folder);
        fs::create_dir(&folder).unwrap();
        let nodes = (0..3).map(|place| Node::start(&folder, place)).collect();
        Three { folder, nodes }
    }

    fn options(&self) -> Options {
        let nodes = self.nodes.iter().map(|node| Address::Unix(node.path.clone())).collect();
        Options {
            patience: Duration::from_secs(5),
            limits: Limits { answer: Duration::from_secs(2), ..Limits::default() },
            retry: Duration::from_millis(10),
            remind: Duration::from_millis(10),
            ..Options::new(nodes)
        }
    }

    fn open(&self, options: Options) -> Result<Volume, VolumeError> {
        Volume::open(Counting::of(3, 2), options)
    }
}

impl Drop for Three {
    fn drop(&mut self) {
        let _ = fs::remove_dir_all(&self.folder);
    }
}

/// What transaction `place` writes: eight bytes of page 1 or 2.
fn write(place: u64) -> Vec<PageWrite> {
    let patch = Patch::write(8 * (place % 100) as u16, &place.to_be_bytes());
    vec![PageWrite { page: 1 + (place % 2) as u16, init: false, patches: vec![patch] }]
}

fn of_three(have: usize) -> Quorum {
    Quorum { have, uncounted: 0, need: 2, nodes: 3 }
}

fn shows(volume: &Volume, place: u64, point: u64) -> bool {
    volume.read(1 + (place % 2) as u16, point, 8 * (place % 100) as u16, 8).unwrap() == place.to_be_bytes()
}

#[test]
fn commits_are_durable_and_read() {
    let three = Three::new();
    let volume = three.open(three.options()).unwrap();
    let points: Vec<_> = (1..=50).map(|place| volume.commit(write(place), Vec::new()).unwrap()).collect();
    assert_eq!(points, (1..=50).map(|place| 2 * place).collect::<Vec<_>>());
    assert!((1..=50).all(|place| shows(&volume, place, points[place as usize - 1])));
    let standing = volume.standing().unwrap();
    assert_eq!((standing.durable, standing.committed), (100, 100));
    assert_eq!(volume.advance(1, 101), Err(VolumeError::Refused(Fault::Ahead { durable: 100 })));
    assert_eq!(volume.advance(1, 100), Ok(()));
}

#[test]
fn many_threads_commit() {
    let three = Three::new();
    let volume = three.open(three.options()).unwrap();
    thread::scope(|scope| {
        for thread in 0..8 {
            let volume = &volume;
            scope.spawn(move || {
                for place in (thread * 20 + 1)..=(thread * 20 + 20) {
                    let point = volume.commit(write(place), Vec::new()).unwrap();
                    assert!(volume.standing().unwrap().durable >= point);
                }
            });
        }
    });
    assert_eq!(volume.standing().unwrap().durable, 320);
}

#[test]
fn many_threads_ask_for_the_newest_commit() {
    let three = Three::new();
    let reader = Reader::open(Options { patience: Duration::from_secs(2), ..three.options() }).unwrap();
    let delays = [30, 40, 50].map(Duration::from_millis);
    three.nodes.iter().zip(delays).for_each(|(node, delay)| node.set(|state| state.delay = delay));
    thread::scope(|scope| {
        for _ in 0..16 {
            scope.spawn(|| (0..10).for_each(|_| assert_eq!(reader.newest(), Ok(0))));
        }
    });
}

#[test]
fn connections_that_break_lose_nothing() {
    let three = Three::new();
    three.nodes.iter().for_each(|node| node.set(|state| state.frames = Some(7)));
    let volume = three.open(three.options()).unwrap();
    for place in 1..=100 {
        volume.commit(write(place), Vec::new()).unwrap();
    }
    assert!((60..=100).all(|place| shows(&volume, place, 2 * place)));
}

#[test]
fn two_of_three_nodes_are_enough_and_one_is_not() {
    let three = Three::new();
    let volume = three.open(three.options()).unwrap();
    volume.commit(write(1), Vec::new()).unwrap();
    three.nodes[0].go_away();
    let point = volume.commit(write(2), Vec::new()).unwrap();
    assert!(shows(&volume, 2, point));
    three.nodes[1].go_away();
    let point = volume.write(write(3), Vec::new()).unwrap();
    let begun = Instant::now();
    assert_eq!(volume.wait(point, Duration::from_millis(200)), Err(VolumeError::InDoubt { commit_point: point, quorum: of_three(1) }));
    assert!(begun.elapsed() < Duration::from_secs(2));
    three.nodes[1].set(|state| state.is_away = false);
    assert_eq!(volume.wait(point, Duration::from_secs(5)), Ok(()));
    assert!(shows(&volume, 3, point));
}

#[test]
fn what_no_quorum_has_is_bounded() {
    let three = Three::new();
    let volume = three.open(Options { in_flight: 500, patience: Duration::from_millis(300), ..three.options() }).unwrap();
    three.nodes[0].go_away();
    three.nodes[1].go_away();
    let refused = (1..=100).find_map(|place| volume.write(write(place), Vec::new()).err());
    assert_eq!(refused, Some(VolumeError::Busy(of_three(1))));
}

#[test]
fn mini_transactions_without_bytes_are_bounded() {
    let three = Three::new();
    let volume = three.open(Options { in_flight: 4000, patience: Duration::from_millis(300), ..three.options() }).unwrap();
    // Nodes that answer and store nothing: their disks are full.
    three.nodes.iter().for_each(|node| node.set(|state| state.is_full = true));
    let refused = (1..=1000).find_map(|_| volume.write(Vec::new(), Vec::new()).err());
    assert_eq!(refused, Some(VolumeError::Busy(of_three(3))));
}

#[test]
fn times_without_end() {
    let three = Three::new();
    let end = Duration::MAX;
    let limits = Limits { connect: end, answer: end, ..Limits::default() };
    let options = Options { patience: end, limits, grace: Duration::ZERO, admission: end, ..three.options() };
    let volume = three.open(options.clone()).unwrap();
    let point = volume.commit(write(1), Vec::new()).unwrap();
    assert_eq!(volume.wait(point, end), Ok(()));
    assert!(shows(&volume, 1, point));
    assert_eq!(volume.advance(1, point), Ok(()));
    assert!(Reader::open(options).unwrap().newest().is_ok());
}

#[test]
fn a_mini_transaction_longer_than_what_may_be_in_flight() {
    let three = Three::new();
    let volume = three.open(Options { in_flight: 4000, ..three.options() }).unwrap();
    let long = |byte| (1..=20).map(|page| PageWrite { page, init: false, patches: vec![Patch::write(0, &[byte; 4000])] }).collect();
    assert_eq!(volume.commit(long(1), Vec::new()), Ok(21));
    // New connections receive all of it again.
    let point = volume.write(long(2), Vec::new()).unwrap();
    three.nodes.iter().for_each(|node| node.set(State::cut_off));
    assert_eq!(volume.wait(point, Duration::from_secs(5)), Ok(()));
    assert_eq!(volume.read(20, point, 0, 4000), Ok(vec![2; 4000]));
}

#[test]
fn a_slow_node_stops_nobody() {
    let three = Three::new();
    three.nodes[2].set(|state| state.delay = Duration::from_millis(300));
    let volume = three.open(Options { in_flight: 4000, ..three.options() }).unwrap();
    let begun = Instant::now();
    for place in 1..=300 {
        volume.commit(write(place), Vec::new()).unwrap();
    }
    assert!(begun.elapsed() < Duration::from_secs(5), "{:?}", begun.elapsed());
}

#[test]
fn a_node_that_turns_connections_away_is_left_alone_for_a_while() {
    let three = Three::new();
    three.nodes[2].set(|state| state.is_busy = true);
    let volume = three.open(Options { retry: Duration::from_millis(100), ..three.options() }).unwrap();
    let begun = Instant::now();
    while begun.elapsed() < Duration::from_secs(1) {
        volume.commit(write(1), Vec::new()).unwrap();
    }
    let turned_away = three.nodes[2].state.lock().unwrap().turned_away;
    assert!(turned_away <= 20, "{turned_away} connections");
    assert_eq!(volume.standing().unwrap().answering, 2);
    three.nodes[2].set(|state| state.is_busy = false);
    until(|| volume.standing().unwrap().answering == 3);
}

#[test]
fn a_fenced_engine_ends() {
    let three = Three::new();
    let volume = three.open(three.options()).unwrap();
    volume.commit(write(1), Vec::new()).unwrap();
    three.nodes.iter().for_each(|node| node.set(|state| state.stale = Some(9)));
    assert_eq!(volume.commit(write(2), Vec::new()), Err(VolumeError::Fenced { generation: 9 }));
    assert_eq!(volume.commit(write(3), Vec::new()), Err(VolumeError::Fenced { generation: 9 }));
    assert_eq!(volume.standing(), Err(VolumeError::Fenced { generation: 9 }));
}

#[test]
fn a_volume_without_a_quorum_does_not_open() {
    let three = Three::new();
    three.nodes[0].go_away();
    three.nodes[1].go_away();
    let begun = Instant::now();
    let opened = three.open(Options { patience: Duration::from_millis(300), ..three.options() });
    assert_eq!(opened.err(), Some(VolumeError::NotOpened(of_three(1))));
    assert!(begun.elapsed() < Duration::from_secs(2), "{:?}", begun.elapsed());
}

#[test]
fn an_opening_waits_for_no_node_that_cannot_be_reached() {
    let three = Three::new();
    fs::remove_file(&three.nodes[1].path).unwrap();
    let begun = Instant::now();
    let volume = three.open(Options { grace: Duration::from_secs(3), ..three.options() }).unwrap();
    assert!(begun.elapsed() < Duration::from_secs(2), "{:?}", begun.elapsed());
    volume.commit(write(1), Vec::new()).unwrap();
}

#[test]
fn an_opening_goes_on_while_a_long_answer_comes() {
    let three = Three::new();
    three.nodes.iter().for_each(|node| node.set(|state| state.long_front = Duration::from_millis(1500)));
    let volume = three.open(Options { patience: Duration::from_secs(4), ..three.options() }).unwrap();
    // The first attempt is the only one.
    assert_eq!(volume.standing().unwrap().generation, 3);
}

#[test]
fn what_is_no_mini_transaction_changes_nothing() {
    let three = Three::new();
    let volume = three.open(three.options()).unwrap();
    let one = |page, patches| vec![PageWrite { page, init: false, patches }];
    for writes in [
        one(0, vec![]),
        one(1, vec![Patch::write(4085, b"1234")]),
        one(1, vec![Patch::write(0, b"")]),
        one(1, vec![Patch::write(0, b"1"); 64]),
        one(1, vec![Patch::write(0, &[1; 4088]), Patch::write(0, &[2; 4088]), Patch::write(0, &[3; 9])]),
    ] {
        assert_eq!(volume.commit(writes, Vec::new()), Err(VolumeError::Argument("a page or a patch")));
    }
    assert_eq!(volume.commit(write(1), vec![0; 1025]), Err(VolumeError::Argument("a header")));
    assert_eq!(volume.commit(write(1), vec![0; 1024]), Ok(2));
    assert_eq!(volume.read(1, 2, 4090, 7), Err(VolumeError::Argument("a range of a page")));
}

//! Calls of nodes over the archive.

use std::io::Write;
use std::os::unix::net::UnixStream;
use std::thread;
use yieldcleat::{engines, Admission, Declined, EngineCalls, Membership, Name};
use yieldcleat::{frames, requests, Advance, Calls, Error, Front, Gap, Key, Node, Patch, ReadFault, Record, Refused, SnapshotFault};
use yieldcleat::{StagingFault, Status, Taken, Truncation, Uncovered, WireFault};

/// Record `number` of one chain over four pages, writing its number's last byte.
fn record(number: u64) -> Vec<u8> {
    let patches = vec![Patch::write(number as u16 % 16, &[number as u8])];
    let (page, block_back) = ((number % 4) as u16, number.saturating_sub(4));
    let record = Record { epoch: 0, number, back: number - 1, page, block_back, begins_anew: false, patches };
    record.encode().unwrap()
}

fn advance(epoch: u16, point: u64) -> Vec<u8> {
    Advance { epoch, reader: 1, point }.encode().unwrap()
}

fn opened(last: u64) -> Node {
    let mut node = Node::open(1).unwrap();
    let facts: Vec<_> = (1..=last).map(record).collect();
    let taken = node.take_all(facts.iter().map(Vec::as_slice)).unwrap();
    assert_eq!(taken, vec![Ok(Taken::Changed); last as usize]);
    node
}

#[test]
fn facts_and_reads() {
    let mut node = Node::open(1).unwrap();
    assert_eq!(node.take(&record(2)), Ok(Taken::Changed));
    assert_eq!(node.front(), Ok(Front { epoch: 0, complete: 0, min: 0 }));
    assert_eq!(node.take(&record(1)), Ok(Taken::Changed));
    assert_eq!(node.take(&record(1)), Ok(Taken::Unchanged));
    assert_eq!(node.take(&advance(0, 1)), Ok(Taken::Changed));
    assert_eq!(node.front(), Ok(Front { epoch: 0, complete: 2, min: 1 }));
    assert_eq!(node.read(2, 2, 1, 3), Ok(vec![0, 2, 0]));
    assert_eq!(node.read(2, 0, 0, 1), Err(Error::Read(ReadFault::Below { min: 1 })));
    assert_eq!(node.read(2, 3, 0, 1), Err(Error::Read(ReadFault::Above { complete: 2 })));
    assert_eq!(node.read(2, 2, 4095, 2), Err(Error::BadRequest));
    let first = node.next(Key::default()).unwrap().unwrap();
    assert_eq!((first.key, first.bytes), (Key { epoch: 0, number: 1 }, record(1)));
    assert_eq!(node.next(Key { epoch: 0, number: 2 }), Ok(None));
    assert_eq!((node.fold(1), node.discard(), node.tidy()), (Ok(()), Ok(()), Ok(())));
    let state = node.state().unwrap();
    assert_eq!((state.complete, state.anchor, state.kept), (2, 1, 1));
    assert_eq!(node.close(), Some(Status::InputEnded));
}

#[test]
fn what_is_refused() {
    let mut node = opened(3);
    assert_eq!(node.take(&record(3)[1..]), Err(Error::Wire(WireFault::UnknownTag)));
    assert_eq!(node.take(b""), Err(Error::Wire(WireFault::Short)));
    let mut other = record(3);
    *other.last_mut().unwrap() = 77;
    assert_eq!(node.take(&other), Err(Error::Refused(Refused::Record)));
    node.take(&advance(0, 3)).unwrap();
    let truncation = Truncation { epoch: 1, lo: 2, hi: 9 }.encode().unwrap();
    assert_eq!(node.take(&truncation), Err(Error::Refused(Refused::Least { min: 3 })));
    let second = Advance { epoch: 0, reader: 2, point: 1 }.encode().unwrap();
    assert_eq!(node.take(&second), Err(Error::Refused(Refused::Roster { own: 1, shown: 2 })));
    assert_eq!(Node::open(16).err(), Some(Error::BadRequest));
}

#[test]
fn gaps_are_named() {
    let mut node = opened(3);
    assert_eq!(node.gap(), Ok(None));
    let later = Record { epoch: 1, number: 9, back: 3, page: 1, block_back: 1, begins_anew: true, patches: vec![] };
    node.take(&later.encode().unwrap()).unwrap();
    assert_eq!(node.gap(), Ok(Some(Gap::Truncation { epoch: 1 })));
    node.take(&record(6)).unwrap();
    assert_eq!(node.gap(), Ok(Some(Gap::Record { number: 5 })));
}

#[test]
fn gossip_and_what_it_does_not_cover() {
    let (mut one, mut other) = (opened(40), Node::open(1).unwrap());
    let question = other.summary().unwrap();
    let answer = one.reply(&question).unwrap();
    assert_eq!(other.absorb(&question, &answer), Ok(()));
    assert_eq!(other.summary(), one.summary());
    let question = other.summary().unwrap();
    let answer = one.reply(&question).unwrap();
    let mut empty = Node::open(1).unwrap();
    assert_eq!(empty.absorb(&question, &answer), Err(Error::Uncovered(Uncovered::Key { epoch: 0, number: 1 })));
    assert_eq!(empty.absorb(&question[1..], &answer), Err(Error::Wire(WireFault::UnknownTag)));
    assert_eq!(empty.front(), Ok(Front { epoch: 0, complete: 0, min: 0 }));
}

#[test]
fn snapshots() {
    let mut node = opened(200);
    assert_eq!(node.piece(0), Err(Error::Snapshot(SnapshotFault::NoSnapshot)));
    assert_eq!(node.finish(), Err(Error::Staging(StagingFault::NoStaging)));
    node.take(&advance(0, 100)).unwrap();
    node.tidy().unwrap();
    let total = node.freeze(7).unwrap();
    assert_eq!(node.piece(total), Err(Error::Snapshot(SnapshotFault::NoPiece)));
    let pieces: Vec<_> = (0..total).map(|index| node.piece(index).unwrap()).collect();
    assert!(pieces.len() > 2);
    let mut fresh = Node::open(3).unwrap();
    fresh.stage(7, total).unwrap();
    assert_eq!(fresh.finish(), Err(Error::Staging(StagingFault::Missing { index: 0 })));
    for piece in pieces.iter().rev() {
        fresh.add(piece).unwrap();
    }
    assert_eq!(fresh.add(&pieces[1]), Err(Error::Staging(StagingFault::Double { index: 1 })));
    fresh.finish().unwrap();
    assert_eq!(fresh.summary(), node.summary());
    assert_eq!(fresh.read(3, 200, 0, 4096), node.read(3, 200, 0, 4096));
}

#[test]
fn unions_and_replies_of_limited_size() {
    let (mut large, mut node) = (opened(200), Node::open(1).unwrap());
    (201..=210).for_each(|number| assert_eq!(node.take(&record(number)), Ok(Taken::Changed)));
    let question = node.summary().unwrap();
    let delta = large.reply(&question).unwrap();
    assert_eq!(large.reply_within(&question, delta.len() as u32), Ok(delta.clone()));
    assert_eq!(large.reply_within(&question, delta.len() as u32 - 1), Err(Error::Large));
    assert_eq!(large.reply_within(&question[1..], 9), Err(Error::Wire(WireFault::UnknownTag)));
    assert_eq!(node.unite(), Err(Error::Staging(StagingFault::NoStaging)));
    let total = large.freeze(7).unwrap();
    node.stage(7, total).unwrap();
    assert_eq!(node.unite(), Err(Error::Staging(StagingFault::Missing { index: 0 })));
    (0..total).for_each(|index| node.add(&large.piece(index).unwrap()).unwrap());
    assert_eq!(node.unite(), Ok(()));
    assert_eq!(node.front(), Ok(Front { epoch: 0, complete: 210, min: 0 }));
    assert_eq!(node.unite(), Err(Error::Staging(StagingFault::NoStaging)));
}

#[test]
fn batches_are_as_takes() {
    let mut node = opened(1000);
    let facts = [record(1001), vec![9], record(1), advance(0, 7), vec![1; 20_000]];
    let wire = |fault| Err(Error::Wire(fault));
    let taken = node.take_all(facts.iter().map(Vec::as_slice)).unwrap();
    let shape = wire(WireFault::Shape);
    assert_eq!(taken, [Ok(Taken::Changed), wire(WireFault::UnknownTag), Ok(Taken::Unchanged), Ok(Taken::Changed), shape]);
    assert_eq!(node.take_all([]), Ok(vec![]));
    assert_eq!(node.front(), Ok(Front { epoch: 0, complete: 1001, min: 7 }));
    // Requests of more bytes than a socket holds, and answers of more bytes than that.
    let large = vec![0x55; 300_000];
    let taken = node.take_all(std::iter::repeat_n(large.as_slice(), 100)).unwrap();
    assert_eq!(taken, vec![wire(WireFault::UnknownTag); 100]);
    let mixed = [record(1002), large, record(1002), record(1003)];
    let taken = node.take_all(mixed.iter().map(Vec::as_slice)).unwrap();
    assert_eq!(taken, [Ok(Taken::Changed), wire(WireFault::UnknownTag), Ok(Taken::Unchanged), Ok(Taken::Changed)]);
}

#[test]
fn requests_in_one() {
    let mut node = opened(3);
    let asked = requests::many([&b"front"[..], &requests::take(&record(4)), b"bogus", b"front"]).unwrap();
    let answers = frames::inside(node.ask(&asked).unwrap()).unwrap();
    assert_eq!(answers, [&b"front 0 3 0"[..], b"changed", b"bad request", b"front 0 4 0"]);
    assert_eq!(node.ask(&asked[..asked.len() - 1]), Ok(&b"bad request"[..]));
}

#[test]
fn eight_nodes_at_once() {
    let threads: Vec<_> = (0..8).map(|_| thread::spawn(|| opened(3000).summary().unwrap())).collect();
    let told: Vec<_> = threads.into_iter().map(|it| it.join().unwrap()).collect();
    assert!(told.iter().all(|it| *it == told[0]));
}

#[test]
fn a_torn_request_is_not_answered() {
    let (own, mut other) = UnixStream::pair().unwrap();
    let mut bytes = Vec::new();
    frames::append(&mut bytes, &[b"opened"]).unwrap();
    bytes.extend_from_slice(b"\0\0\0\x09front");
    other.write_all(&bytes).unwrap();
    drop(other);
    let mut node = Node::behind(own).unwrap();
    assert_eq!(node.front(), Err(Error::Stopped(None)));
    let mut node = Node::open(1).unwrap();
    assert_eq!(node.ask(&requests::open(2)), Ok(&b"opened"[..]));
    assert_eq!(node.ask(b""), Ok(&b"bad request"[..]));
    assert_eq!(node.close(), Some(Status::InputEnded));
}

#[test]
fn a_node_answers_one_engine() {
    let mut node = Node::open_as(1, u64::MAX).unwrap();
    let name = Name { generation: 2, birth: u64::MAX };
    assert_eq!(node.fence(2), Err(Error::Declined(Declined::Fresh { birth: u64::MAX })));
    node.take(&record(1)).unwrap();
    let admission = Admission { name, epoch: 0, complete: 2, accepted: None };
    assert_eq!(node.admit(&admission), Err(Error::Declined(Declined::Behind { epoch: 0, complete: 1 })));
    assert_eq!(node.admit(&Admission { complete: 1, ..admission }), Ok(()));
    let front = Front { epoch: 0, complete: 1, min: 0 };
    let is = Membership { generation: 2, birth: u64::MAX, is_member: true, front, accepted: None };
    assert_eq!(node.membership(), Ok(is));
    let request = engines::many_under(name, [&b"front"[..], &[b"take ", record(2).as_slice()].concat(), b"finish"]).unwrap();
    let answers = frames::inside(node.ask(&request).unwrap()).unwrap().iter().map(|it| it.to_vec()).collect::<Vec<_>>();
    let told: Vec<_> = answers.iter().map(|it| engines::headed(it, name)).collect();
    assert_eq!(told, [Ok(&b"front 0 1 0"[..]), Ok(b"changed"), Err(Error::Declined(Declined::Unguarded))]);
    assert_eq!(node.front_under(name), Ok(Front { complete: 2, ..front }));
    assert_eq!(node.propose(name, &Truncation { epoch: 1, lo: 1, hi: 5 }), Ok(()));
    assert_eq!(node.fence(3).unwrap().accepted.unwrap().cut, Truncation { epoch: 1, lo: 1, hi: 5 });
    assert_eq!(node.front_under(name), Err(Error::Declined(Declined::Stale { generation: 3 })));
    assert_eq!(node.finish(), Err(Error::Declined(Declined::Member)));
}

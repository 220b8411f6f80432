//! An open volume that opens itself again, over a machine that fences, counts fronts and admits, and nodes that lose what they had. The
//! proved machine has tests of its own; this one recovers nothing but what it has written itself.

mod nodes;
mod waiting;

use nodes::{Node, State};
use std::collections::{BTreeMap, BTreeSet};
use std::path::PathBuf;
use std::sync::atomic::{AtomicBool, AtomicU32, AtomicU64, Ordering};
use std::time::Duration;
use std::{env, fs, process, thread};
use waiting::until;
use yieldcleat_client::{Address, Limits, Patch, Record};
use yieldcleat_volume::{Action, Event, Fault, Machine, Options, OutOfMemory, PageWrite, Volume, VolumeError};

// A machine that fences, counts fronts and admits

enum Phase {
    Idle,
    Fencing,
    /// The fenced nodes that have not reported a front, and the greatest front.
    Pulling(BTreeSet<u8>, u64),
    Open,
}

struct Counting {
    nodes: u8,
    quorum: usize,
    generation: u64,
    phase: Phase,
    births: BTreeMap<u8, u64>,
    fresh: BTreeMap<u8, u64>,
    lost: BTreeSet<u8>,
    /// The request that stores each record.
    records: BTreeMap<u64, Vec<u8>>,
    pages: BTreeMap<u16, u64>,
    commits: BTreeSet<u64>,
    fronts: BTreeMap<u8, u64>,
    durable: u64,
}

fn number(word: &str) -> u64 {
    word.parse().unwrap()
}

fn ask(node: u8, request: impl Into<Vec<u8>>) -> Action {
    Action::Ask { node, request: request.into() }
}

impl Counting {
    fn new(nodes: u8, quorum: u8) -> Counting {
        Counting {
            nodes,
            quorum: quorum.into(),
            generation: 0,
            phase: Phase::Idle,
            births: BTreeMap::new(),
            fresh: BTreeMap::new(),
            lost: BTreeSet::new(),
            records: BTreeMap::new(),
            pages: BTreeMap::new(),
            commits: BTreeSet::new(),
            fronts: BTreeMap::new(),
            durable: 0,
        }
    }

    fn last(&self) -> u64 {
        self.records.keys().next_back().copied().unwrap_or(0)
    }

    fn under(&self, node: u8, birth: u64, request: &[u8]) -> Action {
        ask(node, [format!("as {} {birth} ", self.generation).as_bytes(), request].concat())
    }

    fn each(&self, request: &[u8]) -> Vec<Action> {
        self.births.iter().map(|(node, birth)| self.under(*node, *birth, request)).collect()
    }

    fn fence(&self, node: u8) -> Action {
        ask(node, format!("fence {}", self.generation))
    }

    fn record(&mut self, page: u16, init: bool, patches: &[Patch]) -> Vec<Action> {
        let back = self.last();
        let number = back + 1;
        let block_back = self.pages.insert(page, number).unwrap_or(0);
        let record = Record { epoch: 0, number, back, page, block_back, begins_anew: init, patches: patches.to_vec() };
        let request = [b"take ".to_vec(), record.encode().unwrap()].concat();
        self.records.insert(number, request.clone());
        self.each(&request)
    }

    /// Sends a node all records, and asks for its front; one without a birth is to be fenced.
    fn bring(&self, node: u8) -> Vec<Action> {
        let Some(birth) = self.births.get(&node) else {
            return vec![self.fence(node)];
        };
        self.records.values().map(Vec::as_slice).chain([&b"front"[..]]).map(|request| self.under(node, *birth, request)).collect()
    }

    fn end(&mut self, fault: Fault) -> Vec<Action> {
        self.phase = Phase::Idle;
        vec![Action::Refused(fault)]
    }

    fn lose(&mut self, node: u8) -> Vec<Action> {
        self.lost.insert(node);
        let have = usize::from(self.nodes) - self.lost.len();
        match have < self.quorum {
            true => self.end(Fault::NoQuorum { have: have as u8, need: self.quorum as u8 }),
            false => Vec::new(),
        }
    }

    /// Admits the fresh nodes, which get all records first.
    fn open(&mut self, lo: u64) -> Vec<Action> {
        let mut actions = Vec::new();
        for (node, birth) in &self.fresh {
            actions.extend(self.records.values().map(|request| ask(*node, request.clone())));
            actions.push(ask(*node, format!("admit {} {birth} 0 {lo}", self.generation)));
        }
        (self.phase, self.durable) = (Phase::Open, lo);
        actions.push(Action::Opened { epoch: 0, commit_point: lo, header: Vec::new() });
        actions
    }

    fn hear_fenced(&mut self, node: u8, birth: u64) -> Vec<Action> {
        self.births.insert(node, birth);
        match self.phase {
            Phase::Open => self.bring(node),
            Phase::Fencing if self.births.len() >= self.quorum => {
                self.phase = Phase::Pulling(self.births.keys().copied().collect(), 0);
                self.each(b"front")
            }
            _ => Vec::new(),
        }
    }

    fn hear_front(&mut self, node: u8, complete: u64) -> Vec<Action> {
        match &mut self.phase {
            Phase::Pulling(left, greatest) => {
                left.remove(&node);
                *greatest = complete.max(*greatest);
                let (is_done, lo) = (left.is_empty(), *greatest);
                return if is_done { self.open(lo) } else { Vec::new() };
            }
            Phase::Open => self.fronts.insert(node, complete),
            _ => return Vec::new(),
        };
        let mut fronts: Vec<_> = self.fronts.values().copied().collect();
        fronts.sort_unstable();
        let reached = fronts.len().checked_sub(self.quorum).map_or(0, |place| fronts[place]);
        match self.commits.range(..=reached).next_back().copied().filter(|point| *point > self.durable) {
            Some(commit_point) => {
                self.durable = commit_point;
                vec![Action::Durable { commit_point }]
            }
            None => Vec::new(),
        }
    }

    fn hear(&mut self, node: u8, answer: &str) -> Vec<Action> {
        let words: Vec<_> = answer.split(' ').collect();
        let is_own = |place: usize| number(words[place]) == self.generation;
        match (words[0], &self.phase) {
            ("stale", _) if number(words[1]) > self.generation => self.end(Fault::Fenced { generation: number(words[1]) }),
            ("stale", Phase::Fencing) if is_own(1) => self.lose(node),
            ("fresh", Phase::Fencing) => {
                self.fresh.insert(node, number(words[1]));
                self.lose(node)
            }
            ("fenced", _) if is_own(1) => self.hear_fenced(node, number(words[2])),
            ("admitted", Phase::Open) if is_own(1) => self.hear_fenced(node, number(words[2])),
            ("as", _) if is_own(1) && self.births.get(&node) == Some(&number(words[2])) && words[3] == "front" => {
                self.hear_front(node, number(words[5]))
            }
            _ => Vec::new(),
        }
    }
}

impl Machine for Counting {
    fn step(&mut self, event: Event<'_>) -> Result<Vec<Action>, OutOfMemory> {
        Ok(match event {
            Event::Open { generation } if generation <= self.generation => {
                vec![Action::Refused(Fault::Fenced { generation: self.generation })]
            }
            Event::Open { generation } => {
                (self.generation, self.phase) = (generation, Phase::Fencing);
                (self.births, self.fresh, self.lost, self.fronts) = Default::default();
                (0..self.nodes).map(|node| self.fence(node)).collect()
            }
            Event::Write { page, init, patches } if matches!(self.phase, Phase::Open) => self.record(page, init, patches),
            Event::Commit { .. } if matches!(self.phase, Phase::Open) => {
                let mut actions = self.record(0, false, &[]);
                self.commits.insert(self.last());
                actions.extend(self.each(b"front"));
                actions.push(Action::Committed { commit_point: self.last() });
                actions
            }
            Event::Advance { .. } if matches!(self.phase, Phase::Open) => Vec::new(),
            Event::Create | Event::Write { .. } | Event::Commit { .. } | Event::Advance { .. } => vec![Action::Refused(Fault::NotOpen)],
            Event::Answered { node, answer, .. } => self.hear(node, &String::from_utf8_lossy(answer)),
            Event::Failed { node } => match &self.phase {
                Phase::Open => self.bring(node),
                Phase::Fencing if !self.births.contains_key(&node) => vec![self.fence(node)],
                Phase::Pulling(left, _) if left.contains(&node) => vec![self.under(node, self.births[&node], b"front")],
                _ => Vec::new(),
            },
        })
    }
}

// A volume of some nodes

struct World {
    folder: PathBuf,
    nodes: Vec<Node>,
    quorum: u8,
}

static PLACE: AtomicU32 = AtomicU32::new(0);
static BIRTH: AtomicU64 = AtomicU64::new(100);

impl World {
    fn new(count: usize, quorum: u8) -> World {
        let folder = env::temp_dir().join(format!("yieldcleat-reopening-{}-{}", process::id(), PLACE.fetch_add(1, Ordering::Relaxed)));
        let _ = fs::remove_dir_all(&folder);
        fs::create_dir(&folder).unwrap();
        let nodes = (0..count).map(|place| Node::start(&folder, place)).collect();
        World { folder, nodes, quorum }
    }

    fn options(&self) -> Options {
        let nodes = self.nodes.iter().map(|node| Address::Unix(node.path.clone())).collect();
        Options {
            quorum: self.quorum,
            patience: Duration::from_secs(5),
            limits: Limits { answer: Duration::from_secs(2), ..Limits::default() },
            retry: Duration::from_millis(10),
            remind: Duration::from_millis(10),
            grace: Duration::from_millis(50),
            admission: Duration::from_millis(30),
            ..Options::new(nodes)
        }
    }

    fn open(&self, options: Options) -> Volume {
        Volume::open(Counting::new(self.nodes.len() as u8, self.quorum), options).unwrap()
    }

    /// A node loses all that it had, and starts again.
    fn wipe(&self, place: usize) {
        self.nodes[place].set(|state| {
            (state.is_member, state.generation, state.birth) = (false, 0, BIRTH.fetch_add(1, Ordering::Relaxed));
            state.records.clear();
            state.cut_off();
        });
    }

    /// A node gets all that another one has.
    fn gossip(&self, from: usize, to: usize) {
        let records = self.nodes[from].state.lock().unwrap().records.clone();
        self.nodes[to].set(|state| state.records = records);
    }

    fn shows<T>(&self, place: usize, what: impl FnOnce(&State) -> T) -> T {
        what(&self.nodes[place].state.lock().unwrap())
    }

    fn is_member(&self, place: usize) -> bool {
        self.shows(place, |state| state.is_member)
    }

    fn generations(&self) -> Vec<u64> {
        (0..self.nodes.len()).map(|place| self.shows(place, |state| state.generation)).collect()
    }
}

impl Drop for World {
    fn drop(&mut self) {
        let _ = fs::remove_dir_all(&self.folder);
    }
}

/// What transaction `place` writes: eight bytes of page 1 or 2.
fn write(place: u64) -> Vec<PageWrite> {
    let patch = Patch::write(8 * (place % 100) as u16, &place.to_be_bytes());
    vec![PageWrite { page: 1 + (place % 2) as u16, init: false, patches: vec![patch] }]
}

fn shows(volume: &Volume, place: u64, point: u64) -> bool {
    volume.read(1 + (place % 2) as u16, point, 8 * (place % 100) as u16, 8).unwrap() == place.to_be_bytes()
}

#[test]
fn nodes_that_lose_their_files_one_after_another_count_again() {
    let world = World::new(6, 4);
    let volume = world.open(world.options());
    let (mut place, mut point) = (0, 0);
    let mut commit = |count| {
        for _ in 0..count {
            place += 1;
            point = volume.commit(write(place), Vec::new()).unwrap();
            assert_eq!(point, 2 * place, "no commit point is left out or given twice");
        }
        (place, point)
    };
    for victim in 0..4 {
        commit(5);
        world.wipe(victim);
        commit(5);
        world.gossip(5, victim);
        until(|| world.is_member(victim));
        until(|| volume.standing().unwrap().uncounted == 0);
    }
    world.nodes[4].go_away();
    world.nodes[5].go_away();
    let (place, point) = commit(5);
    assert!((1..=place).all(|place| shows(&volume, place, point)));
    assert_eq!(volume.newest(), Ok(point));
    assert!(volume.standing().unwrap().generation >= 3 + 4);
}

#[test]
fn a_node_without_peers_gets_all_from_the_engine() {
    let world = World::new(3, 2);
    let volume = world.open(world.options());
    volume.commit(write(1), Vec::new()).unwrap();
    world.wipe(0);
    until(|| volume.standing().unwrap().uncounted == 1);
    until(|| world.is_member(0));
    world.nodes[1].go_away();
    let point = volume.commit(write(2), Vec::new()).unwrap();
    assert!(shows(&volume, 1, point) && shows(&volume, 2, point));
}

#[test]
fn commits_and_reads_go_on_meanwhile() {
    let world = World::new(5, 3);
    let volume = world.open(world.options());
    let is_over = AtomicBool::new(false);
    thread::scope(|scope| {
        for thread in 0..3 {
            let (volume, is_over) = (&volume, &is_over);
            scope.spawn(move || {
                let (mut place, mut last) = (thread, 0);
                while !is_over.load(Ordering::Relaxed) {
                    let point = volume.write(write(place), Vec::new()).unwrap();
                    assert!(point > last && shows(volume, place, point));
                    assert_eq!(volume.wait(point, Duration::from_secs(5)), Ok(()));
                    assert!(volume.newest().unwrap() >= point);
                    (place, last) = (place + 3, point);
                }
            });
        }
        for victim in [0, 1, 2, 3, 4, 0] {
            world.wipe(victim);
            thread::sleep(Duration::from_millis(20));
            world.gossip((victim + 1) % 5, victim);
            until(|| world.is_member(victim));
            until(|| volume.standing().unwrap().uncounted == 0);
        }
        is_over.store(true, Ordering::Relaxed);
    });
    let standing = volume.standing().unwrap();
    assert_eq!(standing.durable, standing.committed);
    assert!(standing.committed > 20);
}

#[test]
fn a_newer_engine_is_not_fenced() {
    let world = World::new(3, 2);
    let volume = world.open(world.options());
    volume.commit(write(1), Vec::new()).unwrap();
    // The engine does not hear of the other one before it asks.
    world.nodes[..2].iter().for_each(|node| node.set(|state| state.generation = 9));
    world.wipe(2);
    until(|| volume.standing() == Err(VolumeError::Fenced { generation: 9 }));
    assert_eq!(world.generations(), [9, 9, 0]);
    assert_eq!(volume.commit(write(2), Vec::new()), Err(VolumeError::Fenced { generation: 9 }));
}

#[test]
fn an_engine_that_is_quicker_with_the_same_generation_is_not_fenced() {
    let world = World::new(3, 2);
    let volume = world.open(world.options());
    volume.commit(write(1), Vec::new()).unwrap();
    world.nodes[..2].iter().for_each(|node| node.set(|state| state.is_overtaken = true));
    world.wipe(2);
    world.gossip(0, 2);
    until(|| volume.standing() == Err(VolumeError::Fenced { generation: 4 }));
    thread::sleep(Duration::from_millis(200));
    assert_eq!(world.generations(), [4, 4, 0]);
}

#[test]
fn without_a_quorum_it_goes_on_trying() {
    let world = World::new(3, 2);
    let volume = world.open(Options { patience: Duration::from_millis(400), ..world.options() });
    let point = volume.commit(write(1), Vec::new()).unwrap();
    world.nodes[0].set(|state| state.leaves = true);
    world.wipe(2);
    world.gossip(1, 2);
    until(|| world.shows(0, |state| state.is_away));
    let refused = (1..20).find_map(|_| volume.commit(write(2), Vec::new()).err()).unwrap();
    assert!(matches!(refused, VolumeError::NotReopened(_) | VolumeError::Busy(_)), "{refused}");
    assert!(shows(&volume, 1, point), "what is durable is read");
    assert!(matches!(volume.newest(), Err(VolumeError::NotAsked(_))));
    assert_eq!(volume.standing().map(|it| it.committed), Ok(point));
    world.nodes[0].set(|state| (state.is_away, state.leaves) = (false, false));
    until(|| world.is_member(2));
    let next = volume.commit(write(3), Vec::new()).unwrap();
    assert_eq!(next, point + 2, "what was refused was not sent");
    assert!(shows(&volume, 1, next) && shows(&volume, 3, next));
}

#[test]
fn fresh_nodes_are_found_empty_although_one_answers_late() {
    let world = World::new(3, 2);
    world.nodes.iter().for_each(|node| node.set(|state| state.is_member = false));
    world.nodes[2].set(|state| state.delay = Duration::from_millis(300));
    let opened = Volume::open(Counting::new(3, 2), world.options());
    assert_eq!(opened.err(), Some(VolumeError::Empty));
}

#[test]
fn a_connection_that_breaks_again_and_again_stops_no_opening() {
    let world = World::new(3, 2);
    world.nodes[..2].iter().for_each(|node| node.set(|state| state.delay = Duration::from_millis(700)));
    let is_over = AtomicBool::new(false);
    thread::scope(|scope| {
        scope.spawn(|| {
            while !is_over.load(Ordering::Relaxed) {
                thread::sleep(Duration::from_millis(200));
                world.nodes[2].set(State::cut_off);
            }
        });
        let opened = Volume::open(Counting::new(3, 2), Options { patience: Duration::from_secs(20), ..world.options() });
        is_over.store(true, Ordering::Relaxed);
        assert_eq!(opened.unwrap().standing().map(|it| it.opened_at), Ok(0));
    });
}

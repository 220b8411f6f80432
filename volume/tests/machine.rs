//! The driver over the machine of `crates/volume_node` and nodes of `crates/fleet_node`, each in a process of its own: engines that are
//! killed, engines that are fenced, nodes that lose all they had. The environment names both programs; without them nothing is tested.

mod waiting;

use std::path::{Path, PathBuf};
use std::process::{Child, ChildStdin, ChildStdout, Command, Stdio};
use std::sync::atomic::{AtomicU32, AtomicU64, Ordering};
use std::sync::{Arc, Mutex, PoisonError};
use std::time::Duration;
use std::{env, fs, process, thread};
use std::{io::BufReader, net::Shutdown, os::unix::net::UnixListener, os::unix::net::UnixStream};
use waiting::until;
use yieldcleat_client::{engines, frames, Address, Limits, Patch};
use yieldcleat_volume::{Framed, Options, PageWrite, Reader, Volume, VolumeError};

/// The programs of the machine and of a node.
struct Programs {
    machine: PathBuf,
    node: PathBuf,
}

impl Programs {
    fn named() -> Option<Programs> {
        let named = |name| env::var_os(name).map(PathBuf::from);
        Some(Programs { machine: named("YIELDCLEAT_VOLUME_NODE")?, node: named("YIELDCLEAT_FLEET_NODE")? })
    }
}

/// A process that answers frames.
struct Answering {
    child: Child,
    input: ChildStdin,
    output: BufReader<ChildStdout>,
}

impl Answering {
    fn start(program: &Path, arguments: &[&str]) -> Answering {
        let mut child = Command::new(program).args(arguments).stdin(Stdio::piped()).stdout(Stdio::piped()).spawn().unwrap();
        let (input, output) = (child.stdin.take().unwrap(), BufReader::new(child.stdout.take().unwrap()));
        Answering { child, input, output }
    }

    fn ask(&mut self, request: &[u8]) -> Option<Vec<u8>> {
        let mut answer = Vec::new();
        frames::write(&mut self.input, request).ok()?;
        frames::read(&mut self.output, &mut answer).ok()?.then_some(answer)
    }
}

impl Drop for Answering {
    fn drop(&mut self) {
        let _ = self.child.kill();
        let _ = self.child.wait();
    }
}

/// A node behind a socket. Where its process ends, so do its connections.
struct Node {
    path: PathBuf,
    program: PathBuf,
    state: Arc<Mutex<State>>,
}

struct State {
    answering: Option<Answering>,
    is_away: bool,
    connections: Vec<UnixStream>,
}

static BIRTH: AtomicU64 = AtomicU64::new(18_000_000_000_000_000_000);

impl Node {
    fn start(path: PathBuf, program: &Path) -> Node {
        let listener = UnixListener::bind(&path).unwrap();
        let state = Arc::new(Mutex::new(State { answering: None, is_away: false, connections: Vec::new() }));
        let node = Node { path, program: program.to_path_buf(), state: state.clone() };
        node.begin_life();
        thread::spawn(move || {
            for stream in listener.incoming() {
                let (stream, state) = (stream.unwrap(), state.clone());
                thread::spawn(move || serve(stream, &state));
            }
        });
        node
    }

    /// A new process with nothing in it stands in place of the one before.
    fn begin_life(&self) {
        let birth = BIRTH.fetch_add(1, Ordering::Relaxed).to_string();
        let answering = Answering::start(&self.program, &["--frames", "--birth", &birth]);
        lock(&self.state).answering = Some(answering);
        self.cut_off();
    }

    /// Its connections end.
    fn cut_off(&self) {
        lock(&self.state).connections.drain(..).for_each(|stream| drop(stream.shutdown(Shutdown::Both)));
    }

    fn set_away(&self, is_away: bool) {
        lock(&self.state).is_away = is_away;
        self.cut_off();
    }

    fn ask(&self, request: &[u8]) -> Vec<u8> {
        lock(&self.state).answering.as_mut().unwrap().ask(request).unwrap()
    }

    fn is_member(&self) -> bool {
        engines::membership(&self.ask(engines::STATUS)).unwrap().is_member
    }
}

fn lock(state: &Mutex<State>) -> std::sync::MutexGuard<'_, State> {
    state.lock().unwrap_or_else(PoisonError::into_inner)
}

fn serve(mut stream: UnixStream, state: &Mutex<State>) {
    {
        let mut state = lock(state);
        if state.is_away {
            return;
        }
        state.connections.push(stream.try_clone().unwrap());
    }
    let mut request = Vec::new();
    while frames::read(&mut stream, &mut request).unwrap_or(false) {
        let answer = lock(state).answering.as_mut().and_then(|node| node.ask(&request));
        if answer.is_none_or(|answer| frames::write(&mut stream, &answer).is_err()) {
            break;
        }
    }
    let _ = stream.shutdown(Shutdown::Both);
}

/// A volume of some nodes, and the machines that were started for it.
struct World {
    folder: PathBuf,
    programs: Programs,
    nodes: Vec<Node>,
    quorum: u8,
}

static PLACE: AtomicU32 = AtomicU32::new(0);

impl World {
    fn new(count: usize, quorum: u8) -> Option<World> {
        let programs = Programs::named()?;
        let folder = env::temp_dir().join(format!("yieldcleat-machine-{}-{}", process::id(), PLACE.fetch_add(1, Ordering::Relaxed)));
        let _ = fs::remove_dir_all(&folder);
        fs::create_dir(&folder).unwrap();
        let nodes = (0..count).map(|place| Node::start(folder.join(format!("node{place}")), &programs.node)).collect();
        Some(World { folder, programs, nodes, quorum })
    }

    fn options(&self) -> Options {
        let nodes = self.nodes.iter().map(|node| Address::Unix(node.path.clone())).collect();
        Options {
            quorum: self.quorum,
            patience: Duration::from_secs(20),
            limits: Limits { answer: Duration::from_secs(5), ..Limits::default() },
            retry: Duration::from_millis(10),
            remind: Duration::from_millis(20),
            ..Options::new(nodes)
        }
    }

    /// A machine in a process, and what kills it.
    fn machine(&self) -> (Framed<BufReader<ChildStdout>, ChildStdin>, Child) {
        let (nodes, quorum) = (self.nodes.len().to_string(), self.quorum.to_string());
        let mut command = Command::new(&self.programs.machine);
        let mut child = command.args([nodes, quorum]).stdin(Stdio::piped()).stdout(Stdio::piped()).spawn().unwrap();
        let (events, answers) = (child.stdin.take().unwrap(), child.stdout.take().unwrap());
        (Framed::over(BufReader::new(answers), events), child)
    }

    fn create(&self) -> Engine {
        self.create_with(self.options())
    }

    fn create_with(&self, options: Options) -> Engine {
        let (machine, child) = self.machine();
        Engine { volume: Volume::create(machine, options).unwrap(), child }
    }

    fn open(&self) -> Engine {
        let (machine, child) = self.machine();
        Engine { volume: Volume::open(machine, self.options()).unwrap(), child }
    }
}

impl Drop for World {
    fn drop(&mut self) {
        let _ = fs::remove_dir_all(&self.folder);
    }
}

struct Engine {
    volume: Volume,
    child: Child,
}

impl Engine {
    /// The machine ends, whatever it was at.
    fn kill(mut self) {
        self.child.kill().unwrap();
        self.child.wait().unwrap();
    }
}

impl Drop for Engine {
    fn drop(&mut self) {
        let _ = self.child.kill();
        let _ = self.child.wait();
    }
}

/// What transaction `place` writes: eight bytes of page 1, 2 or 3.
fn write(place: u64) -> Vec<PageWrite> {
    let patch = Patch::write(8 * (place % 100) as u16, &place.to_be_bytes());
    vec![PageWrite { page: 1 + (place % 3) as u16, init: false, patches: vec![patch] }]
}

fn shows(volume: &Volume, place: u64, point: u64) -> bool {
    volume.read(1 + (place % 3) as u16, point, 8 * (place % 100) as u16, 8).unwrap() == place.to_be_bytes()
}

#[test]
fn a_volume_is_created_written_and_opened_again() {
    let Some(world) = World::new(3, 2) else {
        return;
    };
    let engine = world.create();
    let standing = engine.volume.standing().unwrap();
    assert_eq!((standing.epoch, standing.opened_at, standing.header), (1, 0, vec![]));
    let points: Vec<_> = (1..=20).map(|place| engine.volume.commit(write(place), place.to_string().into()).unwrap()).collect();
    assert_eq!(points, (1..=20).map(|place| 2 * place).collect::<Vec<_>>());
    assert!((1..=20).all(|place| shows(&engine.volume, place, points[place as usize - 1])));
    let page = engine.volume.page_zero(40).unwrap();
    assert_eq!((page.epoch, page.commit_point, page.header), (1, 40, b"20".to_vec()));
    let reader = Reader::open(world.options()).unwrap();
    assert_eq!(reader.newest(), Ok(40));
    engine.kill();

    let engine = world.open();
    let standing = engine.volume.standing().unwrap();
    assert_eq!((standing.epoch, standing.opened_at, standing.header), (2, 40, b"20".to_vec()));
    assert!((1..=20).all(|place| shows(&engine.volume, place, 40)));
    let init = vec![PageWrite { page: 1, init: true, patches: vec![Patch::write(100, b"anew")] }];
    let point = engine.volume.commit(init, Vec::new()).unwrap();
    assert_eq!(engine.volume.read(1, point, 0, 104).unwrap(), [&[0; 100][..], b"anew"].concat());
    assert_eq!(reader.newest(), Ok(point));
    assert_eq!(engine.volume.advance(1, point), Ok(()));
}

#[test]
fn an_engine_is_fenced_by_the_next_one() {
    let Some(world) = World::new(3, 2) else {
        return;
    };
    let first = world.create();
    first.volume.commit(write(1), Vec::new()).unwrap();
    let second = world.open();
    let generation = second.volume.standing().unwrap().generation;
    assert_eq!(first.volume.commit(write(2), Vec::new()), Err(VolumeError::Fenced { generation }));
    let point = second.volume.commit(write(3), Vec::new()).unwrap();
    assert!(shows(&second.volume, 1, point) && shows(&second.volume, 3, point));
    assert_eq!(second.volume.read(3, point, 16, 8).unwrap(), [0; 8]);
}

#[test]
fn a_wiped_node_is_admitted_by_the_next_opening() {
    let Some(world) = World::new(3, 2) else {
        return;
    };
    let engine = world.create();
    let point = (1..=10).map(|place| engine.volume.commit(write(place), Vec::new()).unwrap()).max().unwrap();
    world.nodes[1].begin_life();
    assert!(!world.nodes[1].is_member());
    let point = point.max(engine.volume.commit(write(11), Vec::new()).unwrap());
    engine.kill();

    let engine = world.open();
    until(|| world.nodes[1].is_member());
    assert!((1..=11).all(|place| shows(&engine.volume, place, point)));
    // Each of the other two may go now.
    world.nodes[0].begin_life();
    let point = engine.volume.commit(write(12), Vec::new()).unwrap();
    assert!((1..=12).all(|place| shows(&engine.volume, place, point)));
    engine.kill();

    let engine = world.open();
    until(|| world.nodes[0].is_member());
    world.nodes[2].begin_life();
    let point = engine.volume.commit(write(13), Vec::new()).unwrap();
    assert!((1..=13).all(|place| shows(&engine.volume, place, point)));
}

#[test]
fn a_place_that_has_another_volume() {
    let Some(world) = World::new(3, 2) else {
        return;
    };
    let former = world.create();
    (1..=9).for_each(|place| assert_eq!(former.volume.commit(write(place), Vec::new()), Ok(2 * place)));
    let reader = Reader::open(world.options()).unwrap();
    assert_eq!((reader.newest(), former.volume.newest()), (Ok(18), Ok(18)));
    world.nodes.iter().for_each(Node::begin_life);
    assert_eq!(former.volume.newest(), Err(VolumeError::Empty));
    assert_eq!(reader.newest(), Err(VolumeError::Empty));

    let other = world.create();
    let point = other.volume.commit(write(1), Vec::new()).unwrap();
    let generation = other.volume.standing().unwrap().generation;
    assert_eq!(former.volume.newest(), Err(VolumeError::Fenced { generation }));
    assert_eq!(reader.newest(), Ok(point));
    assert_eq!(reader.learn(&former.volume.known()), point);
    assert_eq!(reader.page_zero(point).unwrap().commit_point, point);
    let point = other.volume.commit(write(2), Vec::new()).unwrap();
    assert_eq!(reader.learn(&other.volume.known()), point);
}

#[test]
fn wiped_nodes_are_admitted_by_an_engine_that_stays_open() {
    let Some(world) = World::new(4, 3) else {
        return;
    };
    let engine = world.create_with(Options { admission: Duration::from_millis(20), ..world.options() });
    let (mut place, mut point) = (0, 0);
    let mut commit = |count: u64| {
        for _ in 0..count {
            place += 1;
            point = engine.volume.commit(write(place), place.to_string().into()).unwrap();
        }
        (place, point)
    };
    for victim in [0, 1, 2, 3, 0] {
        commit(4);
        world.nodes[victim].begin_life();
        commit(victim as u64 % 2);
        until(|| world.nodes[victim].is_member());
        until(|| engine.volume.standing().unwrap().uncounted == 0);
    }
    world.nodes[1].set_away(true);
    let (place, point) = commit(3);
    let generation = engine.volume.standing().unwrap().generation;
    assert!((1..=place).all(|place| shows(&engine.volume, place, point)));
    assert!((1..=4).all(|place| shows(&engine.volume, place, 2 * place)), "points of the first epoch are read as before");
    assert_eq!((engine.volume.newest(), engine.volume.page_zero(point).unwrap().generation), (Ok(point), generation));
    engine.kill();
    assert_eq!(world.open().volume.standing().unwrap().opened_at, point);
}

#[test]
fn a_node_that_was_away_at_the_opening_counts_when_it_is_back() {
    let Some(world) = World::new(3, 2) else {
        return;
    };
    let engine = world.create();
    let point = engine.volume.commit(write(1), Vec::new()).unwrap();
    until(|| world.nodes.iter().all(|node| engines::membership(&node.ask(engines::STATUS)).unwrap().front.complete == point));
    engine.kill();
    world.nodes[0].set_away(true);
    let engine = world.open();
    world.nodes[0].set_away(false);
    world.nodes[1].set_away(true);
    let point = engine.volume.commit(write(2), Vec::new()).unwrap();
    assert!(shows(&engine.volume, 1, point) && shows(&engine.volume, 2, point));
}

#[test]
fn connections_that_break_lose_nothing() {
    let Some(world) = World::new(5, 3) else {
        return;
    };
    let engine = world.create();
    for place in 1..=60 {
        world.nodes[(place % 5) as usize].cut_off();
        engine.volume.commit(write(place), Vec::new()).unwrap();
    }
    assert!((1..=60).all(|place| shows(&engine.volume, place, 120)));
}

#[test]
fn engines_that_are_killed_in_the_middle_lose_no_commit() {
    let Some(world) = World::new(5, 3) else {
        return;
    };
    let mut engine = world.create();
    let mut place = 0;
    for _ in 0..8 {
        let mut last = 0;
        for _ in 0..5 {
            place += 1;
            last = engine.volume.commit(write(place), place.to_string().into()).unwrap();
        }
        // This one is sent and not waited for.
        engine.volume.write(write(place + 1), (place + 1).to_string().into()).unwrap();
        engine.kill();
        engine = world.open();
        let standing = engine.volume.standing().unwrap();
        assert!(standing.opened_at >= last);
        let header: u64 = String::from_utf8(standing.header).unwrap().parse().unwrap();
        assert!(header == place || header == place + 1);
        place = header;
        assert!((place.saturating_sub(9).max(1)..=place).all(|place| shows(&engine.volume, place, standing.opened_at)));
    }
}

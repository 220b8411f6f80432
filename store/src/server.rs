//! The server: its files, its segment and its threads.

use crate::engine::{Engine, Handle};
use crate::gossip::{Gossip, Terms};
use crate::housekeeping::Housekeeping;
use crate::listener::{Listener, STACK};
use crate::metrics::Metrics;
use crate::options::Options;
use crate::session::{self, Service};
use crate::signals::Stop;
use crate::snapshots::Snapshots;
use crate::{http, log, say};
use std::io;
use std::sync::atomic::{AtomicBool, AtomicU64, AtomicUsize, Ordering::Relaxed, Ordering::SeqCst};
use std::sync::mpsc::{self, Sender};
use std::sync::{Arc, Mutex};
use std::thread::{self, Builder};
use std::time::{Duration, Instant};
use std::{fmt, process};
use yieldcleat::{Home, Node, Store, StoreError};
use yieldcleat_client::{frames, Address, Stream};

/// How long the server waits for answers to be written when it ends.
const GRACE: Duration = Duration::from_secs(3);

/// Why the server does not run.
#[derive(Debug)]
pub enum Failure {
    Store(StoreError),
    /// A socket cannot listen at this address, or has stopped accepting connections.
    Listen(String, io::Error),
    /// The system refused to start a thread, or to set up signals.
    System(io::Error),
}

impl Failure {
    /// Returns the exit status of the program.
    pub fn status(&self) -> u8 {
        match self {
            Failure::Store(StoreError::Locked { .. }) => 3,
            Failure::Store(StoreError::Node(_)) | Failure::System(_) => 5,
            Failure::Store(_) => 4,
            Failure::Listen(..) => 6,
        }
    }
}

impl fmt::Display for Failure {
    fn fmt(&self, f: &mut fmt::Formatter<'_>) -> fmt::Result {
        match self {
            Failure::Store(error) => write!(f, "{error}"),
            Failure::Listen(address, error) => write!(f, "cannot listen at {address}: {error}"),
            Failure::System(error) => write!(f, "{error}"),
        }
    }
}

impl From<StoreError> for Failure {
    fn from(error: StoreError) -> Failure {
        Failure::Store(error)
    }
}

impl From<yieldcleat_client::Error> for Failure {
    fn from(error: yieldcleat_client::Error) -> Failure {
        Failure::Store(error.into())
    }
}

/// Serves until a signal stops the server.
pub fn run(options: &Options) -> Result<(), Failure> {
    let stop = Stop::block().map_err(Failure::System)?;
    log::start().map_err(Failure::System)?;
    let store = open(options)?;
    let metrics = Arc::new(Metrics::new(options.memory_bytes, options.peers.iter().map(Address::to_string)));
    let snapshots = Arc::new(Snapshots::default());
    let housekeeping = Housekeeping::new(options.fold_every, options.snapshot_after, snapshots.clone());
    let (engine, handle) = Engine::new(store, options.queue, metrics.clone(), housekeeping);
    let service = Arc::new(service(options, &handle, &metrics, &snapshots));
    let listeners = bind(options)?;
    let engine = spawn("engine", move || engine.run())?;
    let (failed, failures) = mpsc::channel();
    let sockets = start(options, listeners, &service, &failed)?;
    gossip(options, &handle, &metrics)?;
    say(format_args!("ready"));
    let stopping = service.clone();
    spawn("signals", move || wait_for_signal(&stop, &stopping))?;
    let ended = engine.join().unwrap_or(Err(StoreError::Stopped));
    sockets.iter().for_each(|it| it.remove());
    finish(&service);
    ended?;
    failures.try_recv().map_or(Ok(()), Err)
}

/// Opens the files of the node. They are locked for this process before the birth is read or drawn.
fn open(options: &Options) -> Result<Store, Failure> {
    let home = Home::open(&options.data)?;
    let node = Node::open_as(options.readers, home.birth())?;
    let (store, recovery) = Store::open_in(home, node, options.readers)?;
    say(format_args!("{}: {} requests read back", options.data.display(), recovery.requests));
    if recovery.torn > 0 {
        say(format_args!("cut off {} bytes of an entry that was not acknowledged", recovery.torn));
    }
    Ok(store)
}

fn service(options: &Options, handle: &Handle, metrics: &Arc<Metrics>, snapshots: &Arc<Snapshots>) -> Service {
    Service {
        handle: handle.clone(),
        metrics: metrics.clone(),
        snapshots: snapshots.clone(),
        connections: AtomicU64::new(0),
        longest: options.frame_bytes.min(u32::try_from(options.memory_bytes).unwrap_or(u32::MAX)),
        delta_bytes: options.gossip_bytes,
        patience: options.patience,
        idle: options.idle,
        is_stopping: AtomicBool::new(false),
        busy: AtomicUsize::new(0),
    }
}

fn spawn<T: Send + 'static>(name: &str, body: impl FnOnce() -> T + Send + 'static) -> Result<thread::JoinHandle<T>, Failure> {
    Builder::new().name(name.into()).spawn(body).map_err(Failure::System)
}

fn bind(options: &Options) -> Result<Vec<(Listener, bool)>, Failure> {
    let of_frames = options.listen.iter().map(|address| (address, false));
    let addresses = of_frames.chain(options.metrics.iter().map(|address| (address, true)));
    let listen = |(address, is_http): (&Address, bool)| match Listener::bind(address) {
        Ok(listener) => Ok((listener, is_http)),
        Err(error) => Err(Failure::Listen(address.to_string(), error)),
    };
    addresses.map(listen).collect()
}

/// Starts a thread for each socket. If a socket stops accepting connections, the server ends and the reason is sent to `failed`.
fn start(
    options: &Options,
    listeners: Vec<(Listener, bool)>,
    service: &Arc<Service>,
    failed: &Sender<Failure>,
) -> Result<Vec<Arc<Listener>>, Failure> {
    let mut kept = Vec::new();
    for (listener, is_http) in listeners {
        let (listener, service, failed, most) = (Arc::new(listener), service.clone(), failed.clone(), options.connections as u64);
        say(format_args!("listening at {}{}", listener.address(), if is_http { " for metrics" } else { "" }));
        kept.push(listener.clone());
        spawn("listener", move || {
            let ended = if is_http { http::serve(&listener, &service.metrics) } else { accept(&listener, &service, most) };
            if let Err(error) = ended {
                // The receiver exists until the server has ended.
                let _ = failed.send(Failure::Listen(listener.address(), error));
                service.stop();
            }
        })?;
    }
    Ok(kept)
}

/// Accepts connections up to the limit, each on a thread of its own.
fn accept(listener: &Listener, service: &Arc<Service>, most: u64) -> io::Result<()> {
    loop {
        let mut stream = listener.accept()?;
        if service.metrics.connections.fetch_add(1, SeqCst) >= most {
            service.metrics.turned_away.fetch_add(1, Relaxed);
            service.metrics.connections.fetch_sub(1, SeqCst);
            turn_away(&mut stream);
            continue;
        }
        let own = service.clone();
        let body = move || {
            // An error is the client's: it has disconnected, or stalls.
            let _ = session::serve(stream, &own);
            own.metrics.connections.fetch_sub(1, SeqCst);
        };
        if let Err(error) = Builder::new().name("connection".into()).stack_size(STACK).spawn(body) {
            service.metrics.connections.fetch_sub(1, SeqCst);
            say(format_args!("warning: a connection was dropped: {error}"));
        }
    }
}

fn turn_away(stream: &mut Stream) {
    // An error means that the client has disconnected.
    let _ = stream.set_timeouts(None, Some(Duration::from_millis(100)));
    let _ = frames::write(stream, b"busy");
}

fn gossip(options: &Options, handle: &Handle, metrics: &Arc<Metrics>) -> Result<(), Failure> {
    let terms = Arc::new(Terms {
        handle: handle.clone(),
        metrics: metrics.clone(),
        every: options.gossip_every,
        most: options.gossip_bytes,
        patience: options.patience,
        staging: Mutex::new(()),
    });
    for (place, address) in options.peers.iter().enumerate() {
        let gossip = Gossip::new(terms.clone(), place, address.clone());
        spawn("gossip", move || gossip.run())?;
    }
    Ok(())
}

fn wait_for_signal(stop: &Stop, service: &Service) {
    match stop.wait() {
        Ok(name) => say(format_args!("{name}: answering pending requests, then ending")),
        Err(error) => {
            say(format_args!("cannot handle signals: {error}"));
            log::end();
            process::abort();
        }
    }
    service.stop();
}

/// Waits until pending answers are written, at most `GRACE`.
fn finish(service: &Service) {
    service.is_stopping.store(true, SeqCst);
    let end = Instant::now() + GRACE;
    while service.busy.load(SeqCst) > 0 && Instant::now() < end {
        thread::sleep(Duration::from_millis(5));
    }
    say(format_args!("ended"));
}

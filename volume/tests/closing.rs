//! How long it takes to close a volume whose nodes cannot be reached: they neither take nor refuse connections.

mod counting;

use counting::Counting;
use std::net::{SocketAddr, TcpListener, TcpStream};
use std::os::fd::AsRawFd;
use std::time::{Duration, Instant};
use yieldcleat_client::{Address, Limits};
use yieldcleat_volume::{Options, Volume, VolumeError};

extern "C" {
    fn listen(socket: i32, waiting: i32) -> i32;
}

/// A place that leaves connections unanswered, and what makes it do that.
struct Silent {
    address: SocketAddr,
    _listener: TcpListener,
    _waiting: Vec<TcpStream>,
}

impl Silent {
    /// Nobody takes the connections of a listener that lets one wait.
    fn start() -> Silent {
        let listener = TcpListener::bind("127.0.0.1:0").unwrap();
        // SAFETY: the descriptor is open, and stays what it is.
        assert_eq!(unsafe { listen(listener.as_raw_fd(), 0) }, 0);
        let address = listener.local_addr().unwrap();
        let connect = || TcpStream::connect_timeout(&address, Duration::from_millis(300)).ok();
        let waiting: Vec<_> = std::iter::from_fn(connect).take(100).collect();
        assert!(waiting.len() < 100, "the system answers each connection");
        Silent { address, _listener: listener, _waiting: waiting }
    }
}

#[test]
fn closing_waits_for_no_node_that_is_silent() {
    let silent: Vec<_> = (0..6).map(|_| Silent::start()).collect();
    let nodes = silent.iter().map(|it| Address::Tcp(it.address.to_string())).collect();
    let options = Options {
        patience: Duration::from_millis(500),
        limits: Limits { connect: Duration::from_secs(8), ..Limits::default() },
        ..Options::new(nodes)
    };
    let begun = Instant::now();
    let opened = Volume::open(Counting::of(6, 4), options);
    assert!(matches!(opened.err(), Some(VolumeError::NotOpened(_))));
    assert!(begun.elapsed() < Duration::from_secs(4), "{:?}", begun.elapsed());
}

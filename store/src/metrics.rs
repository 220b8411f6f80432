//! The metrics of the server and their two texts: `text` for Prometheus and `report` for people.

use crate::budget::Budget;
use crate::histogram::Histogram;
use std::fmt::Write;
use std::sync::atomic::{AtomicBool, AtomicU64, Ordering::Relaxed};
use std::sync::{Mutex, MutexGuard, PoisonError};
use std::time::Instant;
use yieldcleat::Activity;
use yieldcleat_client::{Front, Membership, State};

/// What the segment last reported, once all of it was on the disk.
#[derive(Debug, Clone, Copy)]
pub struct Seen {
    pub membership: Membership,
    pub state: State,
    pub activity: Activity,
}

/// The state of gossip with a peer.
#[derive(Debug, Clone, Default)]
pub struct Peer {
    pub address: String,
    pub is_up: bool,
    pub front: Option<Front>,
    pub rounds: u64,
    pub snapshots: u64,
    pub failures: u64,
    /// Why the last round failed, if it did.
    pub trouble: Option<String>,
}

pub struct Metrics {
    started: Instant,
    pub frames: AtomicU64,
    pub received: AtomicU64,
    pub sent: AtomicU64,
    pub connections: AtomicU64,
    pub turned_away: AtomicU64,
    pub batches: AtomicU64,
    pub is_full: AtomicBool,
    pub refused_full: AtomicU64,
    pub folds: AtomicU64,
    pub flushes: Histogram,
    pub budget: Budget,
    seen: Mutex<Option<Seen>>,
    peers: Mutex<Vec<Peer>>,
}

fn lock<T>(it: &Mutex<T>) -> MutexGuard<'_, T> {
    it.lock().unwrap_or_else(PoisonError::into_inner)
}

impl Metrics {
    pub fn new(memory: usize, peers: impl Iterator<Item = String>) -> Metrics {
        let peers = peers.map(|address| Peer { address, ..Peer::default() }).collect();
        Metrics {
            started: Instant::now(),
            frames: AtomicU64::default(),
            received: AtomicU64::default(),
            sent: AtomicU64::default(),
            connections: AtomicU64::default(),
            turned_away: AtomicU64::default(),
            batches: AtomicU64::default(),
            is_full: AtomicBool::default(),
            refused_full: AtomicU64::default(),
            folds: AtomicU64::default(),
            flushes: Histogram::default(),
            budget: Budget::new(memory),
            seen: Mutex::default(),
            peers: Mutex::new(peers),
        }
    }

    pub fn see(&self, seen: Seen) {
        *lock(&self.seen) = Some(seen);
    }

    /// Changes the state of a peer, by its position on the command line.
    pub fn with_peer(&self, place: usize, change: impl FnOnce(&mut Peer)) {
        if let Some(peer) = lock(&self.peers).get_mut(place) {
            change(peer);
        }
    }

    /// Returns the text for Prometheus, in version 0.0.4 of its format.
    pub fn text(&self) -> String {
        let mut text = String::new();
        self.write_counts(&mut text);
        if let Some(seen) = *lock(&self.seen) {
            write_seen(&mut text, &seen);
        }
        let name = "yieldcleat_fsync_seconds";
        let _ = writeln!(text, "# HELP {name} How long the disk took for a batch of the log.\n# TYPE {name} histogram");
        self.flushes.write(&mut text, name);
        self.write_peers(&mut text);
        text
    }

    fn write_counts(&self, text: &mut String) {
        let counters = [
            ("frames_total", "Request frames of connections.", &self.frames),
            ("received_bytes_total", "Bytes of request frames.", &self.received),
            ("sent_bytes_total", "Bytes of answer frames.", &self.sent),
            ("connections_refused_total", "Connections above the limit.", &self.turned_away),
            ("batches_total", "Groups of requests that the segment answered with one flush at most.", &self.batches),
            ("disk_full_refusals_total", "Requests refused because the disk was full.", &self.refused_full),
            ("folded_pages_total", "Folds of pages in the background.", &self.folds),
        ];
        for (name, help, value) in counters {
            metric(text, name, "counter", help, value.load(Relaxed));
        }
        metric(text, "connections", "gauge", "Open connections.", self.connections.load(Relaxed));
        metric(text, "request_bytes_held", "gauge", "Bytes of requests above 64 KiB in memory.", self.budget.taken() as u64);
        metric(text, "disk_full", "gauge", "1 while the log has no room.", self.is_full.load(Relaxed).into());
        metric(text, "uptime_seconds", "gauge", "Seconds since the start.", self.started.elapsed().as_secs());
    }

    fn write_peers(&self, text: &mut String) {
        let own = lock(&self.seen).map(|seen| seen.membership.front);
        for (name, kind, help) in PEER_METRICS {
            let _ = writeln!(text, "# HELP yieldcleat_peer_{name} {help}\n# TYPE yieldcleat_peer_{name} {kind}");
            for peer in lock(&self.peers).iter() {
                if let Some(value) = peer_value(name, peer, own) {
                    let address = peer.address.replace('\\', "\\\\").replace('"', "\\\"");
                    let _ = writeln!(text, "yieldcleat_peer_{name}{{peer=\"{address}\"}} {value}");
                }
            }
        }
    }

    /// Returns the text for people.
    pub fn report(&self) -> String {
        let mut text = format!("up {} s, {} connections\n", self.started.elapsed().as_secs(), self.connections.load(Relaxed));
        match *lock(&self.seen) {
            None => text.push_str("the segment has not answered yet\n"),
            Some(seen) => write_report(&mut text, &seen),
        }
        if self.is_full.load(Relaxed) {
            text.push_str("THE DISK IS FULL: nothing is acknowledged until there is room\n");
        }
        if let Some(mean) = self.flushes.mean() {
            let _ = writeln!(text, "{} flushes of {:.3} ms each", self.flushes.count(), mean.as_secs_f64() * 1e3);
        }
        let own = lock(&self.seen).map(|seen| seen.membership.front);
        for peer in lock(&self.peers).iter() {
            write_peer(&mut text, peer, own);
        }
        text
    }
}

const PEER_METRICS: [(&str, &str, &str); 7] = [
    ("up", "gauge", "1 where the last round of gossip with the peer succeeded."),
    ("epoch", "gauge", "The peer's complete epoch."),
    ("complete", "gauge", "The peer's complete point."),
    ("lag", "gauge", "How far this node's complete point is below the peer's, within one epoch."),
    ("rounds_total", "counter", "Rounds of gossip."),
    ("snapshots_total", "counter", "Snapshots fetched from the peer."),
    ("failures_total", "counter", "Rounds that failed."),
];

fn peer_value(name: &str, peer: &Peer, own: Option<Front>) -> Option<u64> {
    match name {
        "up" => Some(peer.is_up.into()),
        "epoch" => Some(peer.front?.epoch.into()),
        "complete" => Some(peer.front?.complete),
        "lag" => lag(peer, own),
        "rounds_total" => Some(peer.rounds),
        "snapshots_total" => Some(peer.snapshots),
        _ => Some(peer.failures),
    }
}

/// Returns how far the local complete point is below that of the peer. Fronts of two epochs do not compare.
fn lag(peer: &Peer, own: Option<Front>) -> Option<u64> {
    let (front, own) = (peer.front?, own?);
    (front.epoch == own.epoch).then(|| front.complete.saturating_sub(own.complete))
}

fn metric(text: &mut String, name: &str, kind: &str, help: &str, value: u64) {
    let _ = writeln!(text, "# HELP yieldcleat_{name} {help}\n# TYPE yieldcleat_{name} {kind}\nyieldcleat_{name} {value}");
}

fn write_seen(text: &mut String, seen: &Seen) {
    let Seen { membership, state, activity } = seen;
    let front = membership.front;
    let gauges = [
        ("front_epoch", "Complete epoch, all of it on the disk.", front.epoch.into()),
        ("front_complete", "Complete point, all of it on the disk.", front.complete),
        ("front_min", "Minimum read point.", front.min),
        ("guard_generation", "Generation of the engine that the node serves; 0 before it is a member.", membership.generation),
        ("guard_member", "1 where the node is a member of a volume.", membership.is_member.into()),
        ("guard_accepted_epoch", "Epoch of the truncation that the node accepted last; 0 before the first.", accepted_epoch(membership)),
        ("anchor", "Point up to which pages may be folded.", state.anchor),
        ("records_held", "Records the segment stores.", state.held),
        ("records_kept", "Records it keeps in its summary.", state.kept),
        ("page_images", "Page images it stores.", state.images),
        ("truncations", "Truncations it stores.", state.truncations),
        ("log_bytes", "Bytes of the log.", activity.log),
        ("snapshot_bytes", "Bytes of the snapshot before the log.", activity.snapshot),
        ("log_generation", "Snapshots of this directory, from its first start.", activity.generation),
    ];
    gauges.into_iter().for_each(|(name, help, value)| metric(text, name, "gauge", help, value));
    metric(text, "log_written_bytes_total", "counter", "Bytes appended to the log.", activity.written);
    metric(text, "snapshots_total", "counter", "Snapshots that replaced a log.", activity.snapshots);
}

fn accepted_epoch(membership: &Membership) -> u64 {
    membership.accepted.map_or(0, |accepted| accepted.cut.epoch.into())
}

fn write_report(text: &mut String, seen: &Seen) {
    let Seen { membership, state, activity } = seen;
    let Membership { generation, birth, is_member, front, .. } = membership;
    let _ = match is_member {
        true => writeln!(text, "guard: a member, of generation {generation}; birth {birth}"),
        false => writeln!(text, "guard: not a member; birth {birth}"),
    };
    let _ = writeln!(text, "front: epoch {}, complete {}, minimum read point {}", front.epoch, front.complete, front.min);
    let _ = writeln!(text, "stores {} records and {} pages; folded up to {}", state.held, state.images, state.anchor);
    let _ = writeln!(text, "files: generation {}, log {} bytes, snapshot {} bytes", activity.generation, activity.log, activity.snapshot);
}

fn write_peer(text: &mut String, peer: &Peer, own: Option<Front>) {
    let lag = match (lag(peer, own), peer.front) {
        (Some(0), _) => "not ahead of this node".to_string(),
        (Some(lag), _) => format!("ahead of this node by {lag}"),
        (None, Some(front)) => format!("at epoch {}", front.epoch),
        (None, None) => "no answer yet".to_string(),
    };
    let trouble = peer.trouble.as_ref().map_or(String::new(), |why| format!("; last round: {why}"));
    let _ = writeln!(text, "peer {}: {}, {lag}{trouble}", peer.address, if peer.is_up { "up" } else { "down" });
}

#[cfg(test)]
mod tests {
    use super::*;
    use yieldcleat_client::engines;

    #[test]
    fn peers_of_another_epoch_have_no_lag() {
        let metrics = Metrics::new(100, ["unix:a\"b".to_string()].into_iter());
        let front = Front { epoch: 1, complete: 5, min: 0 };
        let state =
            yieldcleat_client::answers::state(b"state epoch 1 complete 5 min 0 anchor 0 base 0 held 5 kept 5 images 0 cuts 1 waits 0");
        let membership = engines::membership(b"status 3 7 1 1 5 0 3 1 0 0").unwrap();
        metrics.see(Seen { membership, state: state.unwrap(), activity: Activity::default() });
        assert!(
            metrics.text().contains("yieldcleat_guard_generation 3\n") && metrics.text().contains("yieldcleat_guard_accepted_epoch 1\n")
        );
        assert!(metrics.report().contains("guard: a member, of generation 3; birth 7\n"));
        metrics.with_peer(0, |peer| peer.front = Some(Front { complete: 9, ..front }));
        assert!(metrics.text().contains("yieldcleat_peer_lag{peer=\"unix:a\\\"b\"} 4\n"), "{}", metrics.text());
        assert!(metrics.report().contains("ahead of this node by 4"));
        metrics.with_peer(0, |peer| peer.front = Some(Front { epoch: 2, ..front }));
        assert!(!metrics.text().contains("yieldcleat_peer_lag{"));
        metrics.with_peer(7, |_| panic!("no such peer"));
    }
}

//! The nodes of a volume, and the time limits of its calls.

use std::fmt;
use std::time::Duration;
use yieldcleat_client::{Address, Limits};

/// The greatest number of nodes of a volume.
const MOST_NODES: usize = 15;
/// The longest time limit. A clock cannot count to the end of much longer ones, such as `Duration::MAX`.
pub(crate) const LONGEST_TIME: Duration = Duration::from_secs(365 * 24 * 3600);
/// A node may have all pages, and an opening requests everything that it has.
const LONGEST_ANSWER: u32 = 1 << 29;

/// The nodes of a volume, and the time limits of its calls.
#[derive(Debug, Clone, PartialEq, Eq)]
pub struct Options {
    /// The address of each node, by its number from 0. The list must be the same in each process that uses the volume.
    pub nodes: Vec<Address>,
    /// The number of nodes of a write quorum: more than half of them.
    pub quorum: u8,
    /// How long an opening, a commit and a read may take.
    pub patience: Duration,
    /// The limits of a connection; one whose answer takes longer is lost. Short requests and page reads wait for a fifth of `answer` for
    /// the next bytes, and for two fifths in all. The links of a writer wait for half of `patience` if that is longer, because an opening
    /// requests whole volumes.
    pub limits: Limits,
    /// The pause before another attempt to connect to a node.
    pub retry: Duration,
    /// How long nodes may be silent while a commit waits for them, before they are asked again.
    pub remind: Duration,
    /// How long an opening waits for further nodes once it has a quorum: it can admit a fresh node only if that has answered before.
    pub grace: Duration,
    /// How long a node that has lost its files is left to gossip, which brings it the log, before an open volume is opened again to admit
    /// it; also the least time between two such openings.
    pub admission: Duration,
    /// The number of bytes of mini-transactions that may be in flight before they are durable. A commit beyond that waits.
    pub in_flight: usize,
}

/// Why options do not describe a volume.
#[derive(Debug, Clone, Copy, PartialEq, Eq)]
pub enum BadOptions {
    /// The number of nodes is not 1 to 15.
    Nodes { count: usize },
    /// The quorum is not more than half of the nodes, or is more than all.
    Quorum { quorum: u8, nodes: usize },
    /// Two nodes, by their numbers from 0, have the same address: a quorum could be fewer disks than it counts.
    Twice { first: usize, second: usize },
}

impl fmt::Display for BadOptions {
    fn fmt(&self, f: &mut fmt::Formatter<'_>) -> fmt::Result {
        match self {
            BadOptions::Nodes { count } => write!(f, "{count} nodes: a volume has 1 to {MOST_NODES}"),
            BadOptions::Quorum { quorum, nodes } => write!(f, "{quorum} of {nodes} nodes cannot be a write quorum"),
            BadOptions::Twice { first, second } => write!(f, "nodes {} and {} have the same address", first + 1, second + 1),
        }
    }
}

impl std::error::Error for BadOptions {}

impl Options {
    /// Makes options for these nodes, with a quorum of two thirds of them (four of six) and default times.
    pub fn new(nodes: Vec<Address>) -> Options {
        let quorum = (nodes.len() * 2).div_ceil(3).max(nodes.len() / 2 + 1);
        Options {
            quorum: u8::try_from(quorum).unwrap_or(u8::MAX),
            nodes,
            patience: Duration::from_secs(10),
            limits: Limits { connect: Duration::from_secs(1), answer: Duration::from_secs(5), longest: LONGEST_ANSWER },
            retry: Duration::from_millis(100),
            remind: Duration::from_millis(30),
            grace: Duration::from_millis(250),
            admission: Duration::from_secs(2),
            in_flight: 8 << 20,
        }
    }

    /// Returns these options with each time cut to `LONGEST_TIME`.
    pub(crate) fn bounded(mut self) -> Options {
        let Limits { connect, answer, .. } = &mut self.limits;
        let times = [&mut self.patience, connect, answer, &mut self.retry, &mut self.remind, &mut self.grace, &mut self.admission];
        times.into_iter().for_each(|time| *time = LONGEST_TIME.min(*time));
        self
    }

    /// Returns the limits of a writer's links.
    pub(crate) fn of_links(&self) -> Limits {
        Limits { answer: self.limits.answer.max(self.patience / 2), ..self.limits }
    }

    /// Checks that these options describe a volume.
    pub fn check(&self) -> Result<(), BadOptions> {
        let (nodes, quorum) = (self.nodes.len(), self.quorum);
        if nodes == 0 || nodes > MOST_NODES {
            return Err(BadOptions::Nodes { count: nodes });
        }
        if usize::from(quorum) > nodes || 2 * usize::from(quorum) <= nodes {
            return Err(BadOptions::Quorum { quorum, nodes });
        }
        let twice = (0..nodes).find_map(|second| {
            let first = self.nodes[..second].iter().position(|it| *it == self.nodes[second])?;
            Some(BadOptions::Twice { first, second })
        });
        twice.map_or(Ok(()), Err)
    }
}

#[cfg(test)]
mod tests {
    use super::*;

    fn of(nodes: usize) -> Options {
        Options::new((0..nodes).map(|place| Address::Unix(format!("node{place}").into())).collect())
    }

    #[test]
    fn usual_quorums_intersect() {
        for nodes in 1..=15 {
            assert_eq!(of(nodes).check(), Ok(()), "{nodes}");
        }
        assert_eq!((of(6).quorum, of(3).quorum, of(1).quorum), (4, 2, 1));
    }

    #[test]
    fn links_of_a_patient_writer_wait_longer() {
        let seconds = Duration::from_secs;
        for (patience, answer) in [(1, 5), (10, 5), (60, 30)] {
            assert_eq!(Options { patience: seconds(patience), ..of(6) }.of_links().answer, seconds(answer));
        }
    }

    #[test]
    fn what_is_no_volume() {
        assert_eq!(of(0).check(), Err(BadOptions::Nodes { count: 0 }));
        assert_eq!(of(16).check(), Err(BadOptions::Nodes { count: 16 }));
        for quorum in [0, 3, 7] {
            assert_eq!(Options { quorum, ..of(6) }.check(), Err(BadOptions::Quorum { quorum, nodes: 6 }));
        }
        let mut options = of(6);
        options.nodes[4] = options.nodes[1].clone();
        assert_eq!(options.check(), Err(BadOptions::Twice { first: 1, second: 4 }));
    }
}

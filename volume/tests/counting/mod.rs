//! A machine that counts fronts. It opens nothing again and recovers nothing.

use std::collections::{BTreeMap, BTreeSet};
use yieldcleat_client::{Patch, Record};
use yieldcleat_volume::{Action, Event, Fault, Machine, OutOfMemory};

#[derive(Default)]
pub struct Counting {
    nodes: u8,
    quorum: usize,
    last: u64,
    pages: BTreeMap<u16, u64>,
    /// The records that are not durable, and which of them are commit points.
    kept: BTreeMap<u64, Vec<u8>>,
    commits: BTreeSet<u64>,
    fronts: BTreeMap<u8, u64>,
    durable: u64,
    is_opening: bool,
}

impl Counting {
    pub fn of(nodes: u8, quorum: u8) -> Counting {
        Counting { nodes, quorum: quorum.into(), ..Counting::default() }
    }

    fn all(&self, request: &[u8]) -> Vec<Action> {
        (0..self.nodes).map(|node| Action::Ask { node, request: request.to_vec() }).collect()
    }

    fn record(&mut self, page: u16, init: bool, patches: &[Patch]) -> Vec<Action> {
        let number = self.last + 1;
        let block_back = self.pages.insert(page, number).unwrap_or(0);
        let record = Record { epoch: 0, number, back: self.last, page, block_back, begins_anew: init, patches: patches.to_vec() };
        self.last = number;
        let request = [b"take ".to_vec(), record.encode().unwrap()].concat();
        self.kept.insert(number, request.clone());
        self.all(&request)
    }

    fn hear(&mut self, node: u8, answer: &str) -> Vec<Action> {
        if let Some(generation) = answer.strip_prefix("stale ") {
            return vec![Action::Refused(Fault::Fenced { generation: generation.parse().unwrap() })];
        }
        let Some(complete) = answer.strip_prefix("front 0 ").and_then(|rest| rest.split(' ').next()?.parse().ok()) else {
            return Vec::new();
        };
        self.fronts.insert(node, complete);
        let mut fronts: Vec<_> = self.fronts.values().copied().collect();
        fronts.sort_unstable();
        let Some(reached) = fronts.len().checked_sub(self.quorum).map(|place| fronts[place]) else {
            return Vec::new();
        };
        if self.is_opening {
            self.is_opening = false;
            return vec![Action::Opened { epoch: 0, commit_point: 0, header: Vec::new() }];
        }
        match self.commits.range(..=reached).next_back().copied().filter(|point| *point > self.durable) {
            Some(commit_point) => {
                self.durable = commit_point;
                self.kept.retain(|number, _| *number > commit_point);
                vec![Action::Durable { commit_point }]
            }
            None => Vec::new(),
        }
    }
}

impl Machine for Counting {
    fn step(&mut self, event: Event<'_>) -> Result<Vec<Action>, OutOfMemory> {
        Ok(match event {
            Event::Create => vec![Action::Created],
            Event::Open { .. } => {
                self.is_opening = true;
                self.all(b"front")
            }
            Event::Write { page, init, patches } => self.record(page, init, patches),
            Event::Commit { header } => {
                let start = [&[0; 10][..], &(header.len() as u16).to_be_bytes(), header].concat();
                let number = (self.last + 1).to_be_bytes();
                let mut actions = self.record(0, false, &[Patch::write(0, &start), Patch::write(4088, &number)]);
                self.commits.insert(self.last);
                actions.extend(self.all(b"front"));
                actions.push(Action::Committed { commit_point: self.last });
                actions
            }
            Event::Advance { point, .. } if point > self.durable => vec![Action::Refused(Fault::Ahead { durable: self.durable })],
            Event::Advance { .. } => Vec::new(),
            Event::Answered { node, answer, .. } => self.hear(node, &String::from_utf8_lossy(answer)),
            Event::Failed { node } => {
                let kept = self.kept.values().map(Vec::as_slice).chain([&b"front"[..]]);
                kept.map(|request| Action::Ask { node, request: request.to_vec() }).collect()
            }
        })
    }
}

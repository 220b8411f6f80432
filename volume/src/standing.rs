//! The statuses of the nodes, which show whether an engine has been fenced.

use crate::known::Known;
use crate::panel::Panel;
use std::collections::BTreeMap;
use std::time::Instant;
use yieldcleat_client::{engines, Calls, Connection, Membership};

/// The statuses of the nodes that have answered.
#[derive(Debug, Clone, PartialEq, Eq)]
pub struct Statuses {
    /// The last answer of each node.
    answered: BTreeMap<usize, Membership>,
    nodes: usize,
}

/// Asks a node for its status.
pub fn status(connection: &mut Connection) -> Option<Membership> {
    engines::membership(connection.ask(engines::STATUS).ok()?).ok()
}

/// Asks all nodes for their status. `until` returns until when to wait for the next answer, given those before.
pub fn ask_standing(panel: &Panel<Membership>, nodes: usize, until: impl Fn(&Statuses) -> Instant) -> Statuses {
    let (answers, mut statuses) = (panel.ask(), Statuses::none(nodes));
    while let Some((node, answer)) = answers.next(until(&statuses)) {
        answer.into_iter().for_each(|it| statuses.add(node, it));
    }
    statuses
}

impl Statuses {
    /// Makes the statuses of this many nodes without an answer.
    pub fn none(nodes: usize) -> Statuses {
        Statuses { answered: BTreeMap::new(), nodes }
    }

    pub fn add(&mut self, node: usize, status: Membership) {
        self.answered.insert(node, status);
    }

    /// Returns the number of nodes that have answered.
    pub fn count(&self) -> usize {
        self.answered.len()
    }

    /// Returns whether all nodes have answered, and none is a member.
    pub fn are_all_fresh(&self) -> bool {
        self.count() == self.nodes && self.answered.values().all(|it| !it.is_member)
    }

    /// Returns the greatest generation of a member; 0 without members.
    pub fn generation(&self) -> u64 {
        self.members().map(|it| it.generation).max().unwrap_or(0)
    }

    /// Returns whether members make a quorum, and none of them has a birth of this volume.
    pub fn are_of_another(&self, own: &Known, quorum: u8) -> bool {
        let found = Known::of((0, 0), self.members().map(|it| it.birth));
        self.members().count() >= usize::from(quorum) && !found.meets(own)
    }

    fn members(&self) -> impl Iterator<Item = &Membership> {
        self.answered.values().filter(|it| it.is_member)
    }

    /// Returns the greatest generation of a member, if it is above this one.
    pub fn later_than(&self, generation: u64) -> Option<u64> {
        Some(self.generation()).filter(|found| *found > generation)
    }

    /// Returns whether members of this generation make a quorum, and no member has a later generation.
    pub fn are_of(&self, generation: u64, quorum: u8) -> bool {
        self.later_than(generation).is_none() && self.members().filter(|it| it.generation == generation).count() >= usize::from(quorum)
    }

    /// Returns whether members make a quorum, of whatever generations.
    pub fn have_members(&self, quorum: u8) -> bool {
        self.members().count() >= usize::from(quorum)
    }

    /// Returns whether each node that is not a member is in this epoch and complete up to the point.
    pub fn fresh_have(&self, epoch: u16, point: u64) -> bool {
        let mut fresh = self.answered.values().filter(|it| !it.is_member);
        fresh.all(|it| it.front.epoch == epoch && it.front.complete >= point)
    }

    /// Returns the nodes that are not members, are in this epoch and are complete up to the point.
    pub fn fresh_with(&self, epoch: u16, point: u64) -> impl Iterator<Item = usize> + '_ {
        let fresh = self.answered.iter().filter(|it| !it.1.is_member);
        fresh.filter(move |it| it.1.front.epoch == epoch && it.1.front.complete >= point).map(|it| *it.0)
    }

    /// Returns a bound on all points of this epoch that any process has seen durable. It counts nodes that have not answered as if they had
    /// everything.
    pub fn bound(&self, epoch: u16, quorum: u8) -> u64 {
        let mut points: Vec<_> = self.members().map(|it| if it.front.epoch == epoch { it.front.complete } else { 0 }).collect();
        points.sort_unstable_by(|one, other| other.cmp(one));
        let others = self.nodes.saturating_sub(points.len());
        usize::from(quorum).checked_sub(others + 1).map_or(u64::MAX, |place| points.get(place).copied().unwrap_or(0))
    }
}

#[cfg(test)]
mod tests {
    use super::*;
    use yieldcleat_client::Front;

    fn of(answered: &[(u64, bool, u64)], nodes: usize) -> Statuses {
        let member = |it: &(u64, bool, u64)| {
            let front = Front { epoch: 1, complete: it.2, min: 0 };
            Membership { generation: it.0, birth: 7, is_member: it.1, front, accepted: None }
        };
        Statuses { answered: answered.iter().map(member).enumerate().collect(), nodes }
    }

    #[test]
    fn a_quorum_of_members_of_the_generation() {
        assert!(of(&[(3, true, 0), (3, true, 0)], 3).are_of(3, 2));
        assert!(!of(&[(3, true, 0), (3, false, 0)], 3).are_of(3, 2));
        assert!(!of(&[(3, true, 0), (2, true, 0)], 3).are_of(3, 2));
        assert!(!of(&[(3, true, 0), (3, true, 0), (4, true, 0)], 3).are_of(3, 2));
        assert_eq!(of(&[(3, true, 0), (4, true, 0)], 3).later_than(3), Some(4));
        assert_eq!(of(&[(3, true, 0)], 3).later_than(3), None);
    }

    #[test]
    fn members_of_another_volume() {
        let found = of(&[(3, true, 0), (3, true, 0), (0, false, 0)], 3);
        assert!(found.are_of_another(&Known::of((1, 9), [1, 2]), 2));
        assert!(!found.are_of_another(&Known::of((1, 9), [1, 7]), 2));
        assert!(!found.are_of_another(&Known::of((1, 9), [1, 2]), 3));
    }

    #[test]
    fn fresh_nodes() {
        assert!(of(&[(0, false, 0), (0, false, 0)], 2).are_all_fresh());
        assert!(!of(&[(0, false, 0)], 2).are_all_fresh());
        assert!(!of(&[(0, false, 0), (1, true, 0)], 2).are_all_fresh());
    }

    #[test]
    fn the_bound_of_what_is_durable() {
        assert_eq!(of(&[(3, true, 9), (3, true, 5), (3, true, 7)], 3).bound(1, 2), 7);
        assert_eq!(of(&[(3, true, 9), (3, true, 5)], 3).bound(1, 2), 9);
        assert_eq!(of(&[(3, true, 9), (3, true, 5)], 3).bound(2, 2), 0);
    }
}

//! The newest durable commit point, as a process that only reads can learn it from the nodes.

use crate::page_zero::PageZero;
use yieldcleat_client::{answers, engines, Calls, Connection, Membership, PAGE_LEN};

/// What a member reports: the epoch of its front, and page 0 at its complete point.
#[derive(Debug, Clone, Copy, PartialEq, Eq)]
pub struct Shown {
    pub epoch: u16,
    /// The epoch in which page 0 was last written.
    pub written: u16,
    pub commit_point: u64,
    /// Whether no engine later than the one that wrote page 0 has fenced the node.
    pub is_unfenced: bool,
}

/// Asks a node for its status, and a member also for page 0.
pub fn show(connection: &mut Connection) -> Option<(Membership, Option<Shown>)> {
    let status = engines::membership(connection.ask(engines::STATUS).ok()?).ok()?;
    if !status.is_member {
        return Some((status, None));
    }
    let read = format!("read 0 {} 0 {PAGE_LEN}", status.front.complete);
    let page = PageZero::read(&answers::bytes(connection.ask(read.as_bytes()).ok()?, "page ").ok()?)?;
    let is_unfenced = page.generation >= status.generation;
    let shown = Shown { epoch: status.front.epoch, written: page.epoch, commit_point: page.commit_point, is_unfenced };
    Some((status, Some(shown)))
}

/// What the nodes of the newest epoch show together.
#[derive(Debug, Clone, Copy, PartialEq, Eq)]
pub struct Together {
    pub epoch: u16,
    /// The greatest commit point that is certain to be durable.
    pub durable: Option<u64>,
    /// A bound on all commits that any process has seen durable.
    pub bound: Option<u64>,
}

fn nth_greatest(points: impl Iterator<Item = u64>, place: usize) -> Option<u64> {
    let mut points: Vec<_> = points.collect();
    points.sort_unstable_by(|one, other| other.cmp(one));
    points.get(place).copied()
}

/// Combines what members report, of `nodes` nodes.
///
/// Page 0 of an earlier epoch is at or below the truncation that began the present one, so its commit is durable. So is a commit of the
/// present epoch at a quorum that no later engine had fenced: an engine that fences a quorum later finds it. A durable commit is at each
/// node of some quorum, so `bound` counts nodes that report nothing as if they had it.
pub fn together(shown: &[Shown], nodes: usize, quorum: usize) -> Option<Together> {
    let epoch = shown.iter().map(|it| it.epoch).max()?;
    let here: Vec<_> = shown.iter().filter(|it| it.epoch == epoch).collect();
    let settled = here.iter().filter(|it| it.written < epoch || epoch == 0).map(|it| it.commit_point).max();
    let counted = here.iter().filter(|it| it.written == epoch && it.is_unfenced).map(|it| it.commit_point);
    let durable = settled.max(nth_greatest(counted, quorum.saturating_sub(1)));
    let others = nodes.saturating_sub(here.len());
    let bound = quorum.checked_sub(others + 1).and_then(|place| nth_greatest(here.iter().map(|it| it.commit_point), place));
    Some(Together { epoch, durable, bound })
}

#[cfg(test)]
mod tests {
    use super::*;

    /// Combines nodes: each has an epoch, that of its page 0, a commit point, and whether no later engine has fenced it.
    fn of(shown: &[(u16, u16, u64, bool)], nodes: usize, quorum: usize) -> (Option<u64>, Option<u64>) {
        let shown: Vec<_> = shown.iter().map(|it| Shown { epoch: it.0, written: it.1, commit_point: it.2, is_unfenced: it.3 }).collect();
        together(&shown, nodes, quorum).map_or((None, None), |it| (it.durable, it.bound))
    }

    #[test]
    fn a_quorum_of_the_newest_epoch_counts() {
        assert_eq!(of(&[(1, 1, 9, true), (1, 1, 5, true), (1, 1, 7, true)], 3, 2), (Some(7), Some(7)));
        assert_eq!(of(&[(1, 1, 9, true), (2, 2, 5, true), (1, 1, 7, true)], 3, 2), (None, None));
        assert_eq!(of(&[(1, 1, 9, true), (2, 2, 5, true), (2, 2, 4, true)], 3, 2), (Some(4), Some(5)));
        assert_eq!(of(&[], 1, 1), (None, None));
    }

    #[test]
    fn what_was_seen_durable_is_not_missed() {
        // Two of the four that had 9 are unreachable.
        assert_eq!(of(&[(1, 1, 9, true), (1, 1, 9, true), (1, 1, 5, true), (1, 1, 5, true)], 6, 4), (Some(5), Some(9)));
        assert_eq!(of(&[(1, 1, 9, true), (1, 1, 5, true), (1, 1, 5, true), (1, 1, 5, true)], 6, 4), (Some(5), Some(5)));
        assert_eq!(of(&[(1, 1, 9, true); 2], 6, 4), (None, None));
        assert_eq!(of(&[(1, 1, 9, true); 3], 6, 4), (None, Some(9)));
    }

    #[test]
    fn an_epoch_without_commits_is_durable_up_to_its_beginning() {
        assert_eq!(of(&[(3, 2, 9, false), (3, 2, 9, false), (3, 2, 9, false)], 6, 4), (Some(9), Some(9)));
        // One of them lacks earlier records.
        assert_eq!(of(&[(3, 2, 4, false), (3, 2, 9, false), (2, 2, 20, true)], 3, 2), (Some(9), Some(9)));
        assert_eq!(of(&[(3, 2, 4, false), (2, 2, 20, true), (2, 2, 20, true)], 3, 2), (Some(4), None));
        assert_eq!(of(&[(0, 0, 0, false); 3], 3, 2), (Some(0), Some(0)));
    }

    #[test]
    fn nodes_of_a_later_engine_count_for_nothing() {
        assert_eq!(of(&[(1, 1, 9, false), (1, 1, 9, false), (1, 1, 9, true)], 3, 2), (None, Some(9)));
    }
}

//! The newest durable commit point that a handle knows, and the volume that it belongs to.

use std::collections::BTreeSet;

/// What a handle knows of a volume.
///
/// A place may have another volume later, once all nodes have lost their files. The births of members distinguish volumes: the nodes of a
/// new volume are fresh, so no birth belongs to members of two volumes.
#[derive(Debug, Clone, Default, PartialEq, Eq)]
pub struct Known {
    births: BTreeSet<u64>,
    newest: (u16, u64),
}

impl Known {
    /// Makes this of a durable commit point with its epoch, and the births of present or former members of the volume.
    pub fn of(newest: (u16, u64), births: impl IntoIterator<Item = u64>) -> Known {
        Known { births: births.into_iter().collect(), newest }
    }

    /// Returns the epoch and the commit point.
    pub fn newest(&self) -> (u16, u64) {
        self.newest
    }

    /// Returns whether both are certain to be of one volume.
    pub fn meets(&self, other: &Known) -> bool {
        !self.births.is_disjoint(&other.births)
    }

    /// Adds what was learned just now. If that is of another volume, it replaces what is known.
    pub fn learn(&mut self, found: &Known) {
        if !self.meets(found) {
            *self = found.clone();
            return;
        }
        self.births.extend(&found.births);
        self.newest = self.newest.max(found.newest);
    }
}

#[cfg(test)]
mod tests {
    use super::*;

    #[test]
    fn points_of_one_volume_rise() {
        let mut known = Known::of((1, 9), [1, 2, 3]);
        known.learn(&Known::of((1, 5), [3, 4]));
        assert_eq!(known, Known::of((1, 9), [1, 2, 3, 4]));
        known.learn(&Known::of((2, 7), [4]));
        assert_eq!(known.newest(), (2, 7));
    }

    #[test]
    fn another_volume_begins_anew() {
        let mut known = Known::of((3, 9), [1, 2, 3]);
        known.learn(&Known::of((1, 5), [4, 5, 6]));
        assert_eq!(known, Known::of((1, 5), [4, 5, 6]));
        assert!(!Known::default().meets(&Known::default()));
    }
}

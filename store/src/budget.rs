//! The limit on the bytes of long requests in memory.

use std::sync::{Condvar, Mutex, MutexGuard, PoisonError};

/// A number of bytes that connections share. A connection that gets none waits and reads nothing, so its client waits too.
pub struct Budget {
    total: usize,
    left: Mutex<usize>,
    freed: Condvar,
}

impl Budget {
    pub fn new(total: usize) -> Budget {
        Budget { total, left: Mutex::new(total), freed: Condvar::new() }
    }

    /// Returns the number of bytes in use.
    pub fn taken(&self) -> usize {
        self.total - *self.lock()
    }

    /// Waits for `bytes` bytes. `None` if that is more than the whole budget.
    pub fn take(&self, bytes: usize) -> Option<Share<'_>> {
        if bytes > self.total {
            return None;
        }
        let left = self.freed.wait_while(self.lock(), |left| *left < bytes);
        *left.unwrap_or_else(PoisonError::into_inner) -= bytes;
        Some(Share { budget: self, bytes })
    }

    fn lock(&self) -> MutexGuard<'_, usize> {
        self.left.lock().unwrap_or_else(PoisonError::into_inner)
    }
}

/// Bytes of the budget, which return to it when this is dropped.
pub struct Share<'a> {
    budget: &'a Budget,
    bytes: usize,
}

impl Drop for Share<'_> {
    fn drop(&mut self) {
        *self.budget.lock() += self.bytes;
        self.budget.freed.notify_all();
    }
}

#[cfg(test)]
mod tests {
    use super::*;
    use std::sync::mpsc;
    use std::thread;
    use std::time::Duration;

    #[test]
    fn a_share_is_waited_for() {
        let budget = Budget::new(100);
        assert!(budget.take(101).is_none());
        let first = budget.take(60).unwrap();
        let (sender, receiver) = mpsc::channel();
        thread::scope(|scope| {
            scope.spawn(|| {
                let _share = budget.take(50);
                sender.send(budget.taken()).unwrap();
            });
            assert!(receiver.recv_timeout(Duration::from_millis(50)).is_err());
            drop(first);
            assert_eq!(receiver.recv().unwrap(), 50);
        });
        assert_eq!(budget.taken(), 0);
    }
}

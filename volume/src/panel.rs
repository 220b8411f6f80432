//! A question to all nodes at once, with a thread for each node, so that a slow or unreachable node delays no other.

use crate::nodes::Nodes;
use std::mem;
use std::sync::mpsc::{self, Receiver, Sender};
use std::sync::{Arc, Condvar, Mutex, MutexGuard, PoisonError, Weak};
use std::thread;
use std::time::Instant;
use yieldcleat_client::Connection;

/// The question of a panel. It uses the connection to a node, and may send several requests.
pub type Question<T> = fn(&mut Connection) -> Option<T>;

/// A caller that waits for the next answer of a node.
struct Waiting<T> {
    /// Cannot be upgraded once the caller has stopped waiting.
    asker: Weak<()>,
    answers: Sender<(usize, Option<T>)>,
}

/// The next work of a thread: the question is sent once for all callers that wait, because it is sent after each of them has called.
struct Slot<T> {
    waiting: Vec<Waiting<T>>,
    is_stopped: bool,
}

struct Desk<T> {
    slot: Mutex<Slot<T>>,
    changed: Condvar,
}

impl<T> Desk<T> {
    fn new() -> Desk<T> {
        Desk { slot: Mutex::new(Slot { waiting: Vec::new(), is_stopped: false }), changed: Condvar::new() }
    }

    fn lock(&self) -> MutexGuard<'_, Slot<T>> {
        self.slot.lock().unwrap_or_else(PoisonError::into_inner)
    }

    fn change(&self, change: impl FnOnce(&mut Slot<T>)) {
        change(&mut self.lock());
        self.changed.notify_one();
    }

    /// Returns the callers that wait, once there are any. `None` if the thread must end.
    fn next(&self) -> Option<Vec<Waiting<T>>> {
        let is_idle = |slot: &mut Slot<T>| !slot.is_stopped && slot.waiting.is_empty();
        let mut slot = self.changed.wait_while(self.lock(), is_idle).unwrap_or_else(PoisonError::into_inner);
        (!slot.is_stopped).then(|| mem::take(&mut slot.waiting))
    }
}

/// The threads. They end after this is dropped, each at the latest when the answer that it waits for times out.
pub struct Panel<T> {
    desks: Vec<Arc<Desk<T>>>,
}

/// The answers of the nodes to one question, as they arrive.
pub struct Answers<T> {
    answers: Receiver<(usize, Option<T>)>,
    /// Shows that the caller is waiting.
    _asker: Arc<()>,
}

impl<T> Answers<T> {
    /// Returns the next node, with its answer or `None` if it does not answer. `None` if all nodes are done, or at the deadline.
    pub fn next(&self, deadline: Instant) -> Option<(usize, Option<T>)> {
        self.answers.recv_timeout(deadline.saturating_duration_since(Instant::now())).ok()
    }
}

impl<T: Clone + Send + 'static> Panel<T> {
    /// Starts the threads, for this question.
    ///
    /// Errors: that of a thread that could not be started.
    pub fn start(nodes: &Arc<Nodes>, question: Question<T>) -> std::io::Result<Panel<T>> {
        let mut panel = Panel { desks: Vec::new() };
        for node in 0..nodes.count() {
            let (desk, nodes) = (Arc::new(Desk::new()), nodes.clone());
            panel.desks.push(desk.clone());
            let work = move || {
                while let Some(waiting) = desk.next() {
                    let answer = nodes.ask(node, question);
                    // A caller may have stopped waiting.
                    waiting.into_iter().for_each(|it| drop(it.answers.send((node, answer.clone()))));
                }
            };
            thread::Builder::new().name(format!("ask {node}")).spawn(work)?;
        }
        Ok(panel)
    }

    /// Asks all nodes.
    pub fn ask(&self) -> Answers<T> {
        let ((sender, answers), asker) = (mpsc::channel(), Arc::new(()));
        for desk in &self.desks {
            let waiting = Waiting { asker: Arc::downgrade(&asker), answers: sender.clone() };
            desk.change(|slot| {
                slot.waiting.retain(|it| it.asker.strong_count() > 0);
                slot.waiting.push(waiting);
            });
        }
        Answers { answers, _asker: asker }
    }
}

impl<T> Drop for Panel<T> {
    fn drop(&mut self) {
        self.desks.iter().for_each(|desk| desk.change(|slot| slot.is_stopped = true));
    }
}

//! One connection to each node for short requests, which the threads of a panel and readers of pages share.

use crate::options::Options;
use std::sync::atomic::{AtomicBool, Ordering};
use std::sync::{Mutex, MutexGuard, PoisonError, TryLockError};
use std::time::{Duration, Instant};
use yieldcleat_client::{Address, Calls, Connection, Limits};

/// The greatest number of bytes of an answer to a short request, which has a page at most.
const LONGEST: u32 = 1 << 16;

/// A node, and the connection to it if there is one.
struct Place {
    address: Address,
    connection: Mutex<Option<Connection>>,
    /// Whether it answered its last request.
    is_answering: AtomicBool,
}

/// The nodes of a volume, numbered from 0.
pub struct Nodes {
    places: Vec<Place>,
    limits: Limits,
}

impl Nodes {
    pub fn new(options: &Options) -> Nodes {
        let place =
            |address: &Address| Place { address: address.clone(), connection: Mutex::new(None), is_answering: AtomicBool::new(false) };
        // Another node is used instead of one that does not answer for this long.
        let limits = Limits { answer: options.limits.answer / 5, longest: LONGEST, ..options.limits };
        Nodes { places: options.nodes.iter().map(place).collect(), limits }
    }

    pub fn count(&self) -> usize {
        self.places.len()
    }

    /// Returns the number of nodes that answered their last request.
    pub fn answering(&self) -> usize {
        self.places.iter().filter(|place| place.is_answering.load(Ordering::Relaxed)).count()
    }

    /// Asks a node, once no other thread uses its connection, over a new one if there is none. `None` if the node does not answer.
    pub fn ask<T>(&self, node: usize, question: impl FnOnce(&mut Connection) -> Option<T>) -> Option<T> {
        let place = self.places[node].connection.lock().unwrap_or_else(PoisonError::into_inner);
        self.ask_in(node, place, self.limits.connect + 2 * self.limits.answer, question)
    }

    /// Sends a node one request. `None` if another thread is using the connection, or if the node does not answer before the deadline.
    pub fn try_ask(&self, node: usize, request: &[u8], deadline: Instant) -> Option<Vec<u8>> {
        let patience = deadline.checked_duration_since(Instant::now()).filter(|left| !left.is_zero())?;
        let place = match self.places[node].connection.try_lock() {
            Ok(place) => place,
            Err(TryLockError::Poisoned(poisoned)) => poisoned.into_inner(),
            Err(TryLockError::WouldBlock) => return None,
        };
        self.ask_in(node, place, patience, |connection| Some(connection.ask(request).ok()?.to_vec()))
    }

    fn ask_in<T>(
        &self,
        node: usize,
        mut place: MutexGuard<'_, Option<Connection>>,
        patience: Duration,
        question: impl FnOnce(&mut Connection) -> Option<T>,
    ) -> Option<T> {
        let end = Instant::now() + patience;
        if !place.as_ref().is_some_and(Connection::is_open) {
            let limits = Limits { connect: self.limits.connect.min(patience), ..self.limits };
            *place = Connection::open(&self.places[node].address, limits).ok();
        }
        let answer = place.as_mut().and_then(|connection| {
            // Another node is also used instead of one that answers slowly.
            connection.end_at(Some(end.min(Instant::now() + 2 * self.limits.answer))).ok()?;
            question(connection)
        });
        self.places[node].is_answering.store(answer.is_some(), Ordering::Relaxed);
        answer
    }
}

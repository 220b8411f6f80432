//! What the handles of this process together know of a volume, so that a reader can continue where a writer was lost.

use std::collections::BTreeMap;
use std::path::{Path, PathBuf};
use std::sync::{Arc, Mutex, MutexGuard, PoisonError};
use yieldcleat_volume::Known;

/// What is known of the volume of one place.
#[derive(Default)]
pub struct Shared(Mutex<Known>);

static PLACES: Mutex<BTreeMap<PathBuf, Arc<Shared>>> = Mutex::new(BTreeMap::new());

fn lock<T>(mutex: &Mutex<T>) -> MutexGuard<'_, T> {
    mutex.lock().unwrap_or_else(PoisonError::into_inner)
}

impl Shared {
    /// Returns what is known of the volume of a place.
    pub fn of(place: &Path) -> Arc<Shared> {
        lock(&PLACES).entry(place.into()).or_default().clone()
    }

    pub fn learn(&self, found: &Known) {
        lock(&self.0).learn(found);
    }

    pub fn known(&self) -> Known {
        lock(&self.0).clone()
    }
}

//! The latest state of the page, handed from the one thread that reads the log to those of the clients. Nobody who reads it can hold the log up.

use std::sync::{Arc, Condvar, Mutex, MutexGuard, PoisonError};
use std::time::Duration;

#[derive(Default)]
pub struct News {
    latest: Mutex<(u64, Arc<str>)>,
    told: Condvar,
}

impl News {
    fn latest(&self) -> MutexGuard<'_, (u64, Arc<str>)> {
        self.latest.lock().unwrap_or_else(PoisonError::into_inner)
    }

    pub fn tell(&self, state: String) {
        let mut latest = self.latest();
        latest.0 += 1;
        latest.1 = state.into();
        drop(latest);
        self.told.notify_all();
    }

    /// The first state behind number `seen`, with its own; `None` where none came in that time.
    pub fn after(&self, seen: u64, patience: Duration) -> Option<(u64, Arc<str>)> {
        let latest = self.latest();
        let waited = self.told.wait_timeout_while(latest, patience, |latest| latest.0 <= seen);
        let (latest, _) = waited.unwrap_or_else(PoisonError::into_inner);
        (latest.0 > seen).then(|| latest.clone())
    }
}

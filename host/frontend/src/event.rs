//! An event channel: a bell that stays rung until it is heard.

use std::sync::{Condvar, Mutex, PoisonError};
use std::time::Duration;

/// One direction of an event channel. A notification before the wait is not lost, and several
/// before it are one.
#[derive(Debug, Default)]
pub struct EventChannel {
    pending: Mutex<bool>,
    rung: Condvar,
}

impl EventChannel {
    /// A channel with nothing pending.
    pub fn new() -> EventChannel {
        EventChannel::default()
    }

    /// Rings.
    pub fn notify(&self) {
        *self.pending.lock().unwrap_or_else(PoisonError::into_inner) = true;
        self.rung.notify_all();
    }

    /// Sleeps until it rings, or for no longer than the bound. Says whether it rang, and hears it.
    #[must_use = "a wait that ran out heard nothing"]
    pub fn wait(&self, bound: Duration) -> bool {
        let pending = self.pending.lock().unwrap_or_else(PoisonError::into_inner);
        let waited = self.rung.wait_timeout_while(pending, bound, |rung| !*rung);
        let (mut pending, _) = waited.unwrap_or_else(PoisonError::into_inner);
        std::mem::take(&mut *pending)
    }

    /// Hears a ring without sleeping.
    #[must_use = "a ring that is heard is gone"]
    pub fn heard(&self) -> bool {
        self.wait(Duration::ZERO)
    }
}

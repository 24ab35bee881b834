//! What a guest and the host share: the ring, the granted frames, the bells, and the state of their
//! connection.

use crate::frames::Frames;
use frontend::{EventChannel, GuestRing};
use kernelharp::{Abi, Pages};
use std::sync::atomic::AtomicU64;
use std::sync::{Mutex, PoisonError};
use std::time::Duration;

/// Nobody sleeps as long unless a wake-up is lost, a slow medium included.
pub const BOUND: Duration = Duration::from_secs(60);

/// How far a connection is; a toolstack would carry this.
#[derive(Clone, Copy, Debug, PartialEq, Eq)]
pub enum State {
    /// The guest has an unused ring of this layout and size for the host to open, and waits for
    /// responses on it before it goes on to another state.
    Initialised(Abi, Pages),
    /// The host has opened the port.
    Connected,
    /// The guest wants the port closed for good.
    Closing,
    /// The host has closed the port after an overrun.
    Closed,
    /// Nothing more happens here.
    Finished,
}

/// One guest's connection.
pub struct Link {
    pub ring: &'static GuestRing,
    pub frames: Frames,
    pub to_guest: EventChannel,
    /// Rounds that the guest has done, for the progress line.
    pub rounds: AtomicU64,
    state: Mutex<State>,
}

impl Link {
    pub fn new(ring: &'static GuestRing, abi: Abi, pages: Pages, frames: Frames) -> Link {
        Link {
            ring,
            frames,
            to_guest: EventChannel::new(),
            rounds: AtomicU64::new(0),
            state: Mutex::new(State::Initialised(abi, pages)),
        }
    }

    pub fn state(&self) -> State {
        *self.state.lock().unwrap_or_else(PoisonError::into_inner)
    }

    /// Goes to another state and rings the other side's bell.
    pub fn go(&self, state: State, bell: &EventChannel) {
        *self.state.lock().unwrap_or_else(PoisonError::into_inner) = state;
        bell.notify();
    }
}

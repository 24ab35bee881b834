//! The guest's side of a ring, for the tests and the demo: what a frontend does with the macros of
//! Xen's public ring.h. It has both layouts, rings of one page and of two, and nothing of the library's
//! guest's half, so that each can stand in for the other.
//!
//! [`GuestRing`] is the memory of a ring that a guest thread and a host thread share, and [`row`] that of all
//! ports side by side; [`Frontend`] is the guest's private indices over it and the layout and size that it
//! keeps, [`Request`] what it puts there, [`Response`] what it reads back, and [`EventChannel`] the bell
//! between the two.

mod event;
mod memory;
mod request;
mod ring;

pub use event::EventChannel;
pub use memory::{row, GuestRing};
pub use request::{Request, Response};
pub use ring::Frontend;

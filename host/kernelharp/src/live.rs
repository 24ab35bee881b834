//! Rings that the other side may write at the same time.
//!
//! A host has the choice between two ways to lend such rings. [`LiveBackend`] lends **private copies**:
//! before a call what the call reads is copied in, to a private ring, and after it what the call wrote
//! is copied out, never more, for that would undo what the other side wrote meanwhile. [`DirectBackend`]
//! lends the **live pages** themselves, mapped in one [`Row`], and copies nothing: a call loads each
//! byte once and acts on what it loaded, and stores responses before the index that publishes them.
//! That holds of the archive as it is tested, on x86-64; the proof speaks of bytes that don't change
//! during a call, as those of private copies. Fences, second looks and copies are ordinary code, which
//! is tested.
//!
//! [`Mapping`] is a page where it is mapped, [`SharedRing`] a ring with what the host counts of its
//! port, and [`LiveBackend`] a [`crate::Backend`] over up to eight of them, with the fences and second
//! looks that ring.h's macros have and a call over private rings cannot:
//!
//! | when | what is done |
//! |---|---|
//! | before a turn | req_prod, a read fence, the next request, rsp_event of each port that is served in |
//! | before a completion, or a list of them | rsp_event in |
//! | after a response | its 16 or 12 bytes out, a write fence, rsp_prod out, a full fence, rsp_event once more |
//! | after a list | the same, once for all of its responses |
//! | after an idle turn | req_event out, a full fence, one more turn |
//!
//! A turn takes at most one request of a port, so no more than the next one is copied in, and it is
//! copied once. What a guest writes there before that is served; what it writes afterwards is not.
//!
//! Where a request lies and how long a response is goes by the port's layout ([`crate::Abi`]) and its
//! pages ([`crate::Pages`]), which [`LiveBackend::open`] takes from the sheet. Two pages are mapped each
//! by itself: a guest grants them one by one, and they need not follow each other in memory. A record of
//! a 32-bit guest can begin in the one and end in the other.
//!
//! With live pages the second looks are what is left:
//!
//! | when | what is done |
//! |---|---|
//! | after a response | a full fence, rsp_event once more |
//! | after a list | the same, once for all of its responses |
//! | after an idle turn | a full fence, one more turn |
//!
//! For guests, of the 64-bit layout and with one page: [`OwnPage`] is the guest's page with what it
//! counts itself, [`LiveGuest`] a [`crate::Guest`] over it:
//!
//! | when | what is done |
//! |---|---|
//! | before a put | req_event in |
//! | after a put | the slot's 112 bytes out, a write fence, req_prod out, a full fence, req_event once more |
//! | before a collect | rsp_prod, a read fence, the next response's 16 bytes in |
//! | after a collect that found nothing | rsp_event out, a full fence, one more collect |

mod backend;
mod copy;
mod counters;
mod direct;
mod guest;
mod looks;
mod own;
mod references;
mod ring;
#[cfg(test)]
mod tests;
mod trace;

pub use crate::ffi::{Mapping, Row, PAGE_WORDS, ROW_WORDS};
pub use backend::{LiveBackend, NotOpened};
pub use counters::{Counters, State, REASONS};
pub use direct::DirectBackend;
pub use guest::LiveGuest;
pub use own::OwnPage;
pub use references::Grant;
pub use ring::SharedRing;

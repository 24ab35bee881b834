//! A guest's side of its ring: the library's guest's half for 64-bit guests with one page, and for those of
//! 32 bits or with two pages, which it does not have, a front end in plain Rust.

use crate::profile::Profile;
use crate::wish::Wish;
use frontend::{Frontend, GuestRing};
use kernelharp::live::LiveGuest;
use kernelharp::{ArchiveMismatch, Refusal};

/// Either of the two.
pub enum Front {
    Library {
        guest: LiveGuest,
        /// Whether the backend is to be notified of what was put since the last publishing.
        notify: bool,
    },
    Plain(Frontend),
}

/// A response as either of the two has it.
#[derive(Clone, Copy, Debug, PartialEq, Eq)]
pub struct Response {
    pub id: u64,
    pub operation: u8,
    pub status: i16,
}

impl Front {
    /// Begins on a ring that no host looks at yet: the library's half fills it with zeros.
    pub fn new(ring: &'static GuestRing, profile: &Profile) -> Result<Front, ArchiveMismatch> {
        let sheet = profile.sheet;
        if !profile.has_library_front() {
            return Ok(Front::Plain(Frontend::new(ring, sheet.abi, sheet.pages)));
        }
        Ok(Front::Library {
            guest: LiveGuest::new(ring.mapping())?,
            notify: false,
        })
    }

    /// Whether it is the library's, which refuses requests that are malformed.
    pub fn is_library(&self) -> bool {
        matches!(self, Front::Library { .. })
    }

    /// Puts a request. The plain one keeps it back until it is published.
    pub fn put(&mut self, wish: &Wish) -> Result<(), Refusal> {
        match self {
            Front::Library { guest, notify } => {
                let request = wish.typed();
                *notify |= guest.put(&request.expect("one that the types have"))?;
            }
            Front::Plain(frontend) => frontend.put(&wish.plain()),
        }
        Ok(())
    }

    /// Whether the backend is to be notified of what was put. From then on it sees all of it.
    #[must_use = "a backend that is not notified may sleep for ever"]
    pub fn publish(&mut self) -> bool {
        match self {
            Front::Library { notify, .. } => std::mem::take(notify),
            Front::Plain(frontend) => frontend.publish(),
        }
    }

    /// The next response. When there is none, the backend has been asked for an event, and the guest
    /// may sleep.
    pub fn collect(&mut self) -> Result<Option<Response>, String> {
        match self {
            Front::Library { guest, .. } => {
                let collected = guest.collect().map_err(|refusal| refusal.to_string())?;
                Ok(collected.map(|it| Response {
                    id: it.id,
                    operation: it.operation as u8,
                    status: it.status_bits as i16,
                }))
            }
            Front::Plain(frontend) => collect_plainly(frontend),
        }
    }
}

fn collect_plainly(frontend: &mut Frontend) -> Result<Option<Response>, String> {
    let mut found = frontend.response();
    if found.is_none() && frontend.final_check() {
        found = frontend.response();
    }
    match found {
        Some(it) if !it.padding_is_zero => Err(format!("{it:?}: bytes without a meaning")),
        found => Ok(found.map(|it| Response {
            id: it.id,
            operation: it.operation,
            status: it.status,
        })),
    }
}

//! A guest's private indices over its ring; ring.h's macro for each step is named.

use crate::{GuestRing, Request, Response};
use kernelharp::layout::{REQ_EVENT, REQ_PROD, RSP_EVENT, RSP_PROD};
use kernelharp::{Abi, Pages};
use std::sync::atomic::{fence, Ordering};

/// A guest's side of a ring.
#[derive(Debug)]
pub struct Frontend {
    ring: &'static GuestRing,
    /// How the guest lays out its requests.
    abi: Abi,
    /// How many pages its ring has.
    pages: Pages,
    /// Requests put.
    req_prod_pvt: u32,
    /// Requests published.
    published: u32,
    /// Responses read.
    rsp_cons: u32,
}

impl Frontend {
    /// Begins on an unused ring (FRONT_RING_INIT).
    pub fn new(ring: &'static GuestRing, abi: Abi, pages: Pages) -> Frontend {
        Frontend {
            ring,
            abi,
            pages,
            req_prod_pvt: 0,
            published: 0,
            rsp_cons: 0,
        }
    }

    /// How many more requests there is room for (RING_FREE_REQUESTS).
    pub fn free(&self) -> u32 {
        self.pages.slots() - self.req_prod_pvt.wrapping_sub(self.rsp_cons)
    }

    /// Puts a request in the next slot, not yet published.
    pub fn put(&mut self, request: &Request) {
        assert!(self.free() > 0, "a full ring");
        let at = self.abi.slot_at(self.pages, self.req_prod_pvt);
        self.ring.write(at, &request.slot(self.abi));
        self.req_prod_pvt = self.req_prod_pvt.wrapping_add(1);
    }

    /// Publishes what was put, and says whether to notify the backend
    /// (RING_PUSH_REQUESTS_AND_CHECK_NOTIFY).
    #[must_use = "a backend that is not notified may sleep for ever"]
    pub fn publish(&mut self) -> bool {
        let old = self.raise_req_prod();
        self.backend_asked(old)
    }

    /// The first half of [`Frontend::publish`]; gives req_prod as it was.
    pub fn raise_req_prod(&mut self) -> u32 {
        let old = self.published;
        // The requests are there before the index that publishes them.
        fence(Ordering::Release);
        self.ring.store(REQ_PROD, self.req_prod_pvt);
        self.published = self.req_prod_pvt;
        // The index is out before req_event is looked at.
        fence(Ordering::SeqCst);
        old
    }

    /// The second half: whether req_event lies among the requests published since `old`.
    pub fn backend_asked(&self, old: u32) -> bool {
        let new = self.published;
        new.wrapping_sub(self.ring.load(REQ_EVENT)) < new.wrapping_sub(old)
    }

    /// Whether a response waits (RING_HAS_UNCONSUMED_RESPONSES).
    pub fn has_response(&self) -> bool {
        self.ring.load(RSP_PROD) != self.rsp_cons
    }

    /// The next response, if one waits.
    pub fn response(&mut self) -> Option<Response> {
        if !self.has_response() {
            return None;
        }
        // The response is read after the index that published it.
        fence(Ordering::Acquire);
        let mut bytes = vec![0; self.abi.response_bytes()];
        let at = self.abi.slot_at(self.pages, self.rsp_cons);
        self.ring.read(at, &mut bytes);
        self.rsp_cons = self.rsp_cons.wrapping_add(1);
        Some(Response::from_bytes(&bytes))
    }

    /// Whether there is a response after all; if not, the backend has been asked for an event and
    /// the guest may sleep (RING_FINAL_CHECK_FOR_RESPONSES).
    #[must_use = "a guest with a response waiting must not sleep"]
    pub fn final_check(&self) -> bool {
        self.has_response() || {
            self.ask_for_event();
            self.has_response()
        }
    }

    /// Asks for an event with the next response.
    pub fn ask_for_event(&self) {
        self.ring.store(RSP_EVENT, self.rsp_cons.wrapping_add(1));
        // The wish is out before rsp_prod is looked at again.
        fence(Ordering::SeqCst);
    }
}

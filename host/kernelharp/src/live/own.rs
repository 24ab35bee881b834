//! A guest's own ring page, which the backend may write at the same time.

use super::copy::Live;
use super::looks::notifies;
use crate::ffi::{Mapping, WORD_BYTES};
use crate::layout::{write_u32, Abi, Pages, PAGE_BYTES, REQ_EVENT, REQ_PROD, RSP_EVENT, RSP_PROD};
use std::sync::atomic::{fence, Ordering};

/// The one layout of the guest's half.
const ABI: Abi = Abi::Bits64;

/// A guest's own ring of one page, live, and what the guest itself counts of it.
///
/// The page lent to a call is the private one, the same at each call. The fences stand where ring.h
/// has its barriers, and do on x86-64, which the archive is for, what those do.
#[derive(Debug)]
pub struct OwnPage {
    page: Mapping,
    /// Requests put (ring.h's req_prod_pvt).
    req_prod_pvt: u32,
    /// Responses collected (ring.h's rsp_cons).
    rsp_cons: u32,
}

impl OwnPage {
    /// A page that no backend knows of yet. It is filled with zeros, as a fresh guest needs it.
    pub fn new(page: Mapping) -> OwnPage {
        page.copy_out(0, PAGE_BYTES, &[0; PAGE_BYTES]);
        OwnPage {
            page,
            req_prod_pvt: 0,
            rsp_cons: 0,
        }
    }

    /// How many requests were put and have no response collected yet.
    pub fn outstanding(&self) -> u32 {
        self.req_prod_pvt.wrapping_sub(self.rsp_cons)
    }

    /// Before a put: req_event, the one word of the backend's that it reads.
    pub fn copy_req_event_in(&self, private: &mut [u8; PAGE_BYTES]) {
        self.page.copy_in(REQ_EVENT, WORD_BYTES, private);
    }

    /// After a put: the request, then req_prod. Says whether the backend is to be notified, with what
    /// the call said about it.
    #[must_use = "a backend that is not notified may sleep for ever"]
    pub fn copy_request_out(&mut self, private: &[u8; PAGE_BYTES], call_said: bool) -> bool {
        let old = self.req_prod_pvt;
        let new = old.wrapping_add(1);
        self.page.copy_out(slot_at(old), ABI.slot_bytes(), private);
        // The request is there before the index that publishes it.
        fence(Ordering::Release);
        self.page.copy_out(REQ_PROD, WORD_BYTES, private);
        self.req_prod_pvt = new;
        notifies(&self.page, REQ_EVENT, (old, new), call_said)
    }

    /// Before a collect: rsp_prod, and the next response where there is one.
    pub fn copy_response_in(&self, private: &mut [u8; PAGE_BYTES]) {
        let rsp_prod = self.page.number(RSP_PROD);
        // A response is read after the index that published it.
        fence(Ordering::Acquire);
        write_u32(private, RSP_PROD, rsp_prod);
        if rsp_prod != self.rsp_cons {
            let at = slot_at(self.rsp_cons);
            self.page.copy_in(at, ABI.response_bytes(), private);
        }
    }

    /// After a collect that found a response.
    pub fn took_response(&mut self) {
        self.rsp_cons = self.rsp_cons.wrapping_add(1);
    }

    /// After a collect that found none: rsp_event. Before the guest sleeps it looks once more, and so
    /// that this look comes after the store, there is a full fence here.
    pub fn copy_rsp_event_out(&self, private: &[u8; PAGE_BYTES]) {
        self.page.copy_out(RSP_EVENT, WORD_BYTES, private);
        fence(Ordering::SeqCst);
    }
}

/// Where the slot of an index begins.
fn slot_at(index: u32) -> usize {
    ABI.slot_at(Pages::One, index)
}

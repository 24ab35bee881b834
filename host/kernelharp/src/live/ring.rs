//! One ring that a guest may write at the same time.

use super::copy::Live;
use super::looks::{notifies, read_fence};
use crate::ffi::{Mapping, WORD_BYTES};
use crate::layout::{write_u32, Abi, Pages, REQ_EVENT, REQ_PROD, RING_BYTES, RSP_EVENT, RSP_PROD};
use std::sync::atomic::{fence, Ordering};

/// A live ring of one page or of two, and what the host itself counts of its port.
///
/// The ring lent to a call is the private one, which stands for the guest's as it is at that call
/// (rules 1.6 and 5.15). Of the requests that wait the next one alone is copied, for a turn takes no more
/// of a port. It stays there until it is taken and is not copied again, so the private ring given must
/// be the same at each call. A guest may rewrite a request until it is copied; a sound one leaves alone
/// what it has published. A guest that takes the next request back, its req_prod seen at it or beyond the
/// ring, has what waits later copied anew.
///
/// Each page is mapped by itself, wherever that is. A port that is opened for one page has the first of
/// them, and nothing is read or written of the second.
///
/// The fences stand where ring.h has its barriers, and do on x86-64, which the archive is for, what
/// those do.
#[derive(Debug)]
pub struct SharedRing {
    /// One or two, in the order of the ring.
    mapped: Vec<Mapping>,
    /// How many of them the port has.
    pages: Pages,
    /// Where slots lie, and how long they and responses are.
    abi: Abi,
    /// Requests taken since the opening (rule 4.2).
    req_cons: u32,
    /// Responses given since the opening (rule 4.2).
    rsp_prod_pvt: u32,
    /// Whether the next request is in the private ring.
    copied: bool,
    broken: bool,
    left_out: bool,
}

/// A request in the private ring, as it was copied.
pub(super) struct Copied<'a> {
    pub(super) abi: Abi,
    /// The number of its slot.
    pub(super) slot: usize,
    pub(super) bytes: &'a mut [u8],
}

impl SharedRing {
    /// The ring of a port about to be opened for one page, in the layout that its sheet says
    /// ([`Abi::of_sheet`]).
    pub fn one_page(page: Mapping, abi: Abi) -> SharedRing {
        SharedRing::new(vec![page], Pages::One, abi)
    }

    /// The ring of a port about to be opened for two pages, which are given in the ring's order.
    pub fn two_pages(pages: [Mapping; 2], abi: Abi) -> SharedRing {
        SharedRing::new(pages.into(), Pages::Two, abi)
    }

    fn new(mapped: Vec<Mapping>, pages: Pages, abi: Abi) -> SharedRing {
        SharedRing {
            mapped,
            pages,
            abi,
            req_cons: 0,
            rsp_prod_pvt: 0,
            copied: false,
            broken: false,
            left_out: false,
        }
    }

    /// How many pages are mapped: a port with more cannot be opened over them.
    pub fn mapped(&self) -> Pages {
        Pages::ALL[self.mapped.len() - 1]
    }

    /// Counts from 0 again, for a port opened anew, with the layout and the pages that its sheet says.
    /// Nothing of an earlier opening stays in the private ring: a turn before the first copy would serve
    /// it.
    ///
    /// # Panics
    ///
    /// Where fewer pages are mapped ([`SharedRing::mapped`]).
    pub fn restart(&mut self, abi: Abi, pages: Pages, private: &mut [u8; RING_BYTES]) {
        assert!(
            pages <= self.mapped(),
            "a ring has the pages that it is used with"
        );
        self.pages = pages;
        self.abi = abi;
        self.req_cons = 0;
        self.rsp_prod_pvt = 0;
        self.copied = false;
        self.broken = false;
        self.left_out = false;
        private.fill(0);
    }

    /// Leaves the port out of turns, or lets it in: in the private ring nothing waits, and what does in
    /// the live one is copied anew by the turns that it is not left out of.
    pub(super) fn leave_out(&mut self, out: bool, private: &mut [u8; RING_BYTES]) {
        self.left_out = out;
        self.copied = false;
        write_u32(private, REQ_PROD, self.req_cons);
    }

    /// Whether turns have to do with it: a broken port is served no more.
    fn is_served(&self) -> bool {
        !self.broken && !self.left_out
    }

    /// Before a turn: req_prod, the next request unless it was copied, and rsp_event. Of a port that
    /// isn't served nothing is read.
    pub fn copy_in(&mut self, private: &mut [u8; RING_BYTES]) {
        self.copy_in_by(private, |_| ());
    }

    /// The same; a request that was copied is handed on, to be changed.
    pub(super) fn copy_in_by(
        &mut self,
        private: &mut [u8; RING_BYTES],
        copied: impl FnOnce(Copied),
    ) {
        if !self.is_served() {
            return;
        }
        let req_prod = self.mapped.number(REQ_PROD);
        // A request is read after the index that published it.
        read_fence();
        write_u32(private, REQ_PROD, req_prod);
        self.copy_request_in(req_prod, private, copied);
        self.copy_rsp_event_in(private);
    }

    /// Before a completion, or a list of them: rsp_event, the one guest word that it reads.
    pub fn copy_rsp_event_in(&self, private: &mut [u8; RING_BYTES]) {
        self.mapped.copy_in(RSP_EVENT, WORD_BYTES, private);
    }

    /// After a turn that took a request, started or answered.
    pub fn took_request(&mut self) {
        self.req_cons = self.req_cons.wrapping_add(1);
        self.copied = false;
    }

    /// After a turn that answered overrun.
    pub fn overran(&mut self) {
        self.broken = true;
    }

    /// After an idle turn: req_event, which the turn wrote for open ports alone. The fence and the
    /// second turn that follow are for all ports at once, so they are the caller's.
    pub fn copy_req_event_out(&self, private: &[u8; RING_BYTES]) {
        if self.is_served() {
            self.mapped.copy_out(REQ_EVENT, WORD_BYTES, private);
        }
    }

    /// After a call that gave a response (a completion, or a turn that answered): the response, then
    /// rsp_prod. Says whether the guest is to be notified, with what the call said about it.
    #[must_use = "a guest that is not notified may sleep for ever"]
    pub fn copy_response_out(&mut self, private: &[u8; RING_BYTES], call_said: bool) -> bool {
        self.copy_responses_out(1, private, call_said)
    }

    /// After a list of completions that gave so many responses: all of them, then rsp_prod, once. Says
    /// whether the guest is to be notified, likewise. An empty list gave none, and nothing goes out.
    ///
    /// # Panics
    ///
    /// Where there are more responses than the ring has slots.
    #[must_use = "a guest that is not notified may sleep for ever"]
    pub fn copy_responses_out(
        &mut self,
        responses: u32,
        private: &[u8; RING_BYTES],
        call_said: bool,
    ) -> bool {
        assert!(responses <= self.pages.slots(), "a response has a slot");
        if responses == 0 {
            return call_said;
        }
        let old = self.rsp_prod_pvt;
        let new = old.wrapping_add(responses);
        for ahead in 0..responses {
            let at = self.slot_at(old.wrapping_add(ahead));
            self.mapped.copy_out(at, self.abi.response_bytes(), private);
        }
        // The responses are there before the index that publishes them.
        fence(Ordering::Release);
        self.mapped.copy_out(RSP_PROD, WORD_BYTES, private);
        self.rsp_prod_pvt = new;
        notifies(&self.mapped[..], RSP_EVENT, (old, new), call_said)
    }

    /// The next request, where it is not in the private ring yet. None is there when none waits, or more
    /// than there is room for: the turn finds the overrun by req_prod alone, and should req_prod come
    /// back before that turn, the next request is copied anew.
    fn copy_request_in(
        &mut self,
        req_prod: u32,
        private: &mut [u8; RING_BYTES],
        copied: impl FnOnce(Copied),
    ) {
        let in_flight = self.req_cons.wrapping_sub(self.rsp_prod_pvt);
        let waiting = req_prod.wrapping_sub(self.req_cons);
        let room = self.pages.slots().saturating_sub(in_flight);
        if waiting == 0 || waiting > room {
            self.copied = false;
        } else if !self.copied {
            let (at, bytes) = (self.slot_at(self.req_cons), self.abi.slot_bytes());
            self.mapped.copy_in(at, bytes, private);
            copied(Copied {
                abi: self.abi,
                slot: (self.req_cons % self.pages.slots()) as usize,
                bytes: &mut private[at..at + bytes],
            });
            self.copied = true;
        }
    }

    /// Where the slot of an index begins.
    fn slot_at(&self, index: u32) -> usize {
        self.abi.slot_at(self.pages, index)
    }
}

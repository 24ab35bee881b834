//! A guest over its live ring page.

use super::OwnPage;
use crate::ffi::{ArchiveMismatch, Mapping};
use crate::guest::{Guest, Request, Response};
use crate::layout::PAGE_BYTES;
use crate::lender::zeros;
use crate::terms::Refusal;

/// A [`Guest`] whose page is live. What it answers about notifying holds for that page.
#[derive(Debug)]
pub struct LiveGuest {
    guest: Guest,
    private: Box<[u8; PAGE_BYTES]>,
    page: OwnPage,
}

impl LiveGuest {
    /// A fresh guest. The page is filled with zeros, so it is one that no backend has been told of:
    /// only then is it granted, and its reference published.
    pub fn new(page: Mapping) -> Result<LiveGuest, ArchiveMismatch> {
        Ok(LiveGuest {
            guest: Guest::new()?,
            private: zeros(),
            page: OwnPage::new(page),
        })
    }

    /// How many requests have no response collected yet. With 32 the ring is full; with none there is
    /// nothing to sleep for.
    pub fn outstanding(&self) -> u32 {
        self.page.outstanding()
    }

    /// Puts a request, which the backend can take from then on. Says whether to notify it. Who puts
    /// several in a row may notify once, after the last.
    #[must_use = "a backend that is not notified may sleep for ever"]
    pub fn put(&mut self, request: &Request) -> Result<bool, Refusal> {
        self.page.copy_req_event_in(&mut self.private);
        let said = self.guest.put(&mut self.private, request)?;
        Ok(self.page.copy_request_out(&self.private, said))
    }

    /// Collects a response. None is answered only after the second look: a guest may then sleep until
    /// it is notified, and no response is left waiting.
    pub fn collect(&mut self) -> Result<Option<Response>, Refusal> {
        match self.look()? {
            // rsp_event is out before rsp_prod is looked at again: a response that came in between is
            // seen now, and a later one finds rsp_event set and notifies.
            None => self.look(),
            found => Ok(found),
        }
    }

    /// One collect, with what it needs copied in and what it wrote copied out.
    fn look(&mut self) -> Result<Option<Response>, Refusal> {
        self.page.copy_response_in(&mut self.private);
        let found = self.guest.collect(&mut self.private)?;
        match found {
            Some(_) => self.page.took_response(),
            None => self.page.copy_rsp_event_out(&self.private),
        }
        Ok(found)
    }
}

#[cfg(test)]
mod tests {
    use super::*;
    use crate::guest::Segment;
    use crate::layout::{
        read_u32, write_u32, Abi, Pages, REQ_EVENT, REQ_PROD, RSP_EVENT, RSP_PROD,
    };
    use crate::live::PAGE_WORDS;
    use crate::terms::Status;
    use std::ops::Range;
    use std::sync::atomic::{AtomicU32, Ordering};

    const PATTERN: u8 = 0xA5;
    const READ: u8 = 0;

    /// The page as the backend has it.
    struct Shared(&'static [AtomicU32; PAGE_WORDS]);

    impl Shared {
        /// Written before, by whoever had the page.
        fn new() -> Shared {
            let pattern = || AtomicU32::new(u32::from_ne_bytes([PATTERN; 4]));
            let words = std::array::from_fn(|_| pattern());
            Shared(Box::leak(Box::new(words)))
        }

        fn bytes(&self) -> [u8; PAGE_BYTES] {
            let words = self.0.iter().map(|word| word.load(Ordering::Relaxed));
            let bytes: Vec<u8> = words.flat_map(u32::to_ne_bytes).collect();
            bytes.try_into().expect("a page")
        }

        fn write(&self, at: usize, bytes: &[u8]) {
            for (word, bytes) in self.0[at / 4..].iter().zip(bytes.chunks_exact(4)) {
                let bytes = bytes.try_into().expect("four bytes");
                word.store(u32::from_ne_bytes(bytes), Ordering::Relaxed);
            }
        }

        fn set(&self, at: usize, value: u32) {
            self.write(at, &value.to_le_bytes());
        }

        /// A response to a read, without its index.
        fn answer(&self, index: u32, id: u64, status: Status) {
            let [low, high] = (status as i16).to_le_bytes();
            let rest = [READ, 0, low, high, 0, 0, 0, 0];
            let response = [id.to_le_bytes(), rest].concat();
            self.write(slot(index).start, &response);
        }
    }

    fn connected() -> (LiveGuest, Shared) {
        let shared = Shared::new();
        let guest = LiveGuest::new(Mapping::of_atomics(shared.0)).unwrap();
        (guest, shared)
    }

    fn read(id: u64) -> Request<'static> {
        let segments = &[Segment {
            frame: 9,
            first: 1,
            last: 6,
        }];
        Request::Read {
            id,
            start: 8,
            segments,
        }
    }

    fn slot(index: u32) -> Range<usize> {
        let at = Abi::Bits64.slot_at(Pages::One, index);
        at..at + Abi::Bits64.slot_bytes()
    }

    #[test]
    fn a_new_guest_zeroes_its_page() {
        let (guest, shared) = connected();
        assert_eq!(shared.bytes(), [0; PAGE_BYTES]);
        assert_eq!(guest.outstanding(), 0);
    }

    /// What the backend writes at the same time, and has written before, stays.
    #[test]
    fn a_put_writes_its_slot_and_req_prod_alone() {
        let (mut guest, shared) = connected();
        for index in 0..100 {
            let before = [0xC3 ^ index as u8; PAGE_BYTES];
            shared.write(0, &before);
            let _ = guest.put(&read(u64::from(index))).unwrap();
            let mut due = before;
            let mut lent = [0; PAGE_BYTES];
            let _ = Guest::new()
                .unwrap()
                .put(&mut lent, &read(u64::from(index)));
            due[slot(index)].copy_from_slice(&lent[slot(0)]);
            write_u32(&mut due, REQ_PROD, index + 1);
            assert_eq!(shared.bytes(), due);
            shared.answer(index, u64::from(index), Status::Okay);
            shared.set(RSP_PROD, index + 1);
            assert!(guest.collect().unwrap().is_some());
        }
    }

    #[test]
    fn req_event_is_looked_at_after_req_prod_is_out() {
        let (mut guest, shared) = connected();
        for (id, req_event) in (0..).zip([0, 2, 3, 5, 4, u32::MAX]) {
            shared.set(REQ_EVENT, req_event);
            let due = req_event == id as u32 + 1;
            assert_eq!(guest.put(&read(id)), Ok(due), "{req_event}");
        }
        // The backend goes to sleep between the call's look and the second one.
        let (mut private, shared) = ([0; PAGE_BYTES], Shared::new());
        let mut own = OwnPage::new(Mapping::of_atomics(shared.0));
        own.copy_req_event_in(&mut private);
        shared.set(REQ_EVENT, 1);
        assert!(own.copy_request_out(&private, false));
        assert!(!own.copy_request_out(&private, false));
        assert!(own.copy_request_out(&private, true));
    }

    #[test]
    fn a_collect_writes_rsp_event_where_there_is_nothing() {
        let (mut guest, shared) = connected();
        let _ = guest.put(&read(7)).unwrap();
        let before = shared.bytes();
        assert_eq!(guest.collect(), Ok(None));
        let mut due = before;
        write_u32(&mut due, RSP_EVENT, 1);
        assert_eq!(shared.bytes(), due);
        shared.answer(0, 7, Status::NotSupported);
        shared.set(RSP_PROD, 1);
        let before = shared.bytes();
        let response = guest.collect().unwrap().unwrap();
        assert_eq!(response.status(), Some(Status::NotSupported));
        assert_eq!(shared.bytes(), before);
        assert_eq!(guest.outstanding(), 0);
    }

    /// Its own words in the page may hold anything: they are never read.
    #[test]
    fn own_words_are_not_taken_from_the_page() {
        let (mut guest, shared) = connected();
        for index in 0..70 {
            shared.set(REQ_PROD, 0xDEAD);
            shared.set(RSP_EVENT, 0xBEEF);
            assert_eq!(guest.put(&read(1)).map(drop), Ok(()));
            assert_eq!(read_u32(&shared.bytes(), REQ_PROD), index + 1);
            shared.answer(index, 1, Status::Okay);
            shared.set(RSP_PROD, index + 1);
            assert!(guest.collect().unwrap().is_some());
        }
    }

    #[test]
    fn a_backend_that_lies_is_refused() {
        let (mut guest, shared) = connected();
        for id in 0..3 {
            let _ = guest.put(&read(id)).unwrap();
        }
        for rsp_prod in [4, 1000, u32::MAX] {
            shared.set(RSP_PROD, rsp_prod);
            let before = shared.bytes();
            assert_eq!(guest.collect(), Err(Refusal::BadRspProd));
            assert_eq!(shared.bytes(), before);
        }
        shared.answer(0, 3, Status::Okay);
        shared.set(RSP_PROD, 1);
        assert_eq!(guest.collect(), Err(Refusal::NotOutstanding));
        assert_eq!(guest.outstanding(), 3);
        assert_eq!(guest.put(&read(2)), Err(Refusal::IdOutstanding));
        shared.answer(0, 2, Status::Okay);
        assert_eq!(guest.collect().unwrap().unwrap().id, 2);
    }
}

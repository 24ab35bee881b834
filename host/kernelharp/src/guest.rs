//! The guest's half, typed: requests to put on a ring page, and responses collected from it.

use crate::ffi::{ArchiveMismatch, GuestMemory};
use crate::layout::{GUEST_PAGE_BYTES, SEGMENTS};
use crate::lender::outcome;
use crate::terms::{Operation, Refusal, Status};
use crate::words::{
    collect, put, request, segment, CollectWords, RequestWords, COLLECT_WORDS, PUT_WORDS,
    REQUEST_WORDS,
};
use std::fmt;

/// Sectors of 512 bytes that lie together in a frame of the guest.
#[derive(Clone, Copy, Debug, PartialEq, Eq)]
pub struct Segment {
    /// The frame, by the grant reference that the guest gave the backend.
    pub frame: u32,
    /// The first sector within the frame, 0 to 7.
    pub first: u8,
    /// The last sector within the frame, from `first` to 7.
    pub last: u8,
}

/// A request for a guest to put. Its id is the guest's own number for it: any that no outstanding
/// request has.
#[derive(Clone, Copy, Debug, PartialEq, Eq)]
#[non_exhaustive]
pub enum Request<'a> {
    /// Disk to frames.
    Read {
        /// The request's id.
        id: u64,
        /// The first sector on the disk.
        start: u64,
        /// Where the sectors go, in order: one to eleven segments.
        segments: &'a [Segment],
    },
    /// Frames to disk.
    Write {
        /// The request's id.
        id: u64,
        /// The first sector on the disk.
        start: u64,
        /// Where the sectors come from, in order: one to eleven segments.
        segments: &'a [Segment],
    },
    /// A write that everything before it comes before, and everything after it after.
    Barrier {
        /// The request's id.
        id: u64,
        /// The first sector on the disk; not looked at where there are no segments.
        start: u64,
        /// Where the sectors come from: eleven segments at most. Without any it is the order alone.
        segments: &'a [Segment],
    },
    /// What was completed before is made lasting.
    Flush {
        /// The request's id.
        id: u64,
    },
    /// Sectors that may be forgotten.
    Discard {
        /// The request's id.
        id: u64,
        /// The first sector on the disk.
        start: u64,
        /// How many, at least one.
        sectors: u64,
        /// Whether nothing of them may be left to be read. A disk whose discard-secure is 0
        /// makes a plain discard of it, and the response is the same.
        secure: bool,
    },
}

impl Request<'_> {
    /// The request's id.
    pub fn id(&self) -> u64 {
        match *self {
            Request::Read { id, .. }
            | Request::Write { id, .. }
            | Request::Barrier { id, .. }
            | Request::Flush { id }
            | Request::Discard { id, .. } => id,
        }
    }

    /// What is asked for.
    pub fn operation(&self) -> Operation {
        match self {
            Request::Read { .. } => Operation::Read,
            Request::Write { .. } => Operation::Write,
            Request::Barrier { .. } => Operation::Barrier,
            Request::Flush { .. } => Operation::Flush,
            Request::Discard { .. } => Operation::Discard,
        }
    }

    /// The words for [`GuestMemory::put`]. Of more than eleven segments the number is there, by which
    /// putting refuses them.
    pub fn words(&self) -> RequestWords {
        let mut words = [0; REQUEST_WORDS];
        words[request::OPERATION] = self.operation() as u64;
        words[request::ID] = self.id();
        match *self {
            Request::Read {
                start, segments, ..
            }
            | Request::Write {
                start, segments, ..
            }
            | Request::Barrier {
                start, segments, ..
            } => {
                words[request::START] = start;
                words[request::SEGMENT_COUNT] = segments.len() as u64;
                write_segments(&mut words, segments);
            }
            Request::Flush { .. } => {}
            Request::Discard {
                start,
                sectors,
                secure,
                ..
            } => {
                words[request::START] = start;
                words[request::FLAG] = u64::from(secure);
                words[request::SECTORS] = sectors;
            }
        }
        words
    }
}

fn write_segments(words: &mut RequestWords, segments: &[Segment]) {
    let places = words[request::SEGMENTS..].chunks_exact_mut(segment::WORDS);
    for (place, it) in places.zip(&segments[..segments.len().min(SEGMENTS)]) {
        place[segment::FRAME] = u64::from(it.frame);
        place[segment::FIRST] = u64::from(it.first);
        place[segment::LAST] = u64::from(it.last);
    }
}

impl fmt::Display for Request<'_> {
    fn fmt(&self, f: &mut fmt::Formatter) -> fmt::Result {
        write!(f, "{}, id {}", self.operation(), self.id())
    }
}

/// What the backend answered to a request that was outstanding, and now is not.
#[must_use = "a response is collected once"]
#[derive(Clone, Copy, Debug, PartialEq, Eq)]
pub struct Response {
    /// The request's id.
    pub id: u64,
    /// The request's operation.
    pub operation: Operation,
    /// The status as it stands in the page.
    pub status_bits: u16,
}

impl Response {
    /// The status, where the bits are one of the three. Anything else is no better than an error:
    /// whether the request was carried out is not known.
    pub fn status(&self) -> Option<Status> {
        Status::from_bits(self.status_bits)
    }

    /// Whether the request was carried out.
    pub fn is_okay(&self) -> bool {
        self.status() == Some(Status::Okay)
    }

    /// Reads the answer of `kh_guest_collect` that found a response; nothing comes back for others.
    pub fn from_words(words: &CollectWords) -> Option<Response> {
        if words[collect::FOUND] != 1 {
            return None;
        }
        Some(Response {
            id: words[collect::ID],
            operation: Operation::from_byte(words[collect::OPERATION].try_into().ok()?)?,
            status_bits: words[collect::STATUS].try_into().ok()?,
        })
    }
}

impl fmt::Display for Response {
    fn fmt(&self, f: &mut fmt::Formatter) -> fmt::Result {
        write!(f, "{}, id {}: ", self.operation, self.id)?;
        match self.status() {
            Some(status) => status.fmt(f),
            None => write!(f, "unknown status {}", self.status_bits as i16),
        }
    }
}

/// A guest's half of a ring: its own indices, and its outstanding requests, 32 at most. A new one
/// belongs to a page of zeros, of the 64-bit layout.
///
/// The page is lent to each call and must be the same each time. While a call runs nobody else writes
/// it; where the backend does so, [`crate::live::LiveGuest`] lends a private copy.
///
/// ```
/// use kernelharp::{Backend, Guest, Port, Request, Response, Segment, Turn};
///
/// let (mut guest, mut backend) = (Guest::new()?, Backend::new()?);
/// let port = Port::try_from(0)?;
/// backend.open(port, b"\x03\x01\0\x01\0\x06\0\x03\0\x07\0\x04\0w5122008")?;
/// backend.grants_mut(port)[5] = 2;
/// let page = backend.page_mut(port);
///
/// let segments = [Segment { frame: 5, first: 0, last: 7 }];
/// let read = Request::Read { id: 1, start: 2000, segments: &segments };
/// let notify = guest.put(page, &read)?;
/// assert!(!notify, "this backend has never been idle, so it has not asked for it");
/// assert_eq!(guest.collect(page)?, None);
/// if let Turn::Started(plan) = backend.turn() {
///     assert!(backend.complete(plan.name, 8)?.notify);
/// }
/// let response = guest.collect(backend.page_mut(port))?;
/// assert!(response.is_some_and(|it| it.id == 1 && it.is_okay()));
/// # Ok::<(), Box<dyn std::error::Error>>(())
/// ```
#[derive(Clone, Debug, PartialEq, Eq)]
pub struct Guest {
    memory: GuestMemory,
}

impl Guest {
    /// A fresh guest, which has put nothing.
    pub fn new() -> Result<Guest, ArchiveMismatch> {
        Ok(Guest {
            memory: GuestMemory::new()?,
        })
    }

    /// Puts a request and publishes it. Says whether the backend is to be notified.
    #[must_use = "a backend that is not notified may sleep for ever"]
    pub fn put(
        &mut self,
        page: &mut [u8; GUEST_PAGE_BYTES],
        request: &Request,
    ) -> Result<bool, Refusal> {
        let mut words = [0; PUT_WORDS];
        outcome(self.memory.put(page, &request.words(), &mut words))?;
        Ok(words[put::NOTIFY] == 1)
    }

    /// Collects the next response and ends its request. When there is none, the page asks the backend
    /// to notify with the next one.
    pub fn collect(
        &mut self,
        page: &mut [u8; GUEST_PAGE_BYTES],
    ) -> Result<Option<Response>, Refusal> {
        let mut words = [0; COLLECT_WORDS];
        outcome(self.memory.collect(page, &mut words))?;
        if words[collect::FOUND] == 0 {
            return Ok(None);
        }
        let response = Response::from_words(&words);
        Ok(Some(response.expect("an answer as the C interface has it")))
    }
}

#[cfg(test)]
mod tests {
    use super::*;
    use crate::layout::{
        read_u32, read_u64, write_u32, Abi, Pages, PAGE_SLOTS, REQ_EVENT, REQ_PROD, RSP_EVENT,
        RSP_PROD,
    };

    const FRAMES: [Segment; 2] = [
        Segment {
            frame: 0x0403_0201,
            first: 0,
            last: 7,
        },
        Segment {
            frame: u32::MAX,
            first: 3,
            last: 3,
        },
    ];

    fn read(id: u64) -> Request<'static> {
        Request::Read {
            id,
            start: 16,
            segments: &FRAMES,
        }
    }

    /// A request of each operation, with the first two bytes of its slot.
    fn requests() -> [(Request<'static>, [u8; 2]); 6] {
        let (start, segments) = (0x1_0000_0002, &FRAMES);
        let discard = |secure| Request::Discard {
            id: 14,
            start,
            sectors: u64::MAX,
            secure,
        };
        let read = Request::Read {
            id: 10,
            start,
            segments,
        };
        let write = Request::Write {
            id: 11,
            start,
            segments,
        };
        let barrier = Request::Barrier {
            id: 12,
            start,
            segments: &[],
        };
        [
            (read, [0, 2]),
            (write, [1, 2]),
            (barrier, [2, 0]),
            (Request::Flush { id: 13 }, [3, 0]),
            (discard(false), [5, 0]),
            (discard(true), [5, 1]),
        ]
    }

    fn fresh() -> (Guest, [u8; GUEST_PAGE_BYTES]) {
        (Guest::new().unwrap(), [0; GUEST_PAGE_BYTES])
    }

    /// A backend's part: the response of an index, and rsp_prod.
    fn answer(page: &mut [u8; GUEST_PAGE_BYTES], index: u32, id: u64, operation: u8, status: u16) {
        let slot = &mut page[Abi::Bits64.slot_at(Pages::One, index)..][..12];
        slot[..8].copy_from_slice(&id.to_le_bytes());
        slot[8..10].copy_from_slice(&[operation, 0]);
        slot[10..].copy_from_slice(&status.to_le_bytes());
        write_u32(page, RSP_PROD, index + 1);
    }

    #[test]
    fn each_operation_in_its_slot() {
        for (request, head) in requests() {
            let (mut guest, mut page) = fresh();
            let _ = guest.put(&mut page, &request).unwrap();
            let slot = &page[Abi::Bits64.slot_at(Pages::One, 0)..][..Abi::Bits64.slot_bytes()];
            assert_eq!(slot[..8], [head[0], head[1], 0, 0, 0, 0, 0, 0]);
            assert_eq!(read_u64(slot, 8), request.id());
            let (start, rest): (u64, &[u8]) = match head[0] {
                0 | 1 => (
                    0x1_0000_0002,
                    &[1, 2, 3, 4, 0, 7, 0, 0, 255, 255, 255, 255, 3, 3, 0, 0],
                ),
                5 => (0x1_0000_0002, &[255; 8]),
                _ => (0, &[]),
            };
            assert_eq!(read_u64(slot, 16), start, "{request}");
            assert_eq!(&slot[24..24 + rest.len()], rest);
            assert!(slot[24 + rest.len()..].iter().all(|&byte| byte == 0));
            assert_eq!(read_u32(&page, REQ_PROD), 1);
        }
    }

    #[test]
    fn the_backend_is_notified_where_it_asked_for_it() {
        let (mut guest, mut page) = fresh();
        for (id, req_event) in (0..).zip([0, 2, 3, 5, 4]) {
            write_u32(&mut page, REQ_EVENT, req_event);
            let due = req_event == id as u32 + 1;
            assert_eq!(guest.put(&mut page, &read(id)), Ok(due));
        }
    }

    #[test]
    fn responses_come_with_any_status() {
        let (mut guest, mut page) = fresh();
        for (index, bits) in (0..).zip([0, 0xFFFF, 0xFFFE, 7, 0x8000]) {
            let id = u64::MAX - u64::from(index);
            let _ = guest.put(&mut page, &read(id)).unwrap();
            assert_eq!(guest.collect(&mut page), Ok(None));
            assert_eq!(read_u32(&page, RSP_EVENT), index + 1);
            answer(&mut page, index, id, 0, bits);
            let response = guest.collect(&mut page).unwrap().unwrap();
            let due = Response {
                id,
                operation: Operation::Read,
                status_bits: bits,
            };
            assert_eq!(response, due);
            assert_eq!(response.is_okay(), bits == 0);
        }
    }

    /// Putting is refused, and guest and page are as they were.
    #[track_caller]
    fn assert_refused(
        (guest, page): &mut (Guest, [u8; GUEST_PAGE_BYTES]),
        request: Request,
        due: Refusal,
    ) {
        let before = (guest.clone(), *page);
        assert_eq!(guest.put(page, &request), Err(due));
        assert_eq!((guest.clone(), *page), before);
    }

    #[test]
    fn malformed_requests() {
        let (mut both, many) = (fresh(), [FRAMES[0]; 300]);
        for count in [0, 12, 255, 256, 300] {
            let read = Request::Read {
                id: 1,
                start: 0,
                segments: &many[..count],
            };
            assert_refused(&mut both, read, Refusal::BadRequest);
        }
        // In a byte the number would be that of an empty one.
        let barrier = Request::Barrier {
            id: 1,
            start: 0,
            segments: &many[..256],
        };
        assert_refused(&mut both, barrier, Refusal::BadRequest);
    }

    #[test]
    fn the_other_refusals() {
        let mut both = fresh();
        for id in 0..PAGE_SLOTS as u64 {
            let _ = both.0.put(&mut both.1, &read(id)).unwrap();
            if id < 31 {
                assert_refused(&mut both, read(id), Refusal::IdOutstanding);
            }
        }
        assert_refused(&mut both, read(32), Refusal::RingFull);
        let (mut guest, mut page) = both;
        write_u32(&mut page, RSP_PROD, 33);
        assert_eq!(guest.collect(&mut page), Err(Refusal::BadRspProd));
        answer(&mut page, 0, 5, 1, 0);
        assert_eq!(guest.collect(&mut page), Err(Refusal::NotOutstanding));
        answer(&mut page, 0, 5, 0, 0);
        assert_eq!(guest.collect(&mut page).unwrap().unwrap().id, 5);
        assert_eq!(guest.put(&mut page, &read(5)), Ok(false));
    }

    #[test]
    fn words_that_collecting_does_not_answer_with() {
        let words = [1, 7, 3, 0xFFFF];
        let flush = Response::from_words(&words).unwrap();
        assert_eq!(flush.to_string(), "flush, id 7: status -1 (error)");
        for (at, word) in [(0, 0), (0, 2), (2, 4), (2, 256), (3, 0x1_0000)] {
            let mut other = words;
            other[at] = word;
            assert_eq!(Response::from_words(&other), None);
        }
        let odd = Response::from_words(&[1, 7, 5, 0xFFFB]).unwrap();
        assert_eq!(odd.to_string(), "discard, id 7: unknown status -5");
        assert_eq!(read(8).to_string(), "read, id 8");
    }
}

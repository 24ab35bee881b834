//! Random lists of calls of the guest's half (section 16), on a page that a made-up backend writes.
//!
//! A [`GuestStep`] is what that backend writes, and then one call. As with the calls of a backend,
//! the steps look at the first program's answers, and [`run_guests`] stops at the first difference.

mod causes;
mod census;
mod generator;
mod responder;
mod run;
mod words;

pub use census::GuestCensus;
pub use generator::GuestGenerator;
pub use run::{run_guests, GuestOutcome};

pub(crate) use run::{compare_guests, GuestProgram};
pub(crate) use words::{any_length, request_of, spoil_words};

use kernelharp::words::{collect, CollectWords, PutWords, RequestWords, COLLECT_WORDS};
use kernelharp::GuestMemory;
use second::{Collected, Guest};

use crate::programs::code;

/// The two calls over a page of any length. Each gives 0 when it was done, else the refusal's number;
/// then nothing that was lent has changed, `answer` included.
pub trait GuestCore {
    /// `kh_guest_put`
    fn put(&mut self, page: &mut [u8], request: &RequestWords, answer: &mut PutWords) -> u32;
    /// `kh_guest_collect`
    fn collect(&mut self, page: &mut [u8], answer: &mut CollectWords) -> u32;

    /// The words that a refused call must leave as they are; none where a program has no such words.
    fn memory(&self) -> &[u64] {
        &[]
    }
}

/// The archive.
impl GuestCore for GuestMemory {
    fn put(&mut self, page: &mut [u8], request: &RequestWords, answer: &mut PutWords) -> u32 {
        GuestMemory::put(self, page, request, answer)
    }

    fn collect(&mut self, page: &mut [u8], answer: &mut CollectWords) -> u32 {
        GuestMemory::collect(self, page, answer)
    }

    fn memory(&self) -> &[u64] {
        self.words()
    }
}

/// The second program, its answers put into words.
impl GuestCore for Guest {
    fn put(&mut self, page: &mut [u8], request: &RequestWords, answer: &mut PutWords) -> u32 {
        code(Guest::put(self, page, request), |notify| {
            *answer = [u64::from(notify)];
        })
    }

    fn collect(&mut self, page: &mut [u8], answer: &mut CollectWords) -> u32 {
        code(Guest::collect(self, page), |collected| {
            *answer = collect_words(collected.as_ref());
        })
    }
}

/// What the second program collected, in the words of the C interface.
pub fn collect_words(collected: Option<&Collected>) -> CollectWords {
    let mut words = [0; COLLECT_WORDS];
    if let Some(response) = collected {
        words[collect::FOUND] = 1;
        words[collect::ID] = response.id;
        words[collect::OPERATION] = u64::from(response.operation);
        words[collect::STATUS] = u64::from(response.status);
    }
    words
}

/// One of the two calls. A page of another length than due holds the first bytes of the due one, then
/// zeros.
#[derive(Clone, Debug, PartialEq, Eq)]
pub enum GuestCall {
    /// Put a request.
    Put {
        /// How many bytes of page are lent.
        page_bytes: usize,
        /// The request.
        request: Box<RequestWords>,
    },
    /// Collect a response.
    Collect {
        /// How many bytes of page are lent.
        page_bytes: usize,
    },
}

impl GuestCall {
    pub(crate) fn page_bytes(&self) -> usize {
        match *self {
            GuestCall::Put { page_bytes, .. } | GuestCall::Collect { page_bytes } => page_bytes,
        }
    }
}

/// Bytes that the backend writes at a place of the page.
#[derive(Clone, Debug, PartialEq, Eq)]
pub struct PageWrite {
    /// At which byte.
    pub at: usize,
    /// What.
    pub bytes: Vec<u8>,
}

/// Writes, then a call.
#[derive(Clone, Debug, PartialEq, Eq)]
pub struct GuestStep {
    /// What is written before the call.
    pub writes: Vec<PageWrite>,
    /// The call.
    pub call: GuestCall,
}

/// Id and operation.
pub(crate) type Pair = (u64, u8);

//! A guest and a backend with one page between them, and nobody else who writes it: what is claimed of
//! both together (section 16 of docs/RULES.md), checked from their calls alone.
//!
//! The guest is fresh, the page zeros, and the port a 64-bit one with one page that is opened once. Then the requests
//! that the backend takes are those that were put, in that order and in every field, and it sees no
//! overrun; the responses that the guest collects are those that the backend gave, in that order, and
//! no page is refused.

mod request;

use crate::list::names;
use crate::places::{
    kind, many, share, turn, u32_at, u64_at, Layout, Ring, DONE_STATUS, PAGE_BYTES, PAGE_SLOTS,
    TURN_WORDS,
};
use crate::refusal::{BAD_REQUEST, ID_OUTSTANDING, NONE, RING_FULL, WRONG_LENGTH};
use crate::{sheet, Event};
use request::Request;
use std::collections::{HashMap, VecDeque};

/// Words of a request that is put, and of a collect's answer.
pub const REQUEST_WORDS: usize = 41;
pub const COLLECT_WORDS: usize = 4;

/// The ring that both halves know: a 64-bit guest's, of one page.
const RING: Ring = Ring {
    layout: Layout::Bits64,
    slots: PAGE_SLOTS,
};

/// One call of either half.
#[derive(Clone, Copy, Debug)]
pub enum HalvesEvent<'a> {
    /// The guest puts a request.
    Put {
        /// The page before the call.
        lent: &'a [u8],
        /// The page after the call.
        left: &'a [u8],
        /// The request.
        request: &'a [u64; REQUEST_WORDS],
        /// 0 or the refusal.
        code: u32,
    },
    /// The guest collects a response.
    Collect {
        /// The page before the call.
        lent: &'a [u8],
        /// The page after the call.
        left: &'a [u8],
        /// 0 or the refusal.
        code: u32,
        /// `kh_guest_collect`'s answer.
        answer: &'a [u64; COLLECT_WORDS],
    },
    /// A call of the backend's, whatever port it is about.
    Backend(Event<'a>),
}

/// A response that the backend gave, as the page has it.
#[derive(Clone, Copy, Debug, PartialEq, Eq)]
struct Response {
    id: u64,
    operation: u8,
    status: u16,
}

/// The calls so far, and the checks over them. Once a check has failed, the books mean nothing more.
#[derive(Debug)]
pub struct HalvesHistory {
    port: usize,
    /// The page as the last call left it.
    page: Vec<u8>,
    opened: bool,
    closed: bool,
    /// What the port's sheet says of it.
    discard_secure: bool,
    /// Put and not taken.
    waiting: VecDeque<Request>,
    /// Taken and not answered, by tag.
    started: HashMap<u64, Request>,
    /// Answered and not collected.
    responses: VecDeque<Response>,
    taken: u32,
    answered: u32,
}

impl HalvesHistory {
    /// A fresh guest and a page of zeros, which is the page of this port.
    pub fn new(port: usize) -> HalvesHistory {
        HalvesHistory {
            port,
            page: vec![0; PAGE_BYTES],
            opened: false,
            closed: false,
            discard_secure: false,
            waiting: VecDeque::new(),
            started: HashMap::new(),
            responses: VecDeque::new(),
            taken: 0,
            answered: 0,
        }
    }

    /// Whether the port was opened, and not closed since.
    pub fn is_open(&self) -> bool {
        self.opened && !self.closed
    }

    /// Whether it was closed.
    pub fn is_closed(&self) -> bool {
        self.closed
    }

    /// How many requests were taken, modulo 2^32.
    pub fn taken(&self) -> u32 {
        self.taken
    }

    /// How many requests are put and not taken, taken and not answered, answered and not collected.
    pub fn outstanding(&self) -> [usize; 3] {
        [self.waiting.len(), self.started.len(), self.responses.len()]
    }

    /// The page within the rings.
    fn page<'a>(&self, rings: &'a [u8]) -> &'a [u8] {
        &share(rings, self.port)[..PAGE_BYTES]
    }

    /// Adds a call and checks the claim over all of them.
    pub fn check(&mut self, event: &HalvesEvent) -> Result<(), String> {
        match *event {
            HalvesEvent::Put {
                lent,
                left,
                request,
                code,
            } => {
                self.pass_on(lent, left)?;
                self.put(lent, request, code)
            }
            HalvesEvent::Collect {
                lent,
                left,
                code,
                answer,
            } => {
                self.pass_on(lent, left)?;
                self.collect(lent, code, answer)
            }
            HalvesEvent::Backend(event) => self.backend(&event),
        }
    }

    /// That nobody but the two halves writes the page is for the caller to see to; without it nothing
    /// is claimed. A page of another length is none of theirs.
    fn pass_on(&mut self, lent: &[u8], left: &[u8]) -> Result<(), String> {
        if lent.len() != PAGE_BYTES {
            return Ok(());
        }
        if lent != self.page {
            return Err("the page is not as the last call left it".into());
        }
        self.page.copy_from_slice(left);
        Ok(())
    }

    fn put(&mut self, lent: &[u8], words: &[u64; REQUEST_WORDS], code: u32) -> Result<(), String> {
        let request = Request::of_words(words);
        let due = match &request {
            _ if lent.len() != PAGE_BYTES => WRONG_LENGTH,
            _ if self.outstanding().iter().sum::<usize>() == PAGE_SLOTS as usize => RING_FULL,
            _ if self.is_outstanding(request::id(words)) => ID_OUTSTANDING,
            None => BAD_REQUEST,
            Some(_) => NONE,
        };
        check_code("putting", code, due)?;
        if code == NONE {
            self.waiting.extend(request);
        }
        Ok(())
    }

    fn is_outstanding(&self, id: u64) -> bool {
        let requests = self.waiting.iter().chain(self.started.values());
        let responses = self.responses.iter().map(|response| response.id);
        requests
            .map(|request| request.id)
            .chain(responses)
            .any(|known| known == id)
    }

    fn collect(
        &mut self,
        lent: &[u8],
        code: u32,
        answer: &[u64; COLLECT_WORDS],
    ) -> Result<(), String> {
        let due = match lent.len() {
            PAGE_BYTES => NONE,
            _ => WRONG_LENGTH,
        };
        check_code("collecting", code, due)?;
        if code != NONE {
            return Ok(());
        }
        let given = self.responses.pop_front();
        let due = given.map_or([0; COLLECT_WORDS], |given| {
            let (operation, status) = (u64::from(given.operation), u64::from(given.status));
            [1, given.id, operation, status]
        });
        if *answer != due {
            return Err(format!(
                "collected {answer:x?}, the backend gave {given:x?}"
            ));
        }
        Ok(())
    }

    fn backend(&mut self, event: &Event) -> Result<(), String> {
        if event.code() != NONE {
            return Ok(());
        }
        match *event {
            Event::Open { port, sheet, .. } if port as usize == self.port => self.open(sheet),
            Event::Close { port, .. } if port as usize == self.port => {
                self.closed = true;
                Ok(())
            }
            Event::Turn {
                lent, left, answer, ..
            } => {
                self.pass_on(self.page(lent), self.page(left))?;
                self.turned(self.page(lent), self.page(left), answer)
            }
            Event::Complete {
                lent,
                left,
                port,
                tag,
                answer,
                ..
            } => {
                self.pass_on(self.page(lent), self.page(left))?;
                if port as usize == self.port {
                    self.completed(self.page(left), tag.into(), answer[DONE_STATUS])?;
                }
                Ok(())
            }
            Event::CompleteMany {
                lent,
                left,
                port,
                entries,
                answer,
                ..
            } => {
                self.pass_on(self.page(lent), self.page(left))?;
                if port as usize == self.port {
                    let names = names(entries).unwrap_or_default();
                    for ((tag, _), status) in names.into_iter().zip(&answer[many::STATUSES..]) {
                        self.completed(self.page(left), tag, *status)?;
                    }
                }
                Ok(())
            }
            Event::Open { .. }
            | Event::Close { .. }
            | Event::Zeroed { .. }
            | Event::Skipped { .. } => Ok(()),
        }
    }

    fn open(&mut self, sheet: &[u8]) -> Result<(), String> {
        if self.opened || sheet::ring(sheet) != RING {
            return Err("the port is a 64-bit one with one page that is opened once".into());
        }
        self.opened = true;
        self.discard_secure = sheet::discard_secure(sheet);
        Ok(())
    }

    fn turned(
        &mut self,
        lent: &[u8],
        left: &[u8],
        answer: &[u64; TURN_WORDS],
    ) -> Result<(), String> {
        let ours = answer[turn::PORT] == self.port as u64;
        match answer[turn::KIND] {
            kind::IDLE if self.is_open() && !self.waiting.is_empty() => {
                Err("an idle turn, but a request that was put waits".into())
            }
            kind::IDLE => Ok(()),
            _ if ours && self.closed => Err("the port was served after its close".into()),
            kind::OVERRUN if ours => Err("an overrun".into()),
            kind::STARTED if ours => {
                let request = self.take(lent)?;
                request.check_plan(self.discard_secure, answer)?;
                match self.started.insert(answer[turn::TAG], request) {
                    Some(_) => Err("a tag is named twice".into()),
                    None => Ok(()),
                }
            }
            kind::ANSWERED if ours => {
                let request = self.take(lent)?;
                self.answer(left, &request, answer[turn::STATUS])
            }
            _ => Ok(()),
        }
    }

    /// The request that a turn took from the page, which is the oldest that was put.
    fn take(&mut self, lent: &[u8]) -> Result<Request, String> {
        let Some(put) = self.waiting.pop_front() else {
            return Err("a request was taken that was not put".into());
        };
        let taken = Request::of_slot(RING.slot(lent, self.taken));
        if taken != put {
            return Err(format!("taken {taken:x?}, put {put:x?}"));
        }
        self.taken = self.taken.wrapping_add(1);
        Ok(put)
    }

    fn completed(&mut self, left: &[u8], tag: u64, status: u64) -> Result<(), String> {
        let Some(request) = self.started.remove(&tag) else {
            return Err("a request was completed that was not started".into());
        };
        self.answer(left, &request, status)
    }

    /// The response to a request: its id and operation, and the status that the call answered, which
    /// stands there without its sign.
    fn answer(&mut self, left: &[u8], request: &Request, status: u64) -> Result<(), String> {
        let slot = RING.slot(left, self.answered);
        let given = Response {
            id: u64_at(slot, 0),
            operation: slot[8],
            status: (u32_at(slot, 8) >> 16) as u16,
        };
        let due = Response {
            id: request.id,
            operation: request.operation,
            status: (status as u16).wrapping_neg(),
        };
        if given != due {
            return Err(format!("answered {given:x?}, due was {due:x?}"));
        }
        self.responses.push_back(given);
        self.answered = self.answered.wrapping_add(1);
        Ok(())
    }
}

fn check_code(what: &str, code: u32, due: u32) -> Result<(), String> {
    if code == due {
        Ok(())
    } else {
        Err(format!("{what} gave {code}, due was {due}"))
    }
}

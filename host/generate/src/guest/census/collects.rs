//! Responses collected, nothing to collect, and why a page was refused.

use super::{refusal_classes, GuestCensus, WRONG_LENGTH};
use crate::guest::generator::OPERATIONS;
use kernelharp::layout::{
    read_u32, read_u64, Abi, Pages, PAGE_BYTES, PAGE_SLOTS, RESPONSE_BYTES, RSP_EVENT, RSP_PROD,
};
use kernelharp::words::{collect, CollectWords};
use second::Refusal;

const BAD_RSP_PROD: u32 = Refusal::BadRspProd as u32;
const NOT_OUTSTANDING: u32 = Refusal::NotOutstanding as u32;

/// How many ended requests count as ended lately.
const ENDED: usize = 12;

/// The classes that a long run should show.
pub fn collect_classes() -> Vec<String> {
    let refusals = [WRONG_LENGTH, BAD_RSP_PROD, NOT_OUTSTANDING];
    let mut classes = refusal_classes("collect", &refusals);
    classes.extend(CLASSES.iter().map(|&class| class.into()));
    for operation in OPERATIONS.map(u64::from) {
        classes.extend(STATUSES.map(|(_, name)| status_class(operation, name)));
        classes.push(status_class(operation, ANY_STATUS));
    }
    classes
}

const STATUSES: [(u64, &str); 3] = [(0, "0"), (0xFFFF, "-1"), (0xFFFE, "-2")];
const ANY_STATUS: &str = "any";

const CLASSES: &[&str] = &[
    "collect refused 34, 32 outstanding",
    "collect refused 34, behind",
    "collect refused 34, behind by one",
    "collect refused 34, by one",
    "collect refused 34, far ahead",
    "collect refused 34, none outstanding",
    "collect refused 35, id of one and operation of another",
    "collect refused 35, id only",
    "collect refused 35, neither",
    "collect refused 35, of an ended request",
    "collect refused 35, operation only",
    "collected",
    "collected, 32 outstanding",
    "collected, at the line",
    "collected, at the ring's end",
    "collected, beyond index 1000",
    "collected, beyond index 31",
    "collected, from the end of the list",
    "collected, last but one of the list",
    "collected, more outstanding than answered",
    "collected, none outstanding any more",
    "collected, not the oldest",
    "collected, padding set",
    "collected, the last moves to its place",
    "collected, the oldest",
    "nothing",
    "nothing, 32 outstanding",
    "nothing, beyond index 31",
    "nothing, none outstanding",
    "nothing, rsp_event as it was",
    "nothing, rsp_event another",
    "nothing, some outstanding",
];

fn status_class(operation: u64, status: &str) -> String {
    format!("collected, operation {operation}, status {status}")
}

/// The name of a status by its 16 bits.
fn status_name(status: u64) -> &'static str {
    let known = STATUSES.iter().find(|(bits, _)| *bits == status);
    known.map_or(ANY_STATUS, |(_, name)| name)
}

impl GuestCensus {
    /// How far rsp_prod is ahead, modulo 2^32.
    fn ahead(&self, lent: &[u8]) -> u32 {
        read_u32(lent, RSP_PROD).wrapping_sub(self.collected)
    }

    /// The bytes of the next response.
    fn response<'a>(&self, lent: &'a [u8]) -> &'a [u8] {
        &lent[Abi::Bits64.slot_at(Pages::One, self.collected)..][..RESPONSE_BYTES]
    }

    /// The refusals that a collect deserves, lowest first. Of a page that is too short nothing more is
    /// said than that.
    pub(super) fn collect_refusals(&self, lent: &[u8]) -> Vec<u32> {
        let mut deserved = Vec::new();
        if lent.len() != PAGE_BYTES {
            deserved.push(WRONG_LENGTH);
        }
        if lent.len() < PAGE_BYTES || self.ahead(lent) == 0 {
            return deserved;
        }
        if self.ahead(lent) as usize > self.outstanding.len() {
            deserved.push(BAD_RSP_PROD);
        }
        let response = self.response(lent);
        let pair = (read_u64(response, 0), response[8]);
        if !self.outstanding.iter().any(|(known, _)| *known == pair) {
            deserved.push(NOT_OUTSTANDING);
        }
        deserved
    }

    pub(super) fn note_refused_collect(&mut self, lent: &[u8], code: u32) {
        match code {
            BAD_RSP_PROD => self.note_bad_index(self.ahead(lent)),
            NOT_OUTSTANDING => self.note_stranger(lent),
            _ => {}
        }
    }

    fn note_bad_index(&mut self, ahead: u32) {
        let (outstanding, tally) = (self.outstanding.len(), &mut self.tally);
        let by_one = ahead as usize == outstanding + 1;
        tally.tick_if(by_one, "collect refused 34, by one");
        let behind = ahead == u32::MAX;
        tally.tick_if(behind, "collect refused 34, behind by one");
        let behind = ahead >= 1 << 31;
        tally.tick_if(behind, "collect refused 34, behind");
        let far = (34..1 << 31).contains(&ahead);
        tally.tick_if(far, "collect refused 34, far ahead");
        let none = outstanding == 0;
        tally.tick_if(none, "collect refused 34, none outstanding");
        let full = outstanding == PAGE_SLOTS;
        tally.tick_if(full, "collect refused 34, 32 outstanding");
    }

    /// A response that fits none of the outstanding requests.
    fn note_stranger(&mut self, lent: &[u8]) {
        let response = self.response(lent);
        let (id, operation) = (read_u64(response, 0), response[8]);
        let mut pairs = self.outstanding.iter();
        let id_fits = pairs.any(|((known, _), _)| *known == id);
        let mut pairs = self.outstanding.iter();
        let operation_fits = pairs.any(|((_, known), _)| *known == operation);
        self.tally.tick(match (id_fits, operation_fits) {
            (true, true) => "collect refused 35, id of one and operation of another",
            (true, false) => "collect refused 35, id only",
            (false, true) => "collect refused 35, operation only",
            (false, false) => "collect refused 35, neither",
        });
        let ended = self.ended.contains(&(id, operation));
        self.tally
            .tick_if(ended, "collect refused 35, of an ended request");
    }

    pub(super) fn note_nothing(&mut self, lent: &[u8], left: &[u8]) {
        self.tally.tick("nothing");
        self.tally.tick(match self.outstanding.len() {
            0 => "nothing, none outstanding",
            PAGE_SLOTS => "nothing, 32 outstanding",
            _ => "nothing, some outstanding",
        });
        let same = read_u32(lent, RSP_EVENT) == read_u32(left, RSP_EVENT);
        self.tally.tick(if same {
            "nothing, rsp_event as it was"
        } else {
            "nothing, rsp_event another"
        });
        let beyond = self.collected > 31;
        self.tally.tick_if(beyond, "nothing, beyond index 31");
    }

    /// Counts a response that was collected, and ends its request.
    pub(super) fn note_collected(&mut self, answer: &CollectWords, lent: &[u8]) {
        let (id, operation) = (answer[collect::ID], answer[collect::OPERATION]);
        let status = status_name(answer[collect::STATUS]);
        self.tally.tick("collected");
        self.tally.tick(&status_class(operation, status));
        self.note_line(self.ahead(lent) as usize);
        let response = self.response(lent);
        let padding = response[9] != 0 && response[12..].iter().all(|&byte| byte != 0);
        self.tally.tick_if(padding, "collected, padding set");
        let index = self.collected;
        let end = index as usize % PAGE_SLOTS == PAGE_SLOTS - 1;
        self.tally.tick_if(end, "collected, at the ring's end");
        self.tally.tick_if(index > 31, "collected, beyond index 31");
        self.tally
            .tick_if(index > 1000, "collected, beyond index 1000");
        self.collected = index.wrapping_add(1);
        let mut pairs = self.outstanding.iter();
        if let Some(place) = pairs.position(|((known, _), _)| *known == id) {
            self.end(place);
        }
    }

    fn note_line(&mut self, ahead: usize) {
        let (outstanding, tally) = (self.outstanding.len(), &mut self.tally);
        tally.tick_if(ahead == outstanding, "collected, at the line");
        let more = ahead < outstanding;
        tally.tick_if(more, "collected, more outstanding than answered");
        tally.tick_if(outstanding == PAGE_SLOTS, "collected, 32 outstanding");
    }

    fn end(&mut self, place: usize) {
        let behind = self.outstanding.len() - 1 - place;
        let index = |entry: &(_, u32)| self.put.wrapping_sub(entry.1);
        let oldest = self.outstanding.iter().map(index).max();
        let is_oldest = oldest == Some(index(&self.outstanding[place]));
        self.tally.tick(if is_oldest {
            "collected, the oldest"
        } else {
            "collected, not the oldest"
        });
        self.tally.tick(match behind {
            0 => "collected, from the end of the list",
            1 => "collected, last but one of the list",
            _ => "collected, the last moves to its place",
        });
        let (pair, _) = self.outstanding.swap_remove(place);
        if self.ended.len() == ENDED {
            self.ended.pop_front();
        }
        self.ended.push_back(pair);
        let none = self.outstanding.is_empty();
        self.tally
            .tick_if(none, "collected, none outstanding any more");
    }
}

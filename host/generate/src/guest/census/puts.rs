//! Requests put, and why others were refused.

use super::{refusal_classes, GuestCensus, WRONG_LENGTH};
use crate::census::yes_or_no;
use crate::guest::causes::{causes, causes_of, used_segments, OPERATION_CAUSES};
use crate::guest::generator::OPERATIONS;
use kernelharp::layout::{read_u32, Abi, Pages, PAGE_BYTES, PAGE_SLOTS, REQ_EVENT, REQ_PROD};
use kernelharp::words::{request, segment, RequestWords};
use second::Refusal;

const RING_FULL: u32 = Refusal::RingFull as u32;
const ID_OUTSTANDING: u32 = Refusal::IdOutstanding as u32;
const BAD_REQUEST: u32 = Refusal::BadRequest as u32;

/// The classes that a long run should show.
pub fn put_classes() -> Vec<String> {
    let refusals = [WRONG_LENGTH, RING_FULL, ID_OUTSTANDING, BAD_REQUEST];
    let mut classes = refusal_classes("put", &refusals);
    classes.extend(CLASSES.iter().map(|&class| class.into()));
    classes.extend(OPERATION_CAUSES.map(|cause| cause_class(None, cause)));
    for operation in OPERATIONS.map(u64::from) {
        classes.push(operation_class(operation));
        let causes = causes_of(operation).into_iter();
        classes.extend(causes.map(|cause| cause_class(Some(operation), cause)));
    }
    classes
}

const CLASSES: &[&str] = &[
    "put",
    "put refused 31, 32 and 33 too",
    "put refused 33, a segment before the last",
    "put refused 33, the last of 11 segments",
    "put, 1 segment",
    "put, 11 segments",
    "put, another req_prod in the page",
    "put, at the ring's end",
    "put, beyond index 1000",
    "put, beyond index 31",
    "put, discard of 2^64 - 1 sectors or nearly",
    "put, discard with flag bits above 0 alone",
    "put, discard with other words",
    "put, discard with the secure bit and others",
    "put, empty barrier with other words",
    "put, flush with other words",
    "put, frame 0",
    "put, frame 2^32 - 1",
    "put, id 0",
    "put, id 2^64 - 1",
    "put, id of an ended request",
    "put, id one bit off an outstanding one",
    "put, notify no",
    "put, notify no, req_event one above",
    "put, notify no, req_event one below",
    "put, notify yes",
    "put, now 32 outstanding",
    "put, over other bytes of the slot",
    "put, sector 7 alone",
    "put, sectors 0 to 7",
    "put, segments from n on that are unsound",
    "put, start 2^64 - 1",
    "put, words 6 and 7 set",
];

fn operation_class(operation: u64) -> String {
    format!("put, operation {operation}")
}

/// A cause of refusal 33 that is the only one: of a known operation, or its number.
fn cause_class(operation: Option<u64>, cause: &str) -> String {
    match operation {
        Some(operation) => format!("put refused 33, operation {operation}, {cause}"),
        None => format!("put refused 33, {cause}"),
    }
}

impl GuestCensus {
    /// The refusals that a put deserves, lowest first.
    pub(super) fn put_refusals(&self, words: &RequestWords, lent: &[u8]) -> Vec<u32> {
        let deserved = [
            (WRONG_LENGTH, lent.len() != PAGE_BYTES),
            (RING_FULL, self.is_full()),
            (ID_OUTSTANDING, self.is_outstanding(words[request::ID])),
            (BAD_REQUEST, !causes(words).is_empty()),
        ];
        let deserved = deserved.into_iter().filter(|(_, is_due)| *is_due);
        deserved.map(|(number, _)| number).collect()
    }

    fn is_outstanding(&self, id: u64) -> bool {
        self.outstanding.iter().any(|((known, _), _)| *known == id)
    }

    pub(super) fn note_refused_put(&mut self, words: &RequestWords, code: u32) {
        let causes = causes(words);
        let all = self.is_outstanding(words[request::ID]) && !causes.is_empty();
        let class = "put refused 31, 32 and 33 too";
        self.tally.tick_if(code == RING_FULL && all, class);
        let &[cause] = &causes[..] else { return };
        if code != BAD_REQUEST {
            return;
        }
        let operation = words[request::OPERATION];
        let known = !OPERATION_CAUSES.contains(&cause);
        self.tally
            .tick(&cause_class(known.then_some(operation), cause));
        self.note_place(words);
    }

    /// Which of the segments is at fault, where one is.
    fn note_place(&mut self, words: &RequestWords) {
        let count = used_segments(words).count();
        let last = used_segments(words).last();
        let is_sound = |words: &[u64]| {
            words[segment::FIRST] <= words[segment::LAST]
                && words[segment::LAST] <= 7
                && words[segment::FRAME] <= u64::from(u32::MAX)
        };
        let Some(last) = last.map(is_sound) else {
            return;
        };
        let class = "put refused 33, a segment before the last";
        self.tally.tick_if(last, class);
        let class = "put refused 33, the last of 11 segments";
        self.tally.tick_if(!last && count == 11, class);
    }

    /// Counts a request that was put, with the page as it was lent.
    pub(super) fn note_put(&mut self, words: &RequestWords, notify: u64, lent: &[u8]) {
        let operation = words[request::OPERATION];
        self.tally.tick("put");
        self.tally.tick(&operation_class(operation));
        let (index, id) = (self.put, words[request::ID]);
        self.note_id(id);
        self.note_words(words);
        self.note_notify(notify, lent);
        let slot = &lent[Abi::Bits64.slot_at(Pages::One, index)..][..Abi::Bits64.slot_bytes()];
        let other = slot.iter().all(|&byte| byte != 0);
        self.tally
            .tick_if(other, "put, over other bytes of the slot");
        let another = read_u32(lent, REQ_PROD) != index;
        self.tally
            .tick_if(another, "put, another req_prod in the page");
        let end = index as usize % PAGE_SLOTS == PAGE_SLOTS - 1;
        self.tally.tick_if(end, "put, at the ring's end");
        self.tally.tick_if(index > 31, "put, beyond index 31");
        self.tally.tick_if(index > 1000, "put, beyond index 1000");
        self.outstanding.push(((id, operation as u8), index));
        self.put = index.wrapping_add(1);
        self.tally
            .tick_if(self.is_full(), "put, now 32 outstanding");
    }

    fn note_notify(&mut self, notify: u64, lent: &[u8]) {
        let notify = yes_or_no(notify);
        self.tally.tick(&format!("put, notify {notify}"));
        let off = read_u32(lent, REQ_EVENT).wrapping_sub(self.put.wrapping_add(1));
        let below = off == u32::MAX;
        self.tally
            .tick_if(below, "put, notify no, req_event one below");
        self.tally
            .tick_if(off == 1, "put, notify no, req_event one above");
    }

    fn note_id(&mut self, id: u64) {
        self.tally.tick_if(id == 0, "put, id 0");
        self.tally.tick_if(id == u64::MAX, "put, id 2^64 - 1");
        let ended = self.ended.iter().any(|(known, _)| *known == id);
        self.tally.tick_if(ended, "put, id of an ended request");
        let mut known = self.outstanding.iter();
        let near = known.any(|((known, _), _)| (known ^ id).count_ones() == 1);
        self.tally
            .tick_if(near, "put, id one bit off an outstanding one");
    }

    /// Words at an edge, and words that the operation has no use for.
    fn note_words(&mut self, words: &RequestWords) {
        let tally = &mut self.tally;
        let unused = words[6] != 0 && words[7] != 0;
        tally.tick_if(unused, "put, words 6 and 7 set");
        let wild = words[request::START] != 0 && words[request::SEGMENTS + segment::LAST] > 7;
        let flag = words[request::FLAG];
        match words[request::OPERATION] {
            3 => tally.tick_if(wild, "put, flush with other words"),
            5 => {
                let count = words[request::SEGMENT_COUNT];
                tally.tick_if(count > 11, "put, discard with other words");
                let above = flag > 1 && flag & 1 == 0;
                tally.tick_if(above, "put, discard with flag bits above 0 alone");
                let both = flag > 1 && flag & 1 == 1;
                tally.tick_if(both, "put, discard with the secure bit and others");
                let most = words[request::SECTORS] > u64::MAX - 8;
                tally.tick_if(most, "put, discard of 2^64 - 1 sectors or nearly");
            }
            2 if words[request::SEGMENT_COUNT] == 0 => {
                tally.tick_if(wild, "put, empty barrier with other words");
            }
            _ => {
                let last = words[request::START] == u64::MAX;
                tally.tick_if(last, "put, start 2^64 - 1");
                self.note_segments(words);
            }
        }
    }

    fn note_segments(&mut self, words: &RequestWords) {
        let tally = &mut self.tally;
        let count = used_segments(words).count();
        tally.tick_if(count == 1, "put, 1 segment");
        tally.tick_if(count == 11, "put, 11 segments");
        let behind = words[request::SEGMENTS..].chunks_exact(segment::WORDS);
        let unsound = behind.skip(count).any(|words| words[segment::LAST] > 7);
        tally.tick_if(unsound, "put, segments from n on that are unsound");
        let frames = || used_segments(words).map(|words| words[segment::FRAME]);
        tally.tick_if(frames().any(|frame| frame == 0), "put, frame 0");
        let last = u64::from(u32::MAX);
        tally.tick_if(frames().any(|frame| frame == last), "put, frame 2^32 - 1");
        let sectors = |due| used_segments(words).any(|words| words[segment::FIRST..] == due);
        tally.tick_if(sectors([7, 7]), "put, sector 7 alone");
        tally.tick_if(sectors([0, 7]), "put, sectors 0 to 7");
    }
}

//! The backend of a guest's list: it answers in any order, and in its bad times writes anything.

use super::{PageWrite, Pair};
use crate::Random;
use kernelharp::layout::{
    Abi, Pages, HEADER_BYTES, PAGE_BYTES, REQ_EVENT, REQ_PROD, RESPONSE_BYTES, RSP_EVENT, RSP_PROD,
};
use std::collections::VecDeque;

/// How many ended requests it remembers.
const ENDED: usize = 12;

/// What it knows of the guest's requests.
#[derive(Debug, Default)]
pub struct Responder {
    /// Put and not answered.
    unanswered: Vec<Pair>,
    /// Answered and not collected, in the order of their slots.
    waiting: VecDeque<Pair>,
    /// Collected lately.
    ended: VecDeque<Pair>,
    put: u32,
    collected: u32,
    /// The page is not as a sound backend would leave it.
    spoilt: bool,
}

impl Responder {
    /// A page that holds anything in the beginning.
    pub fn on_any_page() -> Responder {
        Responder {
            spoilt: true,
            ..Responder::default()
        }
    }

    pub fn outstanding(&self) -> usize {
        self.unanswered.len() + self.waiting.len()
    }

    pub fn any_outstanding(&self, random: &mut Random) -> Option<Pair> {
        let all = self.unanswered.iter().chain(&self.waiting);
        pick(random, all)
    }

    pub fn any_ended(&self, random: &mut Random) -> Option<Pair> {
        pick(random, self.ended.iter())
    }

    /// The guest put a request.
    pub fn was_put(&mut self, pair: Pair) {
        self.unanswered.push(pair);
        self.put = self.put.wrapping_add(1);
    }

    /// The guest collected a response.
    pub fn was_collected(&mut self, pair: Pair) {
        self.collected = self.collected.wrapping_add(1);
        if self.ended.len() == ENDED {
            self.ended.pop_front();
        }
        self.ended.push_back(pair);
        let first = self.waiting.pop_front();
        if first != Some(pair) {
            // Another response than the one meant for that slot: the page has to be written anew.
            self.unanswered.extend(first);
            self.unanswered.retain(|&known| known != pair);
            self.waiting.retain(|&known| known != pair);
            self.spoilt = true;
        }
    }

    /// Answers some of the requests, and says when it wants to be told of the next.
    pub fn act_soundly(&mut self, random: &mut Random, writes: &mut Vec<PageWrite>) {
        let before = if std::mem::take(&mut self.spoilt) {
            0
        } else {
            self.waiting.len()
        };
        let most = random.pick(&[1, 1, 2, 4, 32]);
        for _ in 0..most.min(self.unanswered.len()) {
            let any = random.index(self.unanswered.len());
            let next = random.pick(&[0, any]);
            self.waiting.push_back(self.unanswered.remove(next));
        }
        for (place, &pair) in self.waiting.iter().enumerate().skip(before) {
            let at = self.slot_at(place as u32);
            let bytes = response(random, pair);
            writes.push(PageWrite { at, bytes });
        }
        let rsp_prod = self.collected.wrapping_add(self.waiting.len() as u32);
        write_index(writes, RSP_PROD, rsp_prod);
    }

    /// Asks to be notified of the next request, or of another one.
    pub fn ask_for_event(&self, random: &mut Random, writes: &mut Vec<PageWrite>) {
        let any = random.word() as u32;
        let ahead = random.pick(&[1, 1, 1, 0, 2, 33, u32::MAX, any]);
        write_index(writes, REQ_EVENT, self.put.wrapping_add(ahead));
    }

    /// Does one thing, or two, that a sound backend does not.
    pub fn misbehave(&mut self, random: &mut Random, writes: &mut Vec<PageWrite>) {
        self.spoilt = true;
        match random.index(12) {
            0..=3 => self.write_wrong_index(random, writes),
            4..=8 => self.write_wrong_response(random, writes),
            9 => {
                self.write_wrong_response(random, writes);
                self.write_wrong_index(random, writes);
            }
            10 => scribble(random, writes),
            _ => {
                let mut header = vec![0; HEADER_BYTES];
                random.fill(&mut header);
                writes.push(PageWrite {
                    at: 0,
                    bytes: header,
                });
            }
        }
    }

    /// rsp_prod beyond the line, behind, or anywhere; or the guest's own indices, which it never reads.
    fn write_wrong_index(&self, random: &mut Random, writes: &mut Vec<PageWrite>) {
        let outstanding = self.outstanding() as u32;
        let any = random.word() as u32;
        let ahead = match random.index(8) {
            0 | 1 => outstanding + 1,
            2 => u32::MAX,
            3 => outstanding,
            4 => random.pick(&[33, 64, 0x100, 0x1_0000, 1 << 31, (1 << 31) - 1]),
            5 => random.pick(&[u32::MAX - 31, u32::MAX - 32, any]),
            _ => {
                write_index(writes, REQ_PROD, any);
                return write_index(writes, RSP_EVENT, any);
            }
        };
        write_index(writes, RSP_PROD, self.collected.wrapping_add(ahead));
    }

    /// A response in the next slot that is not that slot's, published.
    fn write_wrong_response(&self, random: &mut Random, writes: &mut Vec<PageWrite>) {
        let any = (random.word(), random.byte());
        let (id, operation) = self.any_outstanding(random).unwrap_or(any);
        let (_, other) = self.any_outstanding(random).unwrap_or(any);
        let pair = match random.index(8) {
            0 => (id ^ 1 << random.index(64), operation),
            1 => (id, random.pick(&[operation ^ 1, 0, 3, 5, 0xFF])),
            2 => (id, operation | 0x80),
            3 | 4 => self.any_ended(random).unwrap_or(any),
            5 => (id, other),
            6 => (id, operation),
            _ => any,
        };
        let at = self.slot_at(0);
        let bytes = response(random, pair);
        writes.push(PageWrite { at, bytes });
        let most = (self.outstanding() as u64).max(1);
        let ahead = 1 + random.below(most) as u32;
        write_index(writes, RSP_PROD, self.collected.wrapping_add(ahead));
    }

    /// The slot of the response that many behind the next one.
    fn slot_at(&self, behind: u32) -> usize {
        Abi::Bits64.slot_at(Pages::One, self.collected.wrapping_add(behind))
    }
}

fn pick<'a>(random: &mut Random, pairs: impl Iterator<Item = &'a Pair>) -> Option<Pair> {
    let pairs: Vec<Pair> = pairs.copied().collect();
    (!pairs.is_empty()).then(|| random.pick(&pairs))
}

/// A response. Now and then its status is none of the three and its padding not zero.
fn response(random: &mut Random, (id, operation): Pair) -> Vec<u8> {
    let mut bytes = vec![0; RESPONSE_BYTES];
    if random.chance(15) {
        random.fill(&mut bytes);
    } else {
        let status: i16 = random.pick(&[0, 0, -1, -2]);
        bytes[10..12].copy_from_slice(&status.to_le_bytes());
    }
    bytes[..8].copy_from_slice(&id.to_le_bytes());
    bytes[8] = operation;
    bytes
}

/// Any bytes in all slots, or in a few of their bytes.
fn scribble(random: &mut Random, writes: &mut Vec<PageWrite>) {
    let (at, length) = if random.chance(30) {
        (HEADER_BYTES, PAGE_BYTES - HEADER_BYTES)
    } else {
        (
            HEADER_BYTES + random.index(PAGE_BYTES - HEADER_BYTES - 24),
            24,
        )
    };
    let mut bytes = vec![0; length];
    random.fill(&mut bytes);
    writes.push(PageWrite { at, bytes });
}

fn write_index(writes: &mut Vec<PageWrite>, at: usize, value: u32) {
    let bytes = value.to_le_bytes().to_vec();
    writes.push(PageWrite { at, bytes });
}

//! A request by its fields: as its words were handed in, as its slot has it, and as a plan has it.

use super::REQUEST_WORDS;
use crate::places::{turn, u32_at, u64_at, TURN_WORDS};

/// The most segments of a request.
const SEGMENTS: usize = 11;

const DISCARD: u8 = 5;

/// One segment.
#[derive(Clone, Copy, Debug, PartialEq, Eq)]
struct Segment {
    frame: u32,
    first: u8,
    last: u8,
}

impl Segment {
    fn length(self) -> u64 {
        u64::from(self.last) + 1 - u64::from(self.first)
    }
}

/// What a request says. A field that its operation does not have is 0.
#[derive(Clone, Debug, PartialEq, Eq)]
pub struct Request {
    pub id: u64,
    pub operation: u8,
    start: u64,
    /// Of a discard: bit 0 of the flag.
    secure: bool,
    /// Of a discard.
    sectors: u64,
    segments: Vec<Segment>,
}

/// The id in a request's words.
pub fn id(words: &[u64; REQUEST_WORDS]) -> u64 {
    words[1]
}

impl Request {
    /// What the words ask for; nothing where they break check 21, 25 or 26 or have a number that is
    /// too great for its field.
    pub fn of_words(words: &[u64; REQUEST_WORDS]) -> Option<Request> {
        let [operation, id, start, count, flag, sectors, ..] = *words;
        let (least, most) = match operation {
            0 | 1 => (1, SEGMENTS),
            2 => (0, SEGMENTS),
            3 | 5 => (0, 0),
            _ => return None,
        };
        let is_discard = operation == u64::from(DISCARD);
        let count = if is_discard { 0 } else { count };
        if !(least..=most as u64).contains(&count) || is_discard && sectors == 0 {
            return None;
        }
        let segments = words[8..].chunks_exact(3).take(count as usize);
        let segments: Option<Vec<Segment>> = segments.map(segment_of_words).collect();
        Some(Request {
            id,
            operation: operation as u8,
            start: if is_discard || count > 0 { start } else { 0 },
            secure: is_discard && flag % 2 == 1,
            sectors: if is_discard { sectors } else { 0 },
            segments: segments?,
        })
    }

    /// What the bytes of a slot say.
    pub fn of_slot(slot: &[u8]) -> Request {
        let is_discard = slot[0] == DISCARD;
        let count = if is_discard { 0 } else { usize::from(slot[1]) };
        let segments = slot[24..].chunks_exact(8).take(count);
        Request {
            id: u64_at(slot, 8),
            operation: slot[0],
            start: u64_at(slot, 16),
            secure: is_discard && slot[1] % 2 == 1,
            sectors: if is_discard { u64_at(slot, 24) } else { 0 },
            segments: segments
                .map(|bytes| Segment {
                    frame: u32_at(bytes, 0),
                    first: bytes[4],
                    last: bytes[5],
                })
                .collect(),
        }
    }

    /// That a plan asks for what the request does: where discard-secure is 0, for a plain discard
    /// alone (rule 5.23).
    pub fn check_plan(
        &self,
        discard_secure: bool,
        answer: &[u64; TURN_WORDS],
    ) -> Result<(), String> {
        let count: u64 = self.segments.iter().map(|it| it.length()).sum();
        let head = [
            u64::from(self.operation),
            self.start,
            self.sectors + count,
            u64::from(self.secure && discard_secure),
            self.segments.len() as u64,
        ];
        let mut extents = [0; TURN_WORDS - turn::EXTENTS];
        let mut sector = self.start;
        for (place, segment) in extents.chunks_exact_mut(4).zip(&self.segments) {
            let length = segment.length();
            place[0] = u64::from(segment.frame);
            place[1] = u64::from(segment.first);
            place[2..].copy_from_slice(&[length, sector]);
            sector = sector.wrapping_add(length);
        }
        let planned = (&answer[turn::OPERATION..][..5], &answer[turn::EXTENTS..]);
        if planned != (&head, &extents) {
            return Err(format!("planned {planned:x?} for {self:x?}"));
        }
        Ok(())
    }
}

fn segment_of_words(words: &[u64]) -> Option<Segment> {
    let (first, last) = (words[1], words[2]);
    if first > last || last > 7 {
        return None;
    }
    Some(Segment {
        frame: words[0].try_into().ok()?,
        first: first as u8,
        last: last as u8,
    })
}

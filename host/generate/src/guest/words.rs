//! Requests as a guest hands them in: sound ones, and ones that break one thing of what refusal 33 names.

use crate::requests::{Draft, BARRIER, DISCARD, FLUSH};
use crate::Random;
use kernelharp::layout::{EXTENTS, PAGE_BYTES};
use kernelharp::words::{request, segment, RequestWords, REQUEST_WORDS};

/// The words of a draft. Those that its operation does not use are zeros, or any.
pub fn request_of(random: &mut Random, draft: &Draft, id: u64) -> RequestWords {
    let wild = random.chance(60);
    let mut words = [0; REQUEST_WORDS].map(|_: u64| if wild { random.word() } else { 0 });
    words[request::OPERATION] = u64::from(draft.operation);
    words[request::ID] = id;
    match draft.operation {
        FLUSH => words[request::SEGMENT_COUNT] = 0,
        DISCARD => {
            words[request::START] = draft.start;
            // Bits above the byte are no part of the flag either.
            words[request::FLAG] = words[request::FLAG] << 8 | u64::from(draft.count_or_flag);
            words[request::SECTORS] = draft.discard_count;
        }
        _ => {
            words[request::START] = draft.start;
            words[request::SEGMENT_COUNT] = draft.segments.len() as u64;
            let places = words[request::SEGMENTS..].chunks_exact_mut(segment::WORDS);
            for (place, segment) in places.zip(&draft.segments) {
                place[segment::FRAME] = u64::from(segment.frame);
                place[segment::FIRST] = u64::from(segment.first);
                place[segment::LAST] = u64::from(segment.last);
            }
        }
    }
    words
}

/// Breaks one thing of a sound request, most often on the edge, or by a number that would be sound if
/// it were cut to its field.
pub fn spoil_words(random: &mut Random, words: &mut RequestWords) {
    let operation = words[request::OPERATION];
    let segments = match operation {
        0..=2 => words[request::SEGMENT_COUNT].min(EXTENTS as u64) as usize,
        _ => 0,
    };
    match random.index(5) {
        0 => words[request::OPERATION] = unknown_operation(random, operation),
        1 => spoil_amount(random, words),
        _ if segments > 0 => {
            let at = request::SEGMENTS + segment::WORDS * random.index(segments);
            spoil_segment(random, &mut words[at..at + segment::WORDS]);
        }
        _ => spoil_amount(random, words),
    }
}

/// A word whose field cannot hold it, but would hold the sound number if it were cut.
fn widened(random: &mut Random, sound: u64, bits: u32) -> u64 {
    let bit = random.pick(&[bits, bits + 1, 32, 63]);
    sound | 1 << bit
}

fn unknown_operation(random: &mut Random, known: u64) -> u64 {
    match random.index(4) {
        0 => random.pick(&[4, 6]),
        1 => u64::from(random.byte() | 8),
        2 => random.pick(&[7, 255, 256 + 4, 256 + 6, u64::MAX]),
        _ => widened(random, known, 8),
    }
}

fn spoil_amount(random: &mut Random, words: &mut RequestWords) {
    let operation = words[request::OPERATION] as u8;
    if operation == DISCARD {
        words[request::SECTORS] = 0;
        return;
    }
    let count = &mut words[request::SEGMENT_COUNT];
    let least = if operation == FLUSH {
        1
    } else {
        EXTENTS as u64 + 1
    };
    *count = match random.index(5) {
        0 => least,
        1 => random.pick(&[least + 1, 128, 255]),
        2 => random.pick(&[256 + least, u64::MAX]),
        3 if operation != FLUSH && operation != BARRIER => 0,
        _ => widened(random, *count, 8),
    };
}

fn spoil_segment(random: &mut Random, words: &mut [u64]) {
    let [frame, first, last] = words else {
        unreachable!("a segment has three words")
    };
    match random.index(8) {
        0 => *frame = 1 << 32,
        1 => *frame = widened(random, *frame, 33),
        2 => {
            *last = random.below(7);
            *first = *last + 1 + random.below(7 - *last);
        }
        3 => *last = 8,
        4 => *last = random.pick(&[9, 128, 255]),
        5 => (*first, *last) = (8, 8),
        6 => *last = widened(random, *last, 8),
        _ => *first = widened(random, *first, 8),
    }
}

/// How long a page is lent: as long as it is, and now and then empty, one byte off, its slots alone,
/// two pages, or any.
pub fn any_length(random: &mut Random) -> usize {
    if !random.chance(3) {
        return PAGE_BYTES;
    }
    match random.index(8) {
        0 | 1 => 0,
        2 => PAGE_BYTES - 1,
        3 => PAGE_BYTES + 1,
        4 => 3648,
        5 => 2 * PAGE_BYTES,
        6 => 64,
        _ => (PAGE_BYTES + 1 + random.index(2 * PAGE_BYTES - 1)) % (2 * PAGE_BYTES),
    }
}

//! Why a request is refused with 33: every cause by itself, told from the words.

use kernelharp::layout::EXTENTS;
use kernelharp::words::{request, segment, RequestWords};
use std::ops::RangeInclusive;

/// The causes that an operation's number can have.
pub const OPERATION_CAUSES: [&str; 5] = [
    "operation 4",
    "operation 6",
    "another unknown operation",
    "operation above 255, known when cut",
    "operation above 255",
];

const NONE: &str = "n is 0";
const ONE_MORE: &str = "n is one too many";
const MORE: &str = "n is more than that";
const CUT: &str = "n above 255, sound when cut";
const FAR_MORE: &str = "n above 255";

const NO_SECTORS: &str = "no sectors";

/// The causes that a segment can have.
const SEGMENT_CAUSES: [&str; 8] = [
    "frame 2^32",
    "frame above 2^32",
    "first above last",
    "last 8",
    "last above 8",
    "first and last 8",
    "last above 255, sound when cut",
    "first above 255, sound when cut",
];

/// The causes that each operation can have behind its number.
pub fn causes_of(operation: u64) -> Vec<&'static str> {
    let amounts: &[&str] = match operation {
        0 | 1 => &[NONE, ONE_MORE, MORE, CUT, FAR_MORE],
        5 => &[NO_SECTORS],
        _ => &[ONE_MORE, MORE, CUT, FAR_MORE],
    };
    let mut causes = amounts.to_vec();
    if operation < 3 {
        causes.extend(SEGMENT_CAUSES);
    }
    causes
}

/// What of a request is refused with 33; nothing where it is sound.
pub fn causes(words: &RequestWords) -> Vec<&'static str> {
    let count = words[request::SEGMENT_COUNT];
    let most = EXTENTS as u64;
    match words[request::OPERATION] {
        0 | 1 => with_segments(words, 1..=most),
        2 => with_segments(words, 0..=most),
        3 => amount_cause(count, 0..=0).into_iter().collect(),
        5 if words[request::SECTORS] == 0 => vec![NO_SECTORS],
        5 => Vec::new(),
        unknown => vec![operation_cause(unknown)],
    }
}

/// The segments that count: those of a read, write or barrier with an amount that is no fault.
pub fn used_segments(words: &RequestWords) -> impl Iterator<Item = &[u64]> {
    let count = match words[request::OPERATION] {
        0..=2 if words[request::SEGMENT_COUNT] <= EXTENTS as u64 => words[request::SEGMENT_COUNT],
        _ => 0,
    };
    words[request::SEGMENTS..]
        .chunks_exact(segment::WORDS)
        .take(count as usize)
}

fn operation_cause(unknown: u64) -> &'static str {
    match unknown {
        4 => OPERATION_CAUSES[0],
        6 => OPERATION_CAUSES[1],
        0..=255 => OPERATION_CAUSES[2],
        _ if matches!(unknown as u8, 0..=3 | 5) => OPERATION_CAUSES[3],
        _ => OPERATION_CAUSES[4],
    }
}

fn with_segments(words: &RequestWords, sound: RangeInclusive<u64>) -> Vec<&'static str> {
    match amount_cause(words[request::SEGMENT_COUNT], sound) {
        Some(cause) => vec![cause],
        None => used_segments(words).filter_map(segment_cause).collect(),
    }
}

fn amount_cause(count: u64, sound: RangeInclusive<u64>) -> Option<&'static str> {
    let most = *sound.end();
    Some(match count {
        _ if sound.contains(&count) => return None,
        0 => NONE,
        _ if count == most + 1 => ONE_MORE,
        1..=255 => MORE,
        _ if sound.contains(&(count & 0xFF)) => CUT,
        _ => FAR_MORE,
    })
}

fn segment_cause(words: &[u64]) -> Option<&'static str> {
    let (frame, first, last) = (
        words[segment::FRAME],
        words[segment::FIRST],
        words[segment::LAST],
    );
    let sound = |first: u64, last: u64| first <= last && last <= 7;
    Some(match (first, last) {
        _ if sound(first, last) && frame <= u64::from(u32::MAX) => return None,
        _ if sound(first, last) && frame == 1 << 32 => SEGMENT_CAUSES[0],
        _ if sound(first, last) => SEGMENT_CAUSES[1],
        (0..=7, 0..=7) => SEGMENT_CAUSES[2],
        (0..=7, 8) => SEGMENT_CAUSES[3],
        (8, 8) => SEGMENT_CAUSES[5],
        (_, 256..) if sound(first, last & 0xFF) => SEGMENT_CAUSES[6],
        (256.., _) if sound(first & 0xFF, last) => SEGMENT_CAUSES[7],
        _ => SEGMENT_CAUSES[4],
    })
}

//! Requests of the tests.

use kernelharp::layout::Abi;
use kernelharp::words::{request, segment, RequestWords, REQUEST_WORDS};

/// A request to be put into a slot.
#[derive(Clone)]
pub struct Ask {
    /// Its operation.
    pub operation: u8,
    /// n, or a discard's flag.
    pub count_or_flag: u8,
    /// Its id.
    pub id: u64,
    /// The first sector on the disk.
    pub start: u64,
    /// Frame, first and last sector of each segment.
    pub segments: Vec<(u32, u8, u8)>,
    /// A discard's number of sectors.
    pub discard_count: u64,
}

impl Ask {
    /// An operation of `n` segments, each of sectors `first` to `last` of frame 5.
    pub fn of(operation: u8, n: u8, start: u64, first: u8, last: u8) -> Ask {
        Ask {
            operation,
            count_or_flag: n,
            id: 0x1122_3344_5566_7788,
            start,
            segments: vec![(5, first, last); usize::from(n).min(11)],
            discard_count: 0,
        }
    }

    /// A discard.
    pub fn discard(flag: u8, start: u64, count: u64) -> Ask {
        let mut ask = Ask::of(5, 0, start, 0, 0);
        ask.count_or_flag = flag;
        ask.discard_count = count;
        ask
    }

    /// The read of rule 9.2.
    pub fn usual_read() -> Ask {
        Ask::of(0, 1, 2000, 0, 7)
    }

    /// The request as it lies in a slot of a layout.
    pub fn bytes(&self, abi: Abi) -> Vec<u8> {
        // Bytes without a meaning, the handle's among them, are not zero.
        let mut slot = vec![0xEE; abi.slot_bytes()];
        slot[0] = self.operation;
        slot[1] = self.count_or_flag;
        slot[abi.id_at()..][..8].copy_from_slice(&self.id.to_le_bytes());
        slot[abi.start_at()..][..8].copy_from_slice(&self.start.to_le_bytes());
        let body = &mut slot[abi.segments_at()..];
        if self.operation == 5 {
            body[..8].copy_from_slice(&self.discard_count.to_le_bytes());
        }
        for (place, (frame, first, last)) in body.chunks_exact_mut(8).zip(&self.segments) {
            place[0..4].copy_from_slice(&frame.to_le_bytes());
            place[4] = *first;
            place[5] = *last;
        }
        slot
    }

    /// The request as a guest hands it in. Words that the operation does not use are not zero.
    pub fn words(&self) -> RequestWords {
        let mut words = [0xEEEE_EEEE_EEEE_EEEE; REQUEST_WORDS];
        words[request::OPERATION] = u64::from(self.operation);
        words[request::ID] = self.id;
        words[request::START] = self.start;
        if self.operation == 5 {
            words[request::FLAG] = u64::from(self.count_or_flag);
            words[request::SECTORS] = self.discard_count;
            return words;
        }
        words[request::SEGMENT_COUNT] = u64::from(self.count_or_flag);
        let places = words[request::SEGMENTS..].chunks_exact_mut(segment::WORDS);
        for (place, (frame, first, last)) in places.zip(&self.segments) {
            place[segment::FRAME] = u64::from(*frame);
            place[segment::FIRST] = u64::from(*first);
            place[segment::LAST] = u64::from(*last);
        }
        words
    }
}

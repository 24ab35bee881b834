//! Requests and responses, and how they lie in a slot.

use kernelharp::layout::{read_u64, SEGMENTS};
use kernelharp::{Abi, Operation, Segment};

/// The bytes of a segment (rule 2.6).
const SEGMENT_BYTES: usize = 8;

/// A request, of whichever layout: that comes in with its slot.
#[derive(Clone, Copy, Debug, PartialEq, Eq)]
pub struct Request {
    /// Its operation.
    pub operation: u8,
    /// n, or a discard's flag.
    pub count_or_flag: u8,
    /// Its id.
    pub id: u64,
    /// The first sector on the disk.
    pub start: u64,
    /// The segments, or a discard's number of sectors: what a slot ends with.
    rest: [u8; SEGMENTS * SEGMENT_BYTES],
}

impl Request {
    /// A read, write, barrier or flush of at most eleven segments.
    pub fn segmented(operation: u8, id: u64, start: u64, segments: &[Segment]) -> Request {
        assert!(segments.len() <= SEGMENTS, "a slot has room for eleven");
        let mut rest = [0; SEGMENTS * SEGMENT_BYTES];
        for (place, segment) in rest.chunks_exact_mut(SEGMENT_BYTES).zip(segments) {
            place[..4].copy_from_slice(&segment.frame.to_le_bytes());
            place[4] = segment.first;
            place[5] = segment.last;
        }
        Request {
            operation,
            count_or_flag: segments.len() as u8,
            id,
            start,
            rest,
        }
    }

    /// A discard.
    pub fn discard(id: u64, secure: bool, start: u64, count: u64) -> Request {
        let mut request = Request::segmented(Operation::Discard as u8, id, start, &[]);
        request.count_or_flag = u8::from(secure);
        request.rest[..8].copy_from_slice(&count.to_le_bytes());
        request
    }

    /// The request as it lies in its slot.
    pub fn slot(&self, abi: Abi) -> Vec<u8> {
        let mut slot = vec![0; abi.slot_bytes()];
        slot[0] = self.operation;
        slot[1] = self.count_or_flag;
        slot[abi.id_at()..][..8].copy_from_slice(&self.id.to_le_bytes());
        slot[abi.start_at()..][..8].copy_from_slice(&self.start.to_le_bytes());
        slot[abi.segments_at()..].copy_from_slice(&self.rest);
        slot
    }
}

/// A response as the guest reads it.
#[derive(Clone, Copy, Debug, PartialEq, Eq)]
pub struct Response {
    /// The request's id.
    pub id: u64,
    /// The request's operation.
    pub operation: u8,
    /// 0 okay, -1 error, -2 not supported.
    pub status: i16,
    /// Whether the bytes without a meaning are zero: five of a 64-bit guest's, one of a 32-bit one's.
    pub padding_is_zero: bool,
}

impl Response {
    /// Reads a response, as many bytes of a slot as the layout has it.
    pub fn from_bytes(bytes: &[u8]) -> Response {
        Response {
            id: read_u64(bytes, 0),
            operation: bytes[8],
            status: i16::from_le_bytes([bytes[10], bytes[11]]),
            padding_is_zero: bytes[9] == 0 && bytes[12..].iter().all(|&byte| byte == 0),
        }
    }
}

#[cfg(test)]
mod tests {
    use super::*;

    #[test]
    fn a_request_in_both_layouts() {
        let segment = Segment {
            frame: 0x0302_0100,
            first: 4,
            last: 5,
        };
        let read = Request::segmented(0, 0x1716_1514_1312_1110, 0x2726_2524_2322_2120, &[segment]);
        for (abi, id, bytes) in [(Abi::Bits64, 8, 112), (Abi::Bits32, 4, 108)] {
            let mut due = vec![0; bytes];
            due[1] = 1;
            due[id..id + 8].copy_from_slice(&[0x10, 0x11, 0x12, 0x13, 0x14, 0x15, 0x16, 0x17]);
            due[id + 8..id + 16].copy_from_slice(&[0x20, 0x21, 0x22, 0x23, 0x24, 0x25, 0x26, 0x27]);
            due[id + 16..id + 22].copy_from_slice(&[0, 1, 2, 3, 4, 5]);
            assert_eq!(read.slot(abi), due);
        }
    }

    #[test]
    fn a_discard_in_both_layouts() {
        let discard = Request::discard(7, true, 8, 0x0807_0605_0403_0201);
        for (abi, id) in [(Abi::Bits64, 8), (Abi::Bits32, 4)] {
            let slot = discard.slot(abi);
            assert_eq!(slot[..2], [5, 1]);
            assert_eq!((slot[id], slot[id + 8]), (7, 8));
            assert_eq!(slot[id + 16..][..9], [1, 2, 3, 4, 5, 6, 7, 8, 0]);
        }
    }

    #[test]
    fn padding_is_that_of_the_layout() {
        let mut bytes = [0; 16];
        bytes[15] = 1;
        assert!(!Response::from_bytes(&bytes).padding_is_zero);
        assert!(Response::from_bytes(&bytes[..12]).padding_is_zero);
        bytes[9] = 1;
        assert!(!Response::from_bytes(&bytes[..12]).padding_is_zero);
    }
}

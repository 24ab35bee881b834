//! A request as it lies in a slot (rules 2.5 to 2.9), copied once.

use crate::layout::{read_u32, read_u64, Layout, EXTENTS};

/// One segment of a request (rule 2.6).
pub struct Segment {
    pub frame: u32,
    pub first: u8,
    last: u8,
}

impl Segment {
    pub fn read(bytes: &[u8]) -> Segment {
        Segment {
            frame: read_u32(bytes, 0),
            first: bytes[4],
            last: bytes[5],
        }
    }

    /// Whether check 26 lets it pass.
    pub fn is_sound(&self) -> bool {
        self.first <= self.last && self.last <= 7
    }

    /// Whether it begins and ends on a boundary of units, as check 29 wants.
    pub fn is_aligned(&self, unit: u64) -> bool {
        let (first, behind) = (u64::from(self.first), u64::from(self.last) + 1);
        first % unit == 0 && behind % unit == 0
    }

    /// How many sectors a sound segment has.
    pub fn length(&self) -> u64 {
        u64::from(self.last - self.first) + 1
    }
}

/// The bytes of a slot, taken out of the ring once.
pub struct Request {
    pub operation: u8,
    /// n, or a discard's flag.
    pub count_or_flag: u8,
    pub id: u64,
    pub start: u64,
    /// Segments, or a discard's sector count in the first 8 bytes.
    pub body: [u8; 8 * EXTENTS],
}

impl Request {
    /// Rule 1.8: the slot that begins there is copied, and from then on the copy is read.
    pub fn take(ring: &[u8], layout: &Layout, at: usize) -> Request {
        let slot = ring[at..][..layout.slot_bytes].to_vec();
        let mut body = [0; 8 * EXTENTS];
        body.copy_from_slice(&slot[layout.body..]);
        Request {
            operation: slot[0],
            count_or_flag: slot[1],
            id: read_u64(&slot, layout.id),
            start: read_u64(&slot, layout.start),
            body,
        }
    }
}

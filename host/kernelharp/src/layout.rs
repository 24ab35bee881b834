//! Sizes and places of buffers, rings and slots (sections 1 and 2 of the rules).

use std::fmt;

/// Ports of a backend.
pub const PORTS: usize = 8;
/// A page.
pub const PAGE_BYTES: usize = 4096;
/// The most pages of a ring.
pub const RING_PAGES: usize = 2;
/// A port's share of the rings: its ring stands at the begin of it.
pub const RING_BYTES: usize = RING_PAGES * PAGE_BYTES;
/// The rings of all ports.
pub const RINGS_BYTES: usize = PORTS * RING_BYTES;
/// The ring of a guest that uses the guest's half: one page.
pub const GUEST_PAGE_BYTES: usize = PAGE_BYTES;
/// A port's grants.
pub const PORT_GRANTS: usize = 1024;
/// The grants of all ports.
pub const GRANTS_BYTES: usize = PORTS * PORT_GRANTS;

/// Where req_prod stands in a ring.
pub const REQ_PROD: usize = 0;
/// Where req_event stands.
pub const REQ_EVENT: usize = 4;
/// Where rsp_prod stands.
pub const RSP_PROD: usize = 8;
/// Where rsp_event stands.
pub const RSP_EVENT: usize = 12;

/// Slots of a ring for each of its pages.
pub const PAGE_SLOTS: usize = 32;
/// The most tags of a port: one to a slot of its ring.
pub const TAGS: usize = RING_PAGES * PAGE_SLOTS;
/// A slot of a 64-bit guest; no slot is larger.
pub const SLOT_BYTES: usize = 112;
/// A slot of a 32-bit guest.
pub const SLOT32_BYTES: usize = 108;
/// A ring's header; the slots come after it.
pub const HEADER_BYTES: usize = 64;
/// A response to a 64-bit guest; none is larger.
pub const RESPONSE_BYTES: usize = 16;
/// A response to a 32-bit guest.
pub const RESPONSE32_BYTES: usize = 12;
/// The most segments a request holds.
pub const SEGMENTS: usize = 11;
/// A segment of a request: the frame's reference, its first and its last sector, and two bytes unused.
pub const SEGMENT_BYTES: usize = 8;
/// The most extents of a plan: one to a segment.
pub const EXTENTS: usize = SEGMENTS;
/// Entries that a list of completions can have, at most, whatever the ring.
pub const ENTRIES: usize = 64;

/// The node protocol.
pub(crate) const PROTOCOL: u8 = 8;
/// The node ring-page-order.
pub(crate) const RING_PAGE_ORDER: u8 = 9;

/// How a guest lays out its requests and responses: the node protocol (rules 1.16 and 3.5).
#[derive(Clone, Copy, Debug, Default, PartialEq, Eq, Hash)]
pub enum Abi {
    /// "x86_64-abi", and what a sheet without that node means.
    #[default]
    Bits64,
    /// "x86_32-abi".
    Bits32,
}

impl Abi {
    /// Both.
    pub const ALL: [Abi; 2] = [Abi::Bits64, Abi::Bits32];

    /// The body of the node protocol.
    pub fn protocol(self) -> &'static str {
        match self {
            Abi::Bits64 => "x86_64-abi",
            Abi::Bits32 => "x86_32-abi",
        }
    }

    /// The layout that a sheet asks for. Of bytes that `open` would refuse this says nothing.
    pub fn of_sheet(sheet: &[u8]) -> Abi {
        if says(sheet, PROTOCOL, Abi::Bits32.protocol()) {
            Abi::Bits32
        } else {
            Abi::Bits64
        }
    }

    /// The bytes of a slot (rule 2.3).
    pub fn slot_bytes(self) -> usize {
        match self {
            Abi::Bits64 => SLOT_BYTES,
            Abi::Bits32 => SLOT32_BYTES,
        }
    }

    /// The bytes of a response (rule 2.10).
    pub fn response_bytes(self) -> usize {
        match self {
            Abi::Bits64 => RESPONSE_BYTES,
            Abi::Bits32 => RESPONSE32_BYTES,
        }
    }

    /// Where a request keeps its id (rule 2.5).
    pub fn id_at(self) -> usize {
        match self {
            Abi::Bits64 => 8,
            Abi::Bits32 => 4,
        }
    }

    /// Where it keeps its start sector.
    pub fn start_at(self) -> usize {
        self.id_at() + 8
    }

    /// Where it keeps its segments, and a discard its sector count (rule 2.8).
    pub fn segments_at(self) -> usize {
        self.id_at() + 16
    }

    /// Where the slot of an index begins in a ring of so many pages (rule 2.4).
    pub fn slot_at(self, pages: Pages, index: u32) -> usize {
        HEADER_BYTES + self.slot_bytes() * (index % pages.slots()) as usize
    }
}

impl fmt::Display for Abi {
    fn fmt(&self, f: &mut fmt::Formatter) -> fmt::Result {
        f.pad(match self {
            Abi::Bits64 => "64-bit",
            Abi::Bits32 => "32-bit",
        })
    }
}

/// How many pages a port's ring has: the node ring-page-order (rules 1.16 and 3.5). The second of two
/// goes on where the first ends, without a header of its own.
#[derive(Clone, Copy, Debug, Default, PartialEq, Eq, PartialOrd, Ord, Hash)]
pub enum Pages {
    /// "0", and what a sheet without that node means.
    #[default]
    One,
    /// "1".
    Two,
}

impl Pages {
    /// Both.
    pub const ALL: [Pages; RING_PAGES] = [Pages::One, Pages::Two];

    /// The body of the node ring-page-order.
    pub fn order(self) -> &'static str {
        match self {
            Pages::One => "0",
            Pages::Two => "1",
        }
    }

    /// The pages that a sheet asks for. Of bytes that `open` would refuse this says nothing.
    pub fn of_sheet(sheet: &[u8]) -> Pages {
        if says(sheet, RING_PAGE_ORDER, Pages::Two.order()) {
            Pages::Two
        } else {
            Pages::One
        }
    }

    /// How many they are.
    pub fn count(self) -> usize {
        match self {
            Pages::One => 1,
            Pages::Two => 2,
        }
    }

    /// The bytes of the ring (rule 1.3).
    pub fn bytes(self) -> usize {
        self.count() * PAGE_BYTES
    }

    /// The ring size: its slots (rule 2.3), and the port's tags (rule 4.7).
    pub fn slots(self) -> u32 {
        (self.count() * PAGE_SLOTS) as u32
    }
}

impl fmt::Display for Pages {
    fn fmt(&self, f: &mut fmt::Formatter) -> fmt::Result {
        f.pad(match self {
            Pages::One => "one page",
            Pages::Two => "two pages",
        })
    }
}

/// Whether a sheet has a node with this text. Any bytes may be given.
fn says(sheet: &[u8], node: u8, text: &str) -> bool {
    let entries = sheet.first().map_or(0, |&count| usize::from(count));
    let heads = sheet.get(1..).unwrap_or_default().chunks_exact(4);
    let mut body = 1 + 4 * entries;
    for head in heads.take(entries) {
        let end = body + usize::from(u16::from_le_bytes([head[2], head[3]]));
        if head[0] == node && sheet.get(body..end) == Some(text.as_bytes()) {
            return true;
        }
        body = end;
    }
    false
}

/// Reads a little-endian 32-bit number.
pub fn read_u32(bytes: &[u8], at: usize) -> u32 {
    let mut word = [0; 4];
    word.copy_from_slice(&bytes[at..at + 4]);
    u32::from_le_bytes(word)
}

/// Reads a little-endian 64-bit number.
pub fn read_u64(bytes: &[u8], at: usize) -> u64 {
    let mut word = [0; 8];
    word.copy_from_slice(&bytes[at..at + 8]);
    u64::from_le_bytes(word)
}

/// Writes a little-endian 32-bit number.
pub fn write_u32(bytes: &mut [u8], at: usize, value: u32) {
    bytes[at..at + 4].copy_from_slice(&value.to_le_bytes());
}

/// A port's share of the rings, whose first bytes are its ring (rule 1.3).
pub fn ring(rings: &[u8], port: usize) -> &[u8] {
    &rings[RING_BYTES * port..][..RING_BYTES]
}

/// The same, to be written.
pub fn ring_mut(rings: &mut [u8], port: usize) -> &mut [u8] {
    &mut rings[RING_BYTES * port..][..RING_BYTES]
}

#[cfg(test)]
mod tests {
    use super::*;

    /// A sheet of entries, whatever they say.
    fn sheet(entries: &[(u8, &str)]) -> Vec<u8> {
        let heads = entries
            .iter()
            .flat_map(|(node, body)| [*node, 0, body.len() as u8, 0]);
        let bodies = entries.iter().flat_map(|(_, body)| body.bytes());
        let count = [entries.len() as u8];
        count.into_iter().chain(heads).chain(bodies).collect()
    }

    #[test]
    fn the_node_protocol_says_the_layout() {
        for abi in Abi::ALL {
            let alone = sheet(&[(8, abi.protocol())]);
            assert_eq!(Abi::of_sheet(&alone), abi);
            let among = sheet(&[(1, "w"), (7, "2008"), (8, abi.protocol()), (9, "0")]);
            assert_eq!(Abi::of_sheet(&among), abi);
        }
        let absent = sheet(&[(1, "w"), (7, "2008")]);
        assert_eq!(Abi::of_sheet(&absent), Abi::Bits64);
        // The word in another node's body says nothing.
        let other = sheet(&[(1, "x86_32-abi"), (8, "x86_64-abi")]);
        assert_eq!(Abi::of_sheet(&other), Abi::Bits64);
    }

    #[test]
    fn the_node_ring_page_order_says_the_pages() {
        for pages in Pages::ALL {
            let alone = sheet(&[(9, pages.order())]);
            assert_eq!(Pages::of_sheet(&alone), pages);
            for abi in Abi::ALL {
                let among = sheet(&[(1, "w"), (8, abi.protocol()), (9, pages.order())]);
                assert_eq!(
                    (Abi::of_sheet(&among), Pages::of_sheet(&among)),
                    (abi, pages)
                );
            }
        }
        // Other nodes know the same text.
        let absent = sheet(&[(2, "1"), (5, "1"), (7, "1")]);
        assert_eq!(Pages::of_sheet(&absent), Pages::One);
        let other = sheet(&[(2, "1"), (7, "1"), (9, "0")]);
        assert_eq!(Pages::of_sheet(&other), Pages::One);
    }

    /// No open takes these bytes; they are read without harm.
    #[test]
    fn any_bytes_may_stand_for_a_sheet() {
        let read = |sheet: &[u8]| (Abi::of_sheet(sheet), Pages::of_sheet(sheet));
        let whole = sheet(&[(1, "w"), (8, "x86_32-abi"), (9, "1")]);
        for end in 0..whole.len() {
            read(&whole[..end]);
            for byte in [0, 1, 8, 9, 127, 255] {
                let mut changed = whole.clone();
                changed[end] = byte;
                read(&changed);
                read(&changed[..=end]);
            }
        }
        read(&[255; 2000]);
    }

    /// The places that rules 2.3 to 2.11 name, in both layouts.
    #[test]
    fn places_of_both_layouts() {
        let places = Abi::ALL.map(|abi| [abi.id_at(), abi.start_at(), abi.segments_at()]);
        assert_eq!(places, [[8, 16, 24], [4, 12, 20]]);
        for abi in Abi::ALL {
            assert_eq!(abi.segments_at() + 8 * EXTENTS, abi.slot_bytes());
            assert_eq!(abi.response_bytes() + 96, abi.slot_bytes());
            for pages in Pages::ALL {
                let last = abi.slot_at(pages, pages.slots() - 1);
                assert!(last + abi.slot_bytes() <= pages.bytes());
            }
        }
    }

    #[test]
    fn places_in_both_sizes() {
        assert_eq!(Pages::ALL.map(Pages::slots), [32, 64]);
        assert_eq!(Pages::ALL.map(Pages::bytes), [4096, 8192]);
        let indices = [0, 1, 31, 32, 37, 63, 64, u32::MAX];
        let slots = |abi: Abi, pages| indices.map(|index| abi.slot_at(pages, index));
        let one = [64, 176, 3536, 64, 624, 3536, 64, 3536];
        assert_eq!(slots(Abi::Bits64, Pages::One), one);
        let one = [64, 172, 3412, 64, 604, 3412, 64, 3412];
        assert_eq!(slots(Abi::Bits32, Pages::One), one);
        let two = [64, 176, 3536, 3648, 4208, 7120, 64, 7120];
        assert_eq!(slots(Abi::Bits64, Pages::Two), two);
        let two = [64, 172, 3412, 3520, 4060, 6868, 64, 6868];
        assert_eq!(slots(Abi::Bits32, Pages::Two), two);
    }

    /// A 64-bit guest has no slot in both pages, a 32-bit one has one.
    #[test]
    fn the_slot_that_goes_on_in_the_second_page() {
        let across = |abi: Abi| {
            let mut slots = 0..Pages::Two.slots();
            slots.find(|&slot| {
                let at = abi.slot_at(Pages::Two, slot);
                at < PAGE_BYTES && at + abi.slot_bytes() > PAGE_BYTES
            })
        };
        assert_eq!(Abi::ALL.map(across), [None, Some(37)]);
    }
}

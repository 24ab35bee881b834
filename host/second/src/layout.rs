//! Sizes and places (sections 1 and 2), a record's by its layout, and numbers in bytes (rule 2.1).

use crate::terms::Refusal;

/// Rule 1.1.
pub const PORTS: usize = 8;
/// A page: a guest's half has one for its ring (rule 16.1).
pub const PAGE_BYTES: usize = 4096;
/// Rule 1.3: a port's share of the rings, and all of them.
pub const SHARE_BYTES: usize = 8192;
pub const RINGS_BYTES: usize = 65_536;
/// Rule 1.4: a port's share of the grants, and all of them.
pub const PORT_GRANTS: usize = 1024;
pub const GRANTS_BYTES: usize = 8192;

/// Rule 2.2: the header's fields.
pub const REQ_PROD: usize = 0;
pub const REQ_EVENT: usize = 4;
pub const RSP_PROD: usize = 8;
pub const RSP_EVENT: usize = 12;

/// Rule 2.3: the slots of a ring of one page, and of one of two.
pub const ONE_PAGE_SLOTS: u32 = 32;
pub const TWO_PAGE_SLOTS: u32 = 64;
/// Rule 2.16.
pub const EXTENTS: usize = 11;
/// Rule 6.16: the entries that a list of completions can have.
pub const ENTRIES: usize = 64;

/// What the two layouts of a port's records differ in: nothing but these numbers.
#[derive(Clone, Copy, Debug, PartialEq, Eq)]
pub struct Layout {
    /// Rule 2.3.
    pub(crate) slot_bytes: usize,
    /// Rule 2.5: where a request has its id, its start, and its segments or a discard's count.
    pub(crate) id: usize,
    pub(crate) start: usize,
    pub(crate) body: usize,
    /// Rule 2.10.
    pub(crate) response_bytes: usize,
}

impl Layout {
    /// "x86_64-abi"
    pub const BITS_64: Layout = Layout {
        slot_bytes: 112,
        id: 8,
        start: 16,
        body: 24,
        response_bytes: 16,
    };

    /// "x86_32-abi"
    pub const BITS_32: Layout = Layout {
        slot_bytes: 108,
        id: 4,
        start: 12,
        body: 20,
        response_bytes: 12,
    };

    /// Rule 2.4, in a ring of so many slots.
    pub(crate) fn slot_at(&self, slots: u32, index: u32) -> usize {
        64 + self.slot_bytes * (index % slots) as usize
    }
}

/// Rule 1.3. The ring of the port is the begin of it; the rest is for nobody.
pub fn share(rings: &[u8], port: usize) -> &[u8] {
    &rings[SHARE_BYTES * port..SHARE_BYTES * (port + 1)]
}

/// Rule 1.3.
pub fn share_mut(rings: &mut [u8], port: usize) -> &mut [u8] {
    &mut rings[SHARE_BYTES * port..SHARE_BYTES * (port + 1)]
}

/// Refusal 1, of rings and grants.
pub fn check_length(buffer: &[u8], due: usize) -> Result<(), Refusal> {
    if buffer.len() == due {
        Ok(())
    } else {
        Err(Refusal::WrongLength)
    }
}

pub fn read_u32(bytes: &[u8], at: usize) -> u32 {
    let (word, _) = bytes[at..].split_first_chunk().expect("four bytes");
    u32::from_le_bytes(*word)
}

pub fn read_u64(bytes: &[u8], at: usize) -> u64 {
    let (word, _) = bytes[at..].split_first_chunk().expect("eight bytes");
    u64::from_le_bytes(*word)
}

pub fn write_u32(bytes: &mut [u8], at: usize, value: u32) {
    bytes[at..at + 4].copy_from_slice(&value.to_le_bytes());
}

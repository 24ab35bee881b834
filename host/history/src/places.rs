//! Where the checker looks: places in rings, slots and answers, and numbers in bytes.

pub const PORTS: usize = 8;
pub const PAGE_BYTES: usize = 4096;
/// A port's share of the rings: room for two pages.
pub const SHARE_BYTES: usize = 2 * PAGE_BYTES;
pub const RINGS_BYTES: usize = PORTS * SHARE_BYTES;
pub const GRANTS_BYTES: usize = PORTS * 1024;
pub const REQ_PROD: usize = 0;
pub const REQ_EVENT: usize = 4;
/// Slots of a ring for each of its pages.
pub const PAGE_SLOTS: u32 = 32;
/// Words of the answers.
pub const TURN_WORDS: usize = 64;
pub const DONE_WORDS: usize = 4;
pub const MANY_WORDS: usize = 68;
/// Entries of a list of completions, at most, and the words of one.
pub const ENTRIES: usize = 64;
pub const ENTRY_WORDS: usize = 3;

/// Words of a turn's answer.
pub mod turn {
    pub const KIND: usize = 0;
    pub const PORT: usize = 1;
    pub const TAG: usize = 2;
    pub const SERIAL: usize = 3;
    /// Then start, count, secure mark and number of extents.
    pub const OPERATION: usize = 4;
    pub const STATUS: usize = 10;
    pub const EXTENTS: usize = 16;
}

/// What a turn did, as its answer has it.
pub mod kind {
    pub const IDLE: u64 = 0;
    pub const STARTED: u64 = 1;
    pub const ANSWERED: u64 = 2;
    pub const OVERRUN: u64 = 3;
}

/// The (id, operation) pair of a request or of an answer.
pub type Pair = (u64, u8);

/// The words of a completion's answer that name the port, and the status without its sign.
pub const DONE_PORT: usize = 0;
pub const DONE_STATUS: usize = 1;

/// Words of the answer of a list of completions: the statuses are without their signs, one to an entry.
pub mod many {
    pub const PORT: usize = 0;
    pub const COUNT: usize = 1;
    pub const STATUSES: usize = 4;
}

/// A port's share of the rings.
pub fn share(rings: &[u8], port: usize) -> &[u8] {
    let mut shares = rings.chunks_exact(SHARE_BYTES);
    shares.nth(port).expect("a share a port")
}

/// How the records of a port are laid out: by the node protocol of its last opening.
#[derive(Clone, Copy, Debug, Default, PartialEq, Eq)]
pub enum Layout {
    #[default]
    Bits64,
    Bits32,
}

/// Where the records of a port lie: by its layout, and by the slots that its ring has, as the node
/// ring-page-order of its last opening says.
#[derive(Clone, Copy, Debug, PartialEq, Eq)]
pub struct Ring {
    pub layout: Layout,
    pub slots: u32,
}

impl Default for Ring {
    fn default() -> Ring {
        Ring {
            layout: Layout::default(),
            slots: PAGE_SLOTS,
        }
    }
}

impl Ring {
    /// The bytes of its pages. Those behind them in the port's share are for nobody.
    pub fn bytes(self) -> usize {
        (self.slots / PAGE_SLOTS) as usize * PAGE_BYTES
    }

    fn slot_bytes(self) -> usize {
        match self.layout {
            Layout::Bits64 => 112,
            Layout::Bits32 => 108,
        }
    }

    /// Where the slot of an index begins.
    fn slot_at(self, index: u32) -> usize {
        64 + self.slot_bytes() * (index % self.slots) as usize
    }

    /// The bytes of an index's slot.
    pub fn slot(self, share: &[u8], index: u32) -> &[u8] {
        &share[self.slot_at(index)..][..self.slot_bytes()]
    }

    /// The pair of a request, whose id is at a place of the layout's own.
    pub fn request_pair(self, share: &[u8], index: u32) -> Pair {
        let at = self.slot_at(index);
        let id = match self.layout {
            Layout::Bits64 => at + 8,
            Layout::Bits32 => at + 4,
        };
        (u64_at(share, id), share[at])
    }

    /// The pair of a response, in the same bytes of the slot for both layouts.
    pub fn response_pair(self, share: &[u8], index: u32) -> Pair {
        let at = self.slot_at(index);
        (u64_at(share, at), share[at + 8])
    }

    /// The 16 bits of a response's status (rule 2.10).
    pub fn response_status(self, share: &[u8], index: u32) -> u16 {
        let at = self.slot_at(index) + 10;
        number(&share[at..at + 2]) as u16
    }
}

/// A little-endian number.
pub fn u32_at(bytes: &[u8], at: usize) -> u32 {
    number(&bytes[at..at + 4]) as u32
}

/// A little-endian number.
pub fn u64_at(bytes: &[u8], at: usize) -> u64 {
    number(&bytes[at..at + 8])
}

fn number(bytes: &[u8]) -> u64 {
    let from_the_top = bytes.iter().rev();
    from_the_top.fold(0, |sum, &byte| sum << 8 | u64::from(byte))
}

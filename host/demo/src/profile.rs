//! The eight guests: what each is and what disk it has.

use kernelharp::layout::PORTS;
use kernelharp::{Abi, Pages, Sheet};
use std::ops::Range;

/// What a guest does with its disk.
#[derive(Clone, Copy, Debug, PartialEq, Eq)]
pub enum Role {
    /// Keeps saved scores in the first part of the disk and a daily board in the rest, which it
    /// writes anew at its own hour of the day.
    Board {
        /// The hour at which its day rolls, 0 to 23.
        roll_hour: u64,
    },
    /// Writes and reads back anywhere.
    Plain,
    /// Breaks every rule of the ring that a guest can break.
    Hostile,
}

/// A guest with its disk.
#[derive(Debug)]
pub struct Profile {
    /// What the report calls it.
    pub name: &'static str,
    pub role: Role,
    pub sheet: Sheet,
    /// Whether the host can discard on what lies under the disk, whatever the sheet says.
    pub discards: bool,
    /// Sectors that the host cannot read or write.
    pub bad: Range<u64>,
}

impl Profile {
    fn new(name: &'static str, role: Role, sheet: Sheet) -> Profile {
        Profile {
            name,
            role,
            sheet,
            discards: true,
            bad: 0..0,
        }
    }

    /// The disk's unit of alignment, in sectors of 512 bytes.
    pub fn unit(&self) -> u64 {
        u64::from(self.sheet.sector_size) / 512
    }

    /// Where a board begins, behind the saved scores; the guest's free writes stay above.
    pub fn floor(&self) -> u64 {
        match self.role {
            Role::Board { .. } => self.sheet.sectors / 4,
            Role::Plain | Role::Hostile => 0,
        }
    }

    /// The layout of its ring, as the report has it: the hostile guest changes it.
    pub fn layout(&self) -> String {
        match self.role {
            Role::Hostile => "both".to_string(),
            Role::Board { .. } | Role::Plain => self.sheet.abi.to_string(),
        }
    }

    /// How many pages its ring has, likewise.
    pub fn pages(&self) -> String {
        match self.role {
            Role::Hostile => "both".to_string(),
            Role::Board { .. } | Role::Plain => self.sheet.pages.count().to_string(),
        }
    }

    /// The slots of its ring.
    pub fn slots(&self) -> usize {
        self.sheet.pages.slots() as usize
    }

    /// Whether the library's guest's half knows its ring: 64-bit records, one page.
    pub fn has_library_front(&self) -> bool {
        (self.sheet.abi, self.sheet.pages) == (Abi::Bits64, Pages::One)
    }
}

/// A disk with every feature.
fn full(sector_size: u32, sectors: u64) -> Sheet {
    Sheet {
        writable: true,
        barrier: true,
        flush: true,
        discard: true,
        secure_discard: true,
        sector_size,
        sectors,
        abi: Abi::Bits64,
        pages: Pages::One,
    }
}

/// The same for a 32-bit guest.
fn bits32(sheet: Sheet) -> Sheet {
    Sheet {
        abi: Abi::Bits32,
        ..sheet
    }
}

/// The same for a guest with a ring of two pages.
fn two_pages(sheet: Sheet) -> Sheet {
    Sheet {
        pages: Pages::Two,
        ..sheet
    }
}

/// The guests by port.
pub fn profiles() -> [Profile; PORTS] {
    let board = |roll_hour| Role::Board { roll_hour };
    let without_discard = |sheet| Sheet {
        discard: false,
        secure_discard: false,
        ..sheet
    };
    let bare = Sheet {
        writable: true,
        sector_size: 512,
        sectors: 2008,
        ..Sheet::default()
    };
    let read_only = Sheet {
        writable: false,
        ..full(512, 1500)
    };
    let no_secure = Sheet {
        secure_discard: false,
        ..full(2048, 3000)
    };
    let no_flush = Sheet {
        flush: false,
        ..full(4096, 2048)
    };
    // Read at once, a board fills its ring.
    let (first, second) = (full(512, 2816), two_pages(bits32(full(4096, 5632))));
    let no_discard = two_pages(without_discard(full(1024, 2500)));
    let mut all = [
        Profile::new("board, first zone", board(0), first),
        Profile::new("board, second zone", board(9), second),
        Profile::new("no discard", Role::Plain, no_discard),
        Profile::new("no secure discard", Role::Plain, bits32(no_secure)),
        Profile::new("medium can't discard", Role::Plain, full(4096, 4096)),
        Profile::new("read-only", Role::Plain, read_only),
        Profile::new("bad sectors", Role::Plain, bare),
        Profile::new("hostile", Role::Hostile, no_flush),
    ];
    all[4].discards = false;
    all[6].bad = 1000..1010;
    all
}

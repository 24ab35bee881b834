//! The kinds of rings: two layouts, two sizes.

use kernelharp::layout::{Abi, Pages};
use std::fmt;

/// What a sheet says of its guest's ring.
#[derive(Clone, Copy, Debug, Default, PartialEq, Eq, Hash)]
pub struct Ring {
    /// The node protocol.
    pub abi: Abi,
    /// The node ring-page-order.
    pub pages: Pages,
}

impl Ring {
    /// All four.
    pub const ALL: [Ring; 4] = [
        Ring::new(Abi::Bits64, Pages::One),
        Ring::new(Abi::Bits32, Pages::One),
        Ring::new(Abi::Bits64, Pages::Two),
        Ring::new(Abi::Bits32, Pages::Two),
    ];

    /// A ring of this layout and size.
    pub const fn new(abi: Abi, pages: Pages) -> Ring {
        Ring { abi, pages }
    }

    /// The ring that a sheet asks for.
    pub fn of_sheet(sheet: &[u8]) -> Ring {
        Ring::new(Abi::of_sheet(sheet), Pages::of_sheet(sheet))
    }

    /// How many slots it has.
    pub fn slots(self) -> u32 {
        self.pages.slots()
    }

    /// Where the slot of an index begins.
    pub fn slot_at(self, index: u32) -> usize {
        self.abi.slot_at(self.pages, index)
    }

    /// Its place among all of them.
    pub(crate) fn number(self) -> usize {
        self.abi as usize + Abi::ALL.len() * self.pages as usize
    }
}

/// A ring of one page.
impl From<Abi> for Ring {
    fn from(abi: Abi) -> Ring {
        Ring::new(abi, Pages::One)
    }
}

impl fmt::Display for Ring {
    fn fmt(&self, f: &mut fmt::Formatter) -> fmt::Result {
        write!(f, "{}, {}", self.abi, self.pages)
    }
}

#[cfg(test)]
mod tests {
    use super::*;

    #[test]
    fn each_has_its_own_number() {
        assert_eq!(Ring::ALL.map(Ring::number), [0, 1, 2, 3]);
    }
}

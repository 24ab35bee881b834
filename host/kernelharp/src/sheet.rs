//! Node sheets written from a disk's properties.

use crate::layout::{Abi, Pages, PROTOCOL, RING_PAGE_ORDER};

/// What a port is opened with: the properties of its guest's disk.
///
/// ```
/// use kernelharp::Sheet;
///
/// let sheet = Sheet { writable: true, sector_size: 512, sectors: 2008, ..Sheet::default() };
/// assert_eq!(sheet.bytes(), b"\x03\x01\0\x01\0\x06\0\x03\0\x07\0\x04\0w5122008");
/// ```
#[derive(Clone, Copy, Debug, Default, PartialEq, Eq)]
pub struct Sheet {
    /// Node mode: "w", else "r".
    pub writable: bool,
    /// Node feature-barrier.
    pub barrier: bool,
    /// Node feature-flush-cache.
    pub flush: bool,
    /// Node feature-discard.
    pub discard: bool,
    /// Node discard-secure. Without it, secure discards are taken for plain ones.
    pub secure_discard: bool,
    /// Node sector-size: 512, 1024, 2048 or 4096.
    pub sector_size: u32,
    /// Node sectors, of 512 bytes whatever the sector size.
    pub sectors: u64,
    /// Node protocol: how the guest lays out its requests, as its front end says.
    pub abi: Abi,
    /// Node ring-page-order: how many pages the guest's ring has, as its front end says.
    pub pages: Pages,
}

impl Sheet {
    /// The bytes for `open`. A feature that is off has no node, nor has the 64-bit layout or a ring of
    /// one page.
    pub fn bytes(&self) -> Vec<u8> {
        let mode = if self.writable { "w" } else { "r" };
        let mut entries = vec![(1, mode.to_string())];
        let features = [self.barrier, self.flush, self.discard, self.secure_discard];
        for (node, on) in (2..).zip(features) {
            if on {
                entries.push((node, "1".to_string()));
            }
        }
        entries.push((6, self.sector_size.to_string()));
        entries.push((7, self.sectors.to_string()));
        if self.abi != Abi::default() {
            entries.push((PROTOCOL, self.abi.protocol().to_string()));
        }
        if self.pages != Pages::default() {
            entries.push((RING_PAGE_ORDER, self.pages.order().to_string()));
        }
        contents(&entries)
            .chain(entries.iter().flat_map(|(_, body)| body.bytes()))
            .collect()
    }
}

/// The table of contents: the number of entries, then node, zero and body length of each.
fn contents(entries: &[(u8, String)]) -> impl Iterator<Item = u8> + '_ {
    let heads = entries.iter().flat_map(|(node, body)| {
        // A body here is a number, a letter or a layout's name.
        [*node, 0, body.len() as u8, 0]
    });
    std::iter::once(entries.len() as u8).chain(heads)
}

#[cfg(test)]
mod tests {
    use super::*;

    #[test]
    fn a_sheet_says_its_layout_and_its_pages() {
        let due: [(Abi, Pages, &[u8]); 4] = [
            (
                Abi::Bits64,
                Pages::One,
                b"\x03\x01\0\x01\0\x06\0\x03\0\x07\0\x04\0r5122008",
            ),
            (
                Abi::Bits32,
                Pages::One,
                b"\x04\x01\0\x01\0\x06\0\x03\0\x07\0\x04\0\x08\0\x0A\0r5122008x86_32-abi",
            ),
            (
                Abi::Bits64,
                Pages::Two,
                b"\x04\x01\0\x01\0\x06\0\x03\0\x07\0\x04\0\x09\0\x01\0r51220081",
            ),
            (
                Abi::Bits32,
                Pages::Two,
                b"\x05\x01\0\x01\0\x06\0\x03\0\x07\0\x04\0\x08\0\x0A\0\x09\0\x01\0r5122008x86_32-abi1",
            ),
        ];
        for (abi, pages, due) in due {
            let sheet = Sheet {
                sector_size: 512,
                sectors: 2008,
                abi,
                pages,
                ..Sheet::default()
            };
            assert_eq!(sheet.bytes(), due);
            assert_eq!((Abi::of_sheet(due), Pages::of_sheet(due)), (abi, pages));
        }
    }
}

//! Node sheets of the tests.

use crate::Both;
use generate::Ring;
use kernelharp::layout::Pages;
use std::collections::BTreeMap;

/// A sheet of entries, with the table of contents that belongs to them.
pub fn sheet<T: AsRef<[u8]>>(entries: &[(u8, T)]) -> Vec<u8> {
    let mut sheet = vec![entries.len() as u8];
    for (node, body) in entries {
        sheet.extend([*node, 0]);
        sheet.extend((body.as_ref().len() as u16).to_le_bytes());
    }
    for (_, body) in entries {
        sheet.extend(body.as_ref());
    }
    sheet
}

/// The usual nodes 1, 6 and 7, with one node set to another text.
pub fn with_node(node: u8, text: impl AsRef<[u8]>) -> Vec<u8> {
    let mut entries = BTreeMap::from([(1, &b"w"[..]), (6, b"512"), (7, b"2008")]);
    entries.insert(node, text.as_ref());
    sheet(&entries.into_iter().collect::<Vec<_>>())
}

/// The number a sheet is refused with, 0 when it opens the port.
pub fn sheet_number(sheet: &[u8]) -> u32 {
    let mut backend = Both::new();
    match backend.open(0, sheet) {
        Ok(()) => 0,
        Err(refusal) => {
            assert_eq!(backend, Both::new());
            refusal as u32
        }
    }
}

/// A sheet with every feature on.
pub fn full_sheet(mode: &str, sector_size: &str, sectors: &str) -> Vec<u8> {
    sheet(&[
        (1, mode),
        (2, "1"),
        (3, "1"),
        (4, "1"),
        (5, "1"),
        (6, sector_size),
        (7, sectors),
    ])
}

/// A sheet that has nothing behind node 7, with the nodes of the guest's ring added to it: both of them, or
/// only the first where that has one page.
pub fn with_ring(sheet: &[u8], ring: impl Into<Ring>) -> Vec<u8> {
    let Ring { abi, pages } = ring.into();
    let sheet = with_last(sheet, 8, abi.protocol());
    if pages == Pages::One {
        sheet
    } else {
        with_last(&sheet, 9, pages.order())
    }
}

/// A sheet with one more node behind all others.
fn with_last(sheet: &[u8], node: u8, text: &str) -> Vec<u8> {
    let (table, bodies) = sheet.split_at(1 + 4 * usize::from(sheet[0]));
    let line = [node, 0, text.len() as u8, 0];
    let mut longer = [table, &line, bodies, text.as_bytes()].concat();
    longer[0] += 1;
    longer
}

/// The disk of the worked cases, with every feature, of a guest with this ring.
pub fn usual_sheet_of(ring: impl Into<Ring>) -> Vec<u8> {
    with_ring(&usual_sheet(), ring)
}

/// The disk of the worked cases, with every feature.
pub fn usual_sheet() -> Vec<u8> {
    full_sheet("w", "512", "2008")
}

//! Whether a node sheet opens a port, and what it is refused with if not (rules 7.11 to 7.15). Of what
//! it says, demand 3 asks for the ring alone, its layout and its slots: where a pair is read depends on
//! it, and so do tags and overruns. What is claimed of both halves asks for discard-secure too: the secure
//! mark depends on it.

use crate::places::{Layout, Ring, PAGE_SLOTS};
use crate::refusal::{NONE, SHEET_MISSING, SHEET_NODES, SHEET_NUMBER, SHEET_SHAPE, SHEET_TEXT};
use std::ops::Range;

/// The greatest number of sectors, as it is written.
const MOST_SECTORS: &[u8] = b"18446744073709551615";

/// The texts of node 8.
const BITS_64: &[u8] = b"x86_64-abi";
const BITS_32: &[u8] = b"x86_32-abi";

/// Those of node 9.
const ONE_PAGE: &[u8] = b"0";
const TWO_PAGES: &[u8] = b"1";

/// The refusal that a sheet is due, in the order of rule 3.10.
pub fn refusal_due(sheet: &[u8]) -> u32 {
    let Some(bodies) = bodies(sheet) else {
        return SHEET_SHAPE;
    };
    let nodes: Vec<u8> = bodies.iter().map(|(node, _)| *node).collect();
    let known = (1..=9).filter(|node| nodes.contains(node));
    // Those in the table's order are all of them, each once.
    if !known.eq(nodes.iter().copied()) {
        return SHEET_NODES;
    }
    let mut faults = bodies
        .into_iter()
        .map(|(node, body)| body_fault(node, &sheet[body]));
    if let Some(first) = faults.find(|fault| *fault != NONE) {
        return first;
    }
    let complete = [1, 6, 7].iter().all(|node| nodes.contains(node));
    if complete {
        NONE
    } else {
        SHEET_MISSING
    }
}

/// The ring of a sheet that opens a port (rule 3.5).
pub fn ring(sheet: &[u8]) -> Ring {
    let layout = if says(sheet, 8, BITS_32) {
        Layout::Bits32
    } else {
        Layout::Bits64
    };
    let pages = if says(sheet, 9, TWO_PAGES) { 2 } else { 1 };
    Ring {
        layout,
        slots: pages * PAGE_SLOTS,
    }
}

/// Whether discard-secure is 1 in a sheet that opens a port (rule 3.5).
pub fn discard_secure(sheet: &[u8]) -> bool {
    says(sheet, 5, b"1")
}

/// Whether a node is there with this text.
fn says(sheet: &[u8], node: u8, text: &[u8]) -> bool {
    let mut bodies = bodies(sheet).unwrap_or_default().into_iter();
    bodies.any(|(there, body)| there == node && sheet[body] == *text)
}

/// Each entry's node, and where its body lies; nothing for a sheet of another shape.
fn bodies(sheet: &[u8]) -> Option<Vec<(u8, Range<usize>)>> {
    let entries = usize::from(*sheet.first()?);
    let mut end = 1 + 4 * entries;
    if entries > 9 || sheet.len() < end {
        return None;
    }
    let mut bodies = Vec::new();
    for entry in 0..entries {
        let line = &sheet[1 + 4 * entry..][..4];
        let begin = end;
        end += usize::from(line[2]) + 256 * usize::from(line[3]);
        if line[1] != 0 {
            return None;
        }
        bodies.push((line[0], begin..end));
    }
    (end == sheet.len()).then_some(bodies)
}

/// Rules 7.13 and 7.14, of one body.
fn body_fault(node: u8, body: &[u8]) -> u32 {
    let texts: &[&[u8]] = match node {
        1 => &[b"r", b"w"],
        2..=5 => &[b"0", b"1"],
        6 => &[b"512", b"1024", b"2048", b"4096"],
        8 => &[BITS_64, BITS_32],
        9 => &[ONE_PAGE, TWO_PAGES],
        _ => &[],
    };
    let is_numeric = matches!(node, 6 | 7 | 9);
    if texts.contains(&body) || node == 7 && is_number(body) && fits(body) {
        NONE
    } else if is_numeric && is_number(body) {
        SHEET_NUMBER
    } else {
        SHEET_TEXT
    }
}

/// Rule 3.7.
fn is_number(body: &[u8]) -> bool {
    match body {
        [] => false,
        [b'0'] => true,
        [b'0', ..] => false,
        digits => digits.iter().all(u8::is_ascii_digit),
    }
}

/// Of two numbers without leading zeros, the longer is the greater; of two equally long ones, the one
/// that comes later in the alphabet.
fn fits(number: &[u8]) -> bool {
    (number.len(), number) <= (MOST_SECTORS.len(), MOST_SECTORS)
}

#[cfg(test)]
mod tests {
    use super::*;

    /// The sheet of rule 3.12.
    const SHEET_OF_21: &[u8] = b"\x03\x01\0\x01\0\x06\0\x03\0\x07\0\x04\0w5122008";

    #[test]
    fn the_sheet_of_21_bytes() {
        assert_eq!(refusal_due(SHEET_OF_21), NONE);
        for length in 0..21 {
            assert_eq!(refusal_due(&SHEET_OF_21[..length]), SHEET_SHAPE);
        }
        let longer = [SHEET_OF_21, b"\0"].concat();
        assert_eq!(refusal_due(&longer), SHEET_SHAPE);
    }

    #[test]
    fn one_byte_changed() {
        for (at, byte, due) in [
            (0, 10, SHEET_SHAPE),
            (2, 1, SHEET_SHAPE),
            (4, 1, SHEET_SHAPE),
            (1, 0, SHEET_NODES),
            (5, 1, SHEET_NODES),
            (9, 10, SHEET_NODES),
            (9, 6, SHEET_NODES),
            (13, b'R', SHEET_TEXT),
            (14, b'0', SHEET_TEXT),
            (14, b'6', SHEET_NUMBER),
            (17, b'-', SHEET_TEXT),
            (9, 8, SHEET_TEXT),
            // "2008" as a ring's page order.
            (9, 9, SHEET_NUMBER),
        ] {
            let mut sheet = SHEET_OF_21.to_vec();
            sheet[at] = byte;
            assert_eq!(refusal_due(&sheet), due, "byte {at} is {byte}");
        }
        assert_eq!(refusal_due(&[0]), SHEET_MISSING);
        assert_eq!(refusal_due(b"\x01\x09\0\x01\x000"), SHEET_MISSING);
    }

    /// The usual nodes with node 8 or 9 behind them.
    fn with_node(node: u8, text: &str) -> Vec<u8> {
        let head = b"\x04\x01\0\x01\0\x06\0\x03\0\x07\0\x01\0";
        let length = (text.len() as u16).to_le_bytes();
        [&head[..], &[node, 0], &length, b"w5129", text.as_bytes()].concat()
    }

    #[test]
    fn layouts() {
        for (text, due) in [
            ("x86_64-abi", Layout::Bits64),
            ("x86_32-abi", Layout::Bits32),
        ] {
            let sheet = with_node(8, text);
            assert_eq!((refusal_due(&sheet), ring(&sheet).layout), (NONE, due));
        }
        assert_eq!(ring(SHEET_OF_21), Ring::default());
        for text in ["", "x86_32-ab", "x86_32-abi ", "X86_32-abi", "x86_31-abi"] {
            assert_eq!(refusal_due(&with_node(8, text)), SHEET_TEXT, "{text:?}");
        }
    }

    #[test]
    fn ring_page_orders() {
        for (text, slots, bytes) in [("0", 32, 4096), ("1", 64, 8192)] {
            let sheet = with_node(9, text);
            assert_eq!(refusal_due(&sheet), NONE);
            assert_eq!((ring(&sheet).slots, ring(&sheet).bytes()), (slots, bytes));
        }
        for text in ["2", "3", "10", "11", "4294967297", "18446744073709551617"] {
            assert_eq!(refusal_due(&with_node(9, text)), SHEET_NUMBER, "{text:?}");
        }
        for text in ["", "00", "01", "1 ", " 1", "+1", "-0", "1\0", "x"] {
            assert_eq!(refusal_due(&with_node(9, text)), SHEET_TEXT, "{text:?}");
        }
        // Another node's "1" says nothing of it.
        let both = b"\x05\x01\0\x01\0\x02\0\x01\0\x06\0\x03\0\x07\0\x01\0\x09\0\x01\0w151210";
        assert_eq!((refusal_due(both), ring(both).slots), (NONE, 32));
    }

    #[test]
    fn discard_secure_is_1_or_else_0() {
        let with_node_5 = |text: &str| {
            let head = b"\x04\x01\0\x01\0\x05\0\x01\0\x06\0\x03\0\x07\0\x01\0w";
            [&head[..], text.as_bytes(), b"5129"].concat()
        };
        for (text, due) in [("0", false), ("1", true)] {
            let sheet = with_node_5(text);
            assert_eq!((refusal_due(&sheet), discard_secure(&sheet)), (NONE, due));
        }
        assert!(!discard_secure(SHEET_OF_21));
    }

    #[test]
    fn numbers_of_sectors() {
        for (number, due) in [
            ("0", NONE),
            ("9", NONE),
            ("18446744073709551615", NONE),
            ("18446744073709551616", SHEET_NUMBER),
            ("99999999999999999999", SHEET_NUMBER),
            ("100000000000000000000", SHEET_NUMBER),
            ("00", SHEET_TEXT),
            ("", SHEET_TEXT),
            ("018446744073709551616", SHEET_TEXT),
            ("1x", SHEET_TEXT),
        ] {
            assert_eq!(body_fault(7, number.as_bytes()), due, "{number}");
        }
    }
}

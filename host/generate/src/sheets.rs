//! Node sheets: sound ones, and ones damaged in every way that section 7 names.

use crate::Random;
use kernelharp::layout::{Abi, Pages};

/// Texts that are none of node 8, though near to one.
pub const NEAR_PROTOCOLS: [&str; 12] = [
    "",
    "x86_64-ab",
    "x86_64-abi ",
    "X86_64-abi",
    "x86_32-ab",
    "x86_32-abi ",
    "X86_32-abi",
    "x86_16-abi",
    "x86_31-abi",
    "x86_34-abi",
    "x86_62-abi",
    "x86_32-abi\0",
];

/// Texts of node 9 that are no number.
pub const NO_ORDERS: [&str; 12] = [
    "", "00", "01", "+0", "+1", "-0", "-1", "0 ", "1 ", " 1", "1\0", "a",
];

/// Numbers that node 9 does not allow: the next ones, longer ones, and ones that are 0 or 1 if a reader
/// counts modulo a power of two.
pub const OTHER_ORDERS: [&str; 9] = [
    "2",
    "3",
    "4",
    "10",
    "11",
    "4294967296",
    "4294967297",
    "18446744073709551616",
    "18446744073709551617",
];

/// One entry before it is put into bytes.
struct Entry {
    node: u8,
    reserved: u8,
    body: Vec<u8>,
}

impl Entry {
    fn new(node: u8, body: &[u8]) -> Entry {
        Entry {
            node,
            reserved: 0,
            body: body.to_vec(),
        }
    }
}

/// A sheet; about a third of them sound.
pub fn any_sheet(random: &mut Random) -> Vec<u8> {
    if random.chance(30) {
        return sound_sheet(random);
    }
    if random.chance(5) {
        return noise(random);
    }
    let mut entries = sound_entries(random);
    // Two damages at once show the order in which refusals are looked for.
    for _ in 0..1 + random.index(2) {
        damage_entries(random, &mut entries);
    }
    let mut sheet = encode(&entries);
    if random.chance(25) {
        damage_bytes(random, &mut sheet);
    }
    sheet
}

/// A sheet that opens a port.
pub fn sound_sheet(random: &mut Random) -> Vec<u8> {
    encode(&sound_entries(random))
}

fn noise(random: &mut Random) -> Vec<u8> {
    let mut bytes = vec![0; random.index(40)];
    random.fill(&mut bytes);
    bytes
}

fn sound_entries(random: &mut Random) -> Vec<Entry> {
    let mut entries = Vec::new();
    let mode: &[u8] = if random.chance(75) { b"w" } else { b"r" };
    entries.push(Entry::new(1, mode));
    for node in 2..=5 {
        if random.chance(60) {
            entries.push(Entry::new(node, b"1"));
        } else if random.chance(50) {
            entries.push(Entry::new(node, b"0"));
        }
    }
    let size = random.pick(&["512", "512", "1024", "2048", "4096"]);
    entries.push(Entry::new(6, size.as_bytes()));
    entries.push(Entry::new(7, sectors(random).to_string().as_bytes()));
    // As many ports of the one layout as of the other, one half of the 64-bit ones without the node.
    if random.chance(75) {
        let abi = random.pick(&[Abi::Bits64, Abi::Bits32, Abi::Bits32]);
        entries.push(Entry::new(8, abi.protocol().as_bytes()));
    }
    // As many rings of one page as of two, one half of the former without the node.
    if random.chance(75) {
        let pages = random.pick(&[Pages::One, Pages::Two, Pages::Two]);
        entries.push(Entry::new(9, pages.order().as_bytes()));
    }
    entries
}

fn sectors(random: &mut Random) -> u64 {
    match random.index(20) {
        0 => random.pick(&[0, 1, 7, 8]),
        1 => u64::MAX,
        2 => u64::MAX - random.below(100),
        // Of any number of digits.
        3 => random.word() >> random.index(64),
        4..=6 => 88 + random.below(8),
        7..=10 => 2008,
        _ => 100 + random.below(1 << 24),
    }
}

fn damage_entries(random: &mut Random, entries: &mut Vec<Entry>) {
    match random.index(9) {
        0 => damage_node(random, entries),
        1..=3 => spoil_text(random, entries),
        4 | 5 => spoil_number(random, entries),
        6 => set_body(entries, 7, &any_digits(random)),
        7 => {
            let missing = random.pick(&[1, 6, 7]);
            entries.retain(|entry| entry.node != missing);
        }
        _ => {
            if let Some(entry) = any_entry(random, entries) {
                entry.reserved = 1 << random.index(8);
            }
        }
    }
}

fn any_entry<'a>(random: &mut Random, entries: &'a mut [Entry]) -> Option<&'a mut Entry> {
    if entries.is_empty() {
        return None;
    }
    let index = random.index(entries.len());
    Some(&mut entries[index])
}

/// For refusal 12: node 0, above 9, twice, or out of order.
fn damage_node(random: &mut Random, entries: &mut [Entry]) {
    if random.chance(40) {
        if let Some(entry) = any_entry(random, entries) {
            entry.node = random.pick(&[0, 10, 255]);
        }
    } else if entries.len() > 1 {
        let index = random.index(entries.len() - 1);
        if random.chance(50) {
            entries[index].node = entries[index + 1].node;
        } else {
            entries.swap(index, index + 1);
        }
    }
}

/// For refusal 13: a text that no node, or not this node, knows.
fn spoil_text(random: &mut Random, entries: &mut Vec<Entry>) {
    let node = 1 + random.index(9) as u8;
    let long_number = "0".repeat(1 + random.index(300)) + "512";
    let texts: &[&str] = match node {
        1 => &["", "R", "W", "rw", "ww", "1", "w\0", "x"],
        2..=5 => &["", "2", "00", "01", "10", "yes", "r", "1 "],
        6 => &[
            "", "0512", "+512", "-1", "512 ", " 512", "5l2", "0x200", "00", "5/2", "5:2",
        ],
        7 => &[
            "",
            "02008",
            "+1",
            "-1",
            "2008\n",
            "2,008",
            "00",
            "018446744073709551616",
            "1844674407370955161x",
        ],
        8 => &NEAR_PROTOCOLS,
        _ => &NO_ORDERS,
    };
    let text = if matches!(node, 6 | 7 | 9) && random.chance(10) {
        &long_number
    } else {
        random.pick(texts)
    };
    set_body(entries, node, text.as_bytes());
}

/// For refusal 14: a number that the node does not allow, of any size.
fn spoil_number(random: &mut Random, entries: &mut Vec<Entry>) {
    let node = random.pick(&[6u8, 7, 9]);
    // Now and then as long as a body can be.
    let digits = if random.chance(2) {
        usize::from(u16::MAX)
    } else {
        21 + random.index(400)
    };
    let long_number: String = "9".repeat(digits);
    // 2^128 + 512, 2^64 + 512: right again if a reader counts modulo a power of two.
    let texts: &[&str] = match node {
        6 => &[
            "0",
            "1",
            "256",
            "511",
            "513",
            "8192",
            "4294967808",
            "18446744073709552128",
            "340282366920938463463374607431768211968",
        ],
        7 => &[
            "18446744073709551616",
            "18446744073709551620",
            "18446744073709553624",
            "99999999999999999999",
            "184467440737095516150",
            "340282366920938463463374607431768213464",
        ],
        _ => &OTHER_ORDERS,
    };
    let text = if random.chance(15) {
        &long_number
    } else {
        random.pick(texts)
    };
    set_body(entries, node, text.as_bytes());
}

/// Digits of any length up to 40, for a reader of several a step: a number, too great or not, or none
/// for a leading zero or some other byte.
fn any_digits(random: &mut Random) -> Vec<u8> {
    if random.chance(20) {
        let around = u128::from(u64::MAX - random.below(500)) + u128::from(random.below(500));
        return around.to_string().into_bytes();
    }
    // Often whole eights.
    let digits = match random.index(3) {
        0 => random.pick(&[8, 16, 24]),
        _ => 1 + random.index(40),
    };
    let mut text: Vec<u8> = (0..digits).map(|_| random.pick(b"0123456789")).collect();
    text[0] = random.pick(b"123456789");
    match random.index(5) {
        0 => text[..1 + random.index(digits)].fill(b'0'),
        1 | 2 => {
            for _ in 0..1 + random.index(2) {
                let place = random.index(digits);
                text[place] = other_byte(random, text[place]);
            }
        }
        _ => {}
    }
    text
}

/// In place of a digit: a neighbour of the digits, one with a bit of its upper half changed, or any byte.
fn other_byte(random: &mut Random, digit: u8) -> u8 {
    match random.index(3) {
        0 => random.pick(b"/:"),
        1 => digit ^ random.pick(&[0x10, 0x20, 0x40, 0x80]),
        _ => random.byte(),
    }
}

/// Sets a node's body, adding the node in its place when it is absent.
fn set_body(entries: &mut Vec<Entry>, node: u8, body: &[u8]) {
    if let Some(entry) = entries.iter_mut().find(|entry| entry.node == node) {
        entry.body = body.to_vec();
    } else {
        let place = entries.partition_point(|entry| entry.node < node);
        entries.insert(place.min(entries.len()), Entry::new(node, body));
    }
}

fn encode(entries: &[Entry]) -> Vec<u8> {
    let mut sheet = vec![entries.len() as u8];
    for entry in entries {
        sheet.extend([entry.node, entry.reserved]);
        sheet.extend((entry.body.len() as u16).to_le_bytes());
    }
    for entry in entries {
        sheet.extend(&entry.body);
    }
    sheet
}

/// For refusal 11: empty, cut, longer, another number of entries, another length.
fn damage_bytes(random: &mut Random, sheet: &mut Vec<u8>) {
    match random.index(7) {
        0 => sheet.clear(),
        1 => {
            sheet.pop();
        }
        2 => sheet.truncate(random.index(sheet.len() + 1)),
        3 => sheet.extend(vec![b'0'; 1 + random.index(5)]),
        4 => sheet[0] = random.pick(&[0, 9, 10, 11, 255]),
        5 => {
            let at = random.index(sheet.len());
            sheet[at] ^= 1 << random.index(8);
        }
        // The high byte of the first body's length.
        _ if sheet.len() > 4 => sheet[4] = random.pick(&[1, 0x80, 0xFF]),
        _ => sheet.push(0),
    }
}

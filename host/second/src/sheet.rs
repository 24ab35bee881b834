//! Node sheets (section 3): what a sheet says of a disk, or its refusal.

use crate::layout::{Layout, ONE_PAGE_SLOTS, TWO_PAGE_SLOTS};
use crate::terms::{Operation, Refusal};

/// What a node sheet says about a port's disk.
#[derive(Clone, Debug, PartialEq, Eq)]
pub struct Disk {
    /// Mode "w".
    pub writable: bool,
    /// feature-barrier
    pub barrier: bool,
    /// feature-flush-cache
    pub flush: bool,
    /// feature-discard
    pub discard: bool,
    /// discard-secure
    pub secure: bool,
    /// sector-size in bytes
    pub sector_size: u64,
    /// sectors, of 512 bytes each
    pub sectors: u64,
    /// protocol: how the guest's records lie in its ring
    pub layout: Layout,
    /// ring-page-order: how many slots the ring has, and so many tags the port
    pub slots: u32,
}

impl Disk {
    /// The unit of check 29, in sectors.
    pub fn unit(&self) -> u64 {
        self.sector_size / 512
    }

    /// The feature of an operation that has one; read and write need none.
    pub(crate) fn offers(&self, operation: Operation) -> bool {
        match operation {
            Operation::Read | Operation::Write => true,
            Operation::Barrier => self.barrier,
            Operation::Flush => self.flush,
            Operation::Discard => self.discard,
        }
    }
}

/// One entry of the sheet's table of contents, with its body.
struct Entry<'a> {
    node: u8,
    body: &'a [u8],
}

/// Rule 3.10: the refusals of a sheet in their order.
pub fn read_sheet(sheet: &[u8]) -> Result<Disk, Refusal> {
    let entries = read_contents(sheet).ok_or(Refusal::SheetShape)?;
    if !nodes_rise(&entries) {
        return Err(Refusal::SheetNodes);
    }
    read_bodies(&entries)
}

/// Rules 3.1 to 3.3: the entries with their bodies. Nothing comes back for refusal 11.
fn read_contents(sheet: &[u8]) -> Option<Vec<Entry<'_>>> {
    let (&count, rest) = sheet.split_first()?;
    if count > 9 {
        return None;
    }
    let (table, mut bodies) = rest.split_at_checked(4 * usize::from(count))?;
    let mut entries = Vec::new();
    for line in table.chunks_exact(4) {
        let &[node, reserved, low, high] = line else {
            unreachable!("chunks of four bytes")
        };
        if reserved != 0 {
            return None;
        }
        let length = usize::from(u16::from_le_bytes([low, high]));
        let (body, rest) = bodies.split_at_checked(length)?;
        entries.push(Entry { node, body });
        bodies = rest;
    }
    bodies.is_empty().then_some(entries)
}

/// Rule 3.4, and that nodes are 1 to 9.
fn nodes_rise(entries: &[Entry]) -> bool {
    entries.iter().all(|entry| (1..=9).contains(&entry.node))
        && entries.windows(2).all(|pair| pair[0].node < pair[1].node)
}

/// Rule 3.11: the first faulty body decides; only after that comes rule 3.6, the nodes required.
fn read_bodies(entries: &[Entry]) -> Result<Disk, Refusal> {
    let (mut mode, mut sector_size, mut sectors) = (None, None, None);
    let (mut barrier, mut flush, mut discard, mut secure) = (false, false, false, false);
    let (mut layout, mut slots) = (Layout::BITS_64, ONE_PAGE_SLOTS);
    for entry in entries {
        match entry.node {
            1 => mode = Some(read_choice(entry.body, b"r", b"w")?),
            2 => barrier = read_choice(entry.body, b"0", b"1")?,
            3 => flush = read_choice(entry.body, b"0", b"1")?,
            4 => discard = read_choice(entry.body, b"0", b"1")?,
            5 => secure = read_choice(entry.body, b"0", b"1")?,
            6 => sector_size = Some(read_sector_size(entry.body)?),
            7 => sectors = Some(read_number(entry.body)?.ok_or(Refusal::SheetNumber)?),
            8 => layout = read_protocol(entry.body)?,
            _ => slots = read_ring_page_order(entry.body)?,
        }
    }
    Ok(Disk {
        writable: mode.ok_or(Refusal::SheetMissing)?,
        barrier,
        flush,
        discard,
        secure,
        sector_size: sector_size.ok_or(Refusal::SheetMissing)?,
        sectors: sectors.ok_or(Refusal::SheetMissing)?,
        layout,
        slots,
    })
}

/// Nodes 1 to 5 know two texts; all else is 13.
fn read_choice(body: &[u8], no: &[u8], yes: &[u8]) -> Result<bool, Refusal> {
    if body == yes {
        Ok(true)
    } else if body == no {
        Ok(false)
    } else {
        Err(Refusal::SheetText)
    }
}

/// Node 6: one of four numbers.
fn read_sector_size(body: &[u8]) -> Result<u64, Refusal> {
    match read_number(body)? {
        Some(size @ (512 | 1024 | 2048 | 4096)) => Ok(size),
        _ => Err(Refusal::SheetNumber),
    }
}

/// Node 8: one of two texts.
fn read_protocol(body: &[u8]) -> Result<Layout, Refusal> {
    match body {
        b"x86_64-abi" => Ok(Layout::BITS_64),
        b"x86_32-abi" => Ok(Layout::BITS_32),
        _ => Err(Refusal::SheetText),
    }
}

/// Node 9: one page or two, by their number's logarithm.
fn read_ring_page_order(body: &[u8]) -> Result<u32, Refusal> {
    match read_number(body)? {
        Some(0) => Ok(ONE_PAGE_SLOTS),
        Some(1) => Ok(TWO_PAGE_SLOTS),
        _ => Err(Refusal::SheetNumber),
    }
}

/// Rule 3.7: what a number is.
/// A number above 2^64 - 1 is a number still, but no node allows it: `None`.
fn read_number(body: &[u8]) -> Result<Option<u64>, Refusal> {
    let digits = !body.is_empty() && body.iter().all(u8::is_ascii_digit);
    let leading_zero = body.len() > 1 && body[0] == b'0';
    if !digits || leading_zero {
        return Err(Refusal::SheetText);
    }
    let value = body.iter().try_fold(0u64, |value, digit| {
        value.checked_mul(10)?.checked_add(u64::from(digit - b'0'))
    });
    Ok(value)
}

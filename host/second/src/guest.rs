//! The guest's half (section 16): a front end over one page of the 64-bit layout. It knows no backend.

use crate::layout::{
    check_length, read_u32, read_u64, write_u32, Layout, EXTENTS, ONE_PAGE_SLOTS, PAGE_BYTES,
    REQ_EVENT, REQ_PROD, RSP_EVENT, RSP_PROD,
};
use crate::terms::{Operation, Refusal};

/// The one layout that it has.
const LAYOUT: Layout = Layout::BITS_64;
const SLOT_BYTES: usize = LAYOUT.slot_bytes;

/// A request as the caller hands it in.
pub type RequestWords = [u64; 41];

/// Its words. Of segment i, three words from `SEGMENTS` + 3i on: frame, first and last sector.
const OPERATION: usize = 0;
const ID: usize = 1;
const START: usize = 2;
const COUNT: usize = 3;
const FLAG: usize = 4;
const SECTORS: usize = 5;
const SEGMENTS: usize = 8;

/// A response as the page has it.
#[derive(Clone, Copy, Debug, PartialEq, Eq)]
pub struct Collected {
    /// The id of the request that it ends.
    pub id: u64,
    /// Its operation.
    pub operation: u8,
    /// The 16 bits of its status, which nobody judges.
    pub status: u16,
}

/// A front end. Refused calls leave it, and the page, as they are.
#[derive(Clone, Debug, Default, PartialEq, Eq)]
pub struct Guest {
    /// Requests put, modulo 2^32: the page's req_prod is a copy of it.
    put: u32,
    /// Responses collected, modulo 2^32.
    collected: u32,
    /// Id and operation of each request put whose response was not collected.
    outstanding: Vec<(u64, u8)>,
}

impl Guest {
    /// A fresh guest, for a zeroed page.
    pub fn new() -> Guest {
        Guest::default()
    }

    /// Puts a request: refusals 1, 31, 32, 33. Says whether to notify the backend.
    pub fn put(&mut self, page: &mut [u8], request: &RequestWords) -> Result<bool, Refusal> {
        check_length(page, PAGE_BYTES)?;
        if self.outstanding.len() == ONE_PAGE_SLOTS as usize {
            return Err(Refusal::RingFull);
        }
        let id = request[ID];
        if self.outstanding.iter().any(|&(known, _)| known == id) {
            return Err(Refusal::IdOutstanding);
        }
        let slot = slot_of(request).ok_or(Refusal::BadRequest)?;
        page[slot_at(self.put)..][..SLOT_BYTES].copy_from_slice(&slot);
        self.outstanding.push((id, slot[0]));
        self.put = self.put.wrapping_add(1);
        write_u32(page, REQ_PROD, self.put);
        Ok(read_u32(page, REQ_EVENT) == self.put)
    }

    /// Collects a response: refusals 1, 34, 35. Where there is none, asks to be notified of the next.
    pub fn collect(&mut self, page: &mut [u8]) -> Result<Option<Collected>, Refusal> {
        check_length(page, PAGE_BYTES)?;
        let ahead = read_u32(page, RSP_PROD).wrapping_sub(self.collected);
        if ahead == 0 {
            write_u32(page, RSP_EVENT, self.collected.wrapping_add(1));
            return Ok(None);
        }
        if ahead as usize > self.outstanding.len() {
            return Err(Refusal::BadRspProd);
        }
        let response = response_at(page, slot_at(self.collected));
        let pair = (response.id, response.operation);
        let place = self.outstanding.iter().position(|&known| known == pair);
        self.outstanding
            .remove(place.ok_or(Refusal::NotOutstanding)?);
        self.collected = self.collected.wrapping_add(1);
        Ok(Some(response))
    }
}

/// Where the slot of an index begins.
fn slot_at(index: u32) -> usize {
    LAYOUT.slot_at(ONE_PAGE_SLOTS, index)
}

/// Rule 2.10, read and not judged.
fn response_at(page: &[u8], at: usize) -> Collected {
    Collected {
        id: read_u64(page, at),
        operation: page[at + 8],
        status: u16::from_le_bytes([page[at + 10], page[at + 11]]),
    }
}

/// All bytes of a request's slot, those that it does not use zero. Nothing for refusal 33: the request
/// would fail check 21, 25 or 26, or a number has no room in its field.
fn slot_of(request: &RequestWords) -> Option<[u8; SLOT_BYTES]> {
    let operation = u8::try_from(request[OPERATION]).ok()?;
    let mut slot = [0; SLOT_BYTES];
    slot[0] = operation;
    write_u64(&mut slot, LAYOUT.id, request[ID]);
    match Operation::from_byte(operation)? {
        Operation::Read | Operation::Write => fill_segments(&mut slot, request, 1)?,
        Operation::Barrier => fill_segments(&mut slot, request, 0)?,
        Operation::Flush => {
            if request[COUNT] != 0 {
                return None;
            }
        }
        Operation::Discard => {
            if request[SECTORS] == 0 {
                return None;
            }
            slot[1] = (request[FLAG] & 1) as u8;
            write_u64(&mut slot, LAYOUT.start, request[START]);
            write_u64(&mut slot, LAYOUT.body, request[SECTORS]);
        }
    }
    Some(slot)
}

/// Segments, `least` to eleven of them, and where they lie on the disk: without any, nowhere.
fn fill_segments(slot: &mut [u8], request: &RequestWords, least: u64) -> Option<()> {
    let count = request[COUNT];
    if count < least || count > EXTENTS as u64 {
        return None;
    }
    slot[1] = count as u8;
    if count > 0 {
        write_u64(slot, LAYOUT.start, request[START]);
    }
    let places = slot[LAYOUT.body..].chunks_exact_mut(8);
    let segments = request[SEGMENTS..].chunks_exact(3);
    for (place, segment) in places.zip(segments).take(count as usize) {
        let (frame, first, last) = (segment[0], segment[1], segment[2]);
        if first > last || last > 7 {
            return None;
        }
        place[..4].copy_from_slice(&u32::try_from(frame).ok()?.to_le_bytes());
        place[4] = first as u8;
        place[5] = last as u8;
    }
    Some(())
}

fn write_u64(bytes: &mut [u8], at: usize, value: u64) {
    bytes[at..at + 8].copy_from_slice(&value.to_le_bytes());
}

#[cfg(test)]
mod tests;

//! A stand-in for an old worker, for this demo alone and with nothing of the library in it: a backend
//! as they were once written, for one guest with 64-bit records and a ring of one page.
//!
//! It is sound as long as the guest leaves the page alone. But it reads a slot twice, once to check the
//! request and once to carry it out, and it answers where the page's own rsp_prod says, with the id that
//! the slot has by then.

use crate::batch::{MOST_SECTORS, WRITE};
use crate::disk::offset;
use crate::frames::{Frames, FRAME_SECTORS, NO_FRAME};
use crate::pattern::SECTOR;
use crate::serve::{Served, Server};
use frontend::GuestRing;
use kernelharp::layout::{read_u32, read_u64, REQ_PROD, RSP_PROD, SEGMENTS};
use kernelharp::{Abi, Pages, Segment, Status};
use std::fs::File;
use std::io;
use std::ops::Range;
use std::os::unix::fs::FileExt;
use std::rc::Rc;
use std::sync::atomic::{fence, Ordering};

const ABI: Abi = Abi::Bits64;
const SLOT_BYTES: usize = 112;
const SEGMENT_BYTES: usize = 8;

/// The stand-in.
pub struct OldWorker {
    pub ring: &'static GuestRing,
    pub frames: Rc<Frames>,
    pub volume: File,
    /// The guest's part of the volume.
    pub slice: Range<u64>,
    /// Requests taken.
    pub req_cons: u32,
}

/// A request as a slot has it at one moment.
struct Asked {
    operation: u8,
    id: u64,
    start: u64,
    segments: Vec<Segment>,
}

impl Server for OldWorker {
    fn serve(&mut self, meanwhile: &mut dyn FnMut()) -> Result<Option<Served>, String> {
        let index = self.req_cons;
        if self.ring.load(REQ_PROD) == index {
            return Ok(None);
        }
        fence(Ordering::Acquire);
        self.req_cons = index.wrapping_add(1);
        let checked = self.read(index);
        if !self.is_sound(&checked) {
            self.respond(Status::Error);
            return Ok(Some(Served::Refused));
        }
        meanwhile();
        let used = self.read(index);
        let written = self.write(&used);
        written.map_err(|fault| format!("old worker: {fault}"))?;
        Ok(Some(Served::Written {
            checked: checked.start,
            used: used.start,
        }))
    }

    fn answer(&mut self) -> Result<(), String> {
        self.respond(Status::Okay);
        Ok(())
    }
}

impl OldWorker {
    fn respond(&self, status: Status) {
        let rsp_prod = self.ring.load(RSP_PROD);
        let asked = self.read(rsp_prod);
        let mut response = [0; 16];
        response[..8].copy_from_slice(&asked.id.to_le_bytes());
        response[8] = asked.operation;
        response[10..12].copy_from_slice(&(status as i16).to_le_bytes());
        self.ring.write(slot_at(rsp_prod), &response);
        fence(Ordering::Release);
        self.ring.store(RSP_PROD, rsp_prod.wrapping_add(1));
    }

    /// Reads a slot of the guest's page.
    fn read(&self, index: u32) -> Asked {
        let mut slot = [0; SLOT_BYTES];
        self.ring.read(slot_at(index), &mut slot);
        let segments = slot[ABI.segments_at()..].chunks_exact(SEGMENT_BYTES);
        let segments = segments.take(SEGMENTS.min(slot[1].into()));
        Asked {
            operation: slot[0],
            id: read_u64(&slot, ABI.id_at()),
            start: read_u64(&slot, ABI.start_at()),
            segments: segments
                .map(|bytes| Segment {
                    frame: read_u32(bytes, 0),
                    first: bytes[4],
                    last: bytes[5],
                })
                .collect(),
        }
    }

    /// The checks are as they should be: a write of frames that are granted, within the guest's disk.
    fn is_sound(&self, asked: &Asked) -> bool {
        let within = |segment: &Segment| {
            segment.first <= segment.last && usize::from(segment.last) < FRAME_SECTORS
        };
        let granted = |segment: &Segment| segment.frame < NO_FRAME;
        let sectors = self.slice.end - self.slice.start;
        let room = sectors.saturating_sub(asked.start);
        let mut segments = asked.segments.iter();
        asked.operation == WRITE
            && segments.all(|it| within(it) && granted(it))
            && (1..=MOST_SECTORS.min(room)).contains(&asked.sectors())
    }

    fn write(&self, asked: &Asked) -> io::Result<()> {
        let mut at = self.slice.start + asked.start;
        let mut bytes = [0; SECTOR];
        for segment in &asked.segments {
            for place in segment.first..=segment.last {
                self.frames.read(segment.frame, place.into(), &mut bytes);
                self.volume.write_all_at(&bytes, offset(at))?;
                at += 1;
            }
        }
        Ok(())
    }
}

impl Asked {
    fn sectors(&self) -> u64 {
        let length = |segment: &Segment| u64::from(segment.last - segment.first) + 1;
        self.segments.iter().map(length).sum()
    }
}

fn slot_at(index: u32) -> usize {
    ABI.slot_at(Pages::One, index)
}

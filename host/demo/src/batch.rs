//! What a guest asks for in one round: requests, the bytes that go with them, and what is due back.

use crate::frames::{Frames, FRAME_SECTORS, NO_FRAME, READ_ONLY_FRAMES, READ_WRITE_FRAMES};
use crate::pattern::{Model, SECTOR};
use crate::profile::Profile;
use crate::wish::{Wish, With};
use generate::Random;
use kernelharp::layout::EXTENTS;
use kernelharp::{Operation, Segment, Status};
use std::ops::Range;

pub const READ: u8 = Operation::Read as u8;
pub const WRITE: u8 = Operation::Write as u8;
pub const BARRIER: u8 = Operation::Barrier as u8;
pub const FLUSH: u8 = Operation::Flush as u8;
pub const DISCARD: u8 = Operation::Discard as u8;

const OKAY: Status = Status::Okay;
const ERROR: Status = Status::Error;
const NOT_SUPPORTED: Status = Status::NotSupported;

/// What a frame holds before the host reads from the disk into it.
const FILLER: [u8; SECTOR] = [0xA5; SECTOR];
/// The most sectors of one request.
pub const MOST_SECTORS: u64 = (EXTENTS * FRAME_SECTORS) as u64;

/// A request and what is due for it.
pub struct Job {
    pub wish: Wish,
    pub status: Status,
    /// Whether it fails a check that needs nothing of the disk and of what is granted.
    pub malformed: bool,
    /// Of a read: where the disk's sectors are due, and which.
    read: Option<ReadBack>,
}

struct ReadBack {
    segments: Vec<Segment>,
    start: u64,
    /// None where nothing may have been moved.
    versions: Option<Vec<u32>>,
}

impl Job {
    /// Checks the frames of a read, every byte of them. Gives how many bytes were checked.
    pub fn check(&self, frames: &Frames, model: &Model) -> Result<u64, String> {
        let Some(read) = &self.read else {
            return Ok(0);
        };
        let (mut bytes, mut moved) = ([0; SECTOR], 0);
        for segment in &read.segments {
            for place in 0..FRAME_SECTORS {
                frames.read(segment.frame, place, &mut bytes);
                let inside = (segment.first as usize..=segment.last as usize).contains(&place);
                let sound = match &read.versions {
                    Some(versions) if inside => {
                        let sector = read.start + moved as u64;
                        moved += 1;
                        model.holds(sector, versions[moved - 1], &bytes)
                    }
                    _ => bytes == FILLER,
                };
                if !sound {
                    return Err(format!("sector {place} of frame {}", segment.frame));
                }
            }
        }
        Ok((read.segments.len() * FRAME_SECTORS * SECTOR) as u64)
    }
}

/// The requests of a round as they are made. No two of them touch the same sectors, one writing,
/// unless a barrier stands between; so what is due does not hang on the host's order.
pub struct Batch<'a> {
    pub profile: &'a Profile,
    pub model: &'a mut Model,
    pub frames: &'a Frames,
    pub random: &'a mut Random,
    pub next_id: &'a mut u64,
    pub jobs: Vec<Job>,
    /// Sectors touched since the last barrier, and whether they are written.
    pub touched: Vec<(Range<u64>, bool)>,
}

impl Batch<'_> {
    /// Adds one request of a random kind; none where the sectors chosen are taken by others.
    pub fn add_any(&mut self) {
        match self.random.below(100) {
            0..38 => self.add_somewhere(READ),
            38..70 => self.add_somewhere(WRITE),
            70..78 => self.add_somewhere(BARRIER),
            78..80 => self.add_moving(BARRIER, 0, vec![]),
            80..88 => self.add_discard(),
            // A flush waits for the medium, so there are few.
            88 if self.random.chance(25) => self.add_flush(),
            _ => self.add_spoiled(),
        }
    }

    /// Adds reads or writes of a whole range, as large as they can be.
    pub fn add_range(&mut self, operation: u8, range: Range<u64>) {
        for start in range.clone().step_by(MOST_SECTORS as usize) {
            let count = MOST_SECTORS.min(range.end - start) as usize;
            let mut segments = Vec::new();
            for (ahead, frame) in (0..count)
                .step_by(FRAME_SECTORS)
                .zip(self.next_frames(operation))
            {
                let last = FRAME_SECTORS.min(count - ahead) - 1;
                segments.push(segment(frame, 0, last));
            }
            self.add_moving(operation, start, segments);
        }
    }

    pub fn add_flush(&mut self) {
        let status = self.status_due(FLUSH);
        let flush = self.wish(FLUSH, 0, With::Segments(vec![]));
        self.push(flush, status, None);
    }

    pub fn is_full(&self) -> bool {
        self.jobs.len() == self.profile.slots()
    }

    /// The frames of the next request: as far as they go those granted for reading only, unless the
    /// host has to write them.
    fn next_frames(&self, operation: u8) -> Range<u32> {
        let mut first = self.jobs.len() * EXTENTS;
        if operation != READ && first < READ_ONLY_FRAMES {
            first += READ_WRITE_FRAMES;
        }
        first as u32..(first + EXTENTS) as u32
    }

    fn add_somewhere(&mut self, operation: u8) {
        let segments = self.any_segments(operation);
        let writes = operation != READ;
        if let Some(start) = self.free_range(sectors_of(&segments), writes, operation == BARRIER) {
            self.add_moving(operation, start, segments);
        }
    }

    /// Adds a read, write or barrier, with the bytes that it takes along or is to replace.
    fn add_moving(&mut self, operation: u8, start: u64, segments: Vec<Segment>) {
        let count = sectors_of(&segments);
        let mut status = self.status_due(operation);
        if status == OKAY && overlap(&self.profile.bad, &(start..start + count)) {
            status = ERROR;
        }
        let wish = self.wish(operation, start, With::Segments(segments.clone()));
        if operation == READ {
            let versions = self.model.versions(start, count).to_vec();
            let versions = (status == OKAY).then_some(versions);
            self.push_read(
                wish,
                status,
                ReadBack {
                    segments,
                    start,
                    versions,
                },
            );
        } else {
            self.take_along(start, &segments, status == OKAY);
            self.push(wish, status, None);
        }
        if operation == BARRIER && status == OKAY {
            self.touched.clear();
        } else {
            self.touched.push((start..start + count, operation != READ));
        }
    }

    /// Fills the frames of a write with a fresh version, which the disk has once it is done.
    fn take_along(&mut self, start: u64, segments: &[Segment], done: bool) {
        let version = self.model.fresh();
        let mut bytes = [0; SECTOR];
        let places = segments
            .iter()
            .flat_map(|it| (it.first..=it.last).map(|at| (it.frame, at)));
        for (sector, (frame, place)) in (start..).zip(places) {
            self.model.fill(sector, version, &mut bytes);
            self.frames.write(frame, place.into(), &bytes);
        }
        if done {
            self.model.set(start, sectors_of(segments), version);
        }
    }

    fn add_discard(&mut self) {
        let unit = self.profile.unit();
        let (secure, count) = (self.random.chance(30), unit * (1 + self.random.below(12)));
        let Some(start) = self.free_range(count, true, false) else {
            return;
        };
        let mut status = self.status_due(DISCARD);
        if status == OKAY && !self.profile.discards {
            status = NOT_SUPPORTED;
        } else if status == OKAY {
            self.model.set(start, count, 0);
        }
        let with = With::Sectors {
            sectors: count,
            secure,
        };
        let discard = self.wish(DISCARD, start, with);
        self.push(discard, status, None);
        self.touched.push((start..start + count, true));
    }

    /// Adds a read that fails a check: nothing may be moved.
    fn add_spoiled(&mut self) {
        let (mut segments, sectors) = (self.any_segments(READ), self.model.sectors());
        let (mut operation, mut start, unit) = (READ, 0, self.profile.unit() as usize);
        let (whole, fault) = (segments.clone(), self.random.below(8));
        match fault {
            // The types of the guest's half have no such request.
            0 if !self.profile.has_library_front() => operation = self.random.pick(&[4, 6, 255]),
            1 => segments = vec![segments[0]; self.random.pick(&[0, 12, 255])],
            2 => (segments[0].first, segments[0].last) = self.random.pick(&[(3, 2), (0, 8)]),
            3 => segments[0].frame = self.random.pick(&[NO_FRAME, 1024, u32::MAX]),
            // The host may only read what lies there.
            4 => segments[0].frame = READ_WRITE_FRAMES as u32,
            5 => {
                start = self
                    .random
                    .pick(&[sectors, u64::MAX - self.profile.unit() + 1])
            }
            6 if unit > 1 => start = 1,
            // The halves of a unit: their total is fine, but none of them is.
            7 if unit > 1 => {
                let (frame, half) = (segments[0].frame, unit / 2);
                segments = vec![segment(frame, 0, half - 1), segment(frame, half, unit - 1)];
            }
            _ => start = sectors,
        }
        let status = if operation == READ {
            ERROR
        } else {
            NOT_SUPPORTED
        };
        let wish = self.wish(operation, start, With::Segments(segments));
        let untouched = ReadBack {
            segments: whole,
            start,
            versions: None,
        };
        self.push_read(wish, status, untouched);
        let spoiled = self.jobs.last_mut().expect("it was pushed");
        spoiled.malformed = matches!(fault, 1 | 2) || operation != READ;
    }

    fn wish(&mut self, operation: u8, start: u64, with: With) -> Wish {
        *self.next_id += 1;
        Wish {
            operation,
            id: *self.next_id,
            start,
            with,
        }
    }

    /// What a guest that knows its disk expects of a sound request.
    fn status_due(&self, operation: u8) -> Status {
        let sheet = &self.profile.sheet;
        let supported = match operation {
            BARRIER => sheet.barrier,
            FLUSH => sheet.flush,
            // Secure ones too: a disk that has none makes plain ones of them.
            DISCARD => sheet.discard,
            _ => true,
        };
        match operation {
            _ if !supported => NOT_SUPPORTED,
            WRITE | BARRIER | DISCARD if !sheet.writable => ERROR,
            _ => OKAY,
        }
    }

    fn push_read(&mut self, wish: Wish, status: Status, read: ReadBack) {
        for segment in &read.segments {
            for place in 0..FRAME_SECTORS {
                self.frames.write(segment.frame, place, &FILLER);
            }
        }
        self.push(wish, status, Some(read));
    }

    fn push(&mut self, wish: Wish, status: Status, read: Option<ReadBack>) {
        self.jobs.push(Job {
            wish,
            status,
            malformed: false,
            read,
        });
    }

    /// Segments of any shape in whole units of the disk.
    fn any_segments(&mut self, operation: u8) -> Vec<Segment> {
        let (n, unit) = (1 + self.random.index(EXTENTS), self.profile.unit() as usize);
        let (frames, units) = (self.next_frames(operation).take(n), FRAME_SECTORS / unit);
        let any = |frame| {
            let first = self.random.index(units);
            let last = first + self.random.index(units - first);
            segment(frame, unit * first, unit * last + unit - 1)
        };
        frames.map(any).collect()
    }

    /// Where so many sectors can be asked for; none if a few tries find no place. A barrier may
    /// stand anywhere.
    fn free_range(&mut self, count: u64, writes: bool, barrier: bool) -> Option<u64> {
        let unit = self.profile.unit();
        let floor = if writes { self.profile.floor() } else { 0 };
        let room = (self.model.sectors() - floor - count) / unit + 1;
        for _ in 0..8 {
            let start = floor + unit * self.random.below(room);
            let range = start..start + count;
            let taken = |(other, written): &(Range<u64>, bool)| {
                (*written || writes) && overlap(other, &range)
            };
            if barrier || !self.touched.iter().any(taken) {
                return Some(start);
            }
        }
        None
    }
}

fn segment(frame: u32, first: usize, last: usize) -> Segment {
    Segment {
        frame,
        first: first as u8,
        last: last as u8,
    }
}

fn sectors_of(segments: &[Segment]) -> u64 {
    let length = |segment: &Segment| u64::from(segment.last - segment.first) + 1;
    segments.iter().map(length).sum()
}

fn overlap(one: &Range<u64>, other: &Range<u64>) -> bool {
    one.start < other.end && other.start < one.end
}

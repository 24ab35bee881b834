//! Guest requests: sound ones, and ones at fault at a check that is aimed at.

use crate::Random;
use kernelharp::layout::{Abi, EXTENTS};
use second::{Disk, Operation};
use std::ops::Range;

pub const READ: u8 = Operation::Read as u8;
pub const WRITE: u8 = Operation::Write as u8;
pub const BARRIER: u8 = Operation::Barrier as u8;
pub const FLUSH: u8 = Operation::Flush as u8;
pub const DISCARD: u8 = Operation::Discard as u8;

/// The sectors of a frame.
const FRAME_SECTORS: u64 = 8;

/// A request before it is put into a slot.
pub struct Draft {
    pub operation: u8,
    pub count_or_flag: u8,
    pub start: u64,
    /// A discard's sector count.
    pub discard_count: u64,
    pub segments: Vec<Segment>,
}

pub struct Segment {
    pub frame: u32,
    pub first: u8,
    pub last: u8,
}

impl Segment {
    /// Makes it the sectors of a frame from one up to another.
    fn set(&mut self, sectors: Range<u64>) {
        self.first = sectors.start as u8;
        self.last = sectors.end as u8 - 1;
    }
}

impl Draft {
    /// How many sectors it is about.
    fn count(&self) -> u64 {
        if self.operation == DISCARD {
            return self.discard_count;
        }
        let length = |segment: &Segment| u64::from(segment.last.wrapping_sub(segment.first)) + 1;
        self.segments.iter().map(length).sum()
    }

    fn has_segments(&self) -> bool {
        !self.segments.is_empty()
    }
}

/// A request for a disk, in the bytes of a layout's slot, at fault in about `faulty` of a hundred
/// cases.
pub fn any_request(
    random: &mut Random,
    abi: Abi,
    disk: &Disk,
    grants: &[u8],
    faulty: u64,
) -> Vec<u8> {
    if !random.chance(faulty) {
        let draft = sound(random, disk, grants);
        return encode(random, abi, &draft);
    }
    if random.chance(5) {
        return noise(random, abi);
    }
    // There are more ways to fail at 29 than at any other check.
    let number = random.pick(&[21, 22, 24, 25, 26, 27, 28, 29, 29, 29, 29]);
    let mut draft = faulty_operation(random, number, disk, grants);
    spoil(random, number, &mut draft, disk, grants);
    // A second fault shows the order of the checks.
    if random.chance(50) {
        let second = (25 + random.below(8)).min(29);
        spoil(random, second, &mut draft, disk, grants);
    }
    encode(random, abi, &draft)
}

/// A slot of random bytes.
fn rubbish(random: &mut Random, abi: Abi) -> Vec<u8> {
    let mut slot = vec![0; abi.slot_bytes()];
    random.fill(&mut slot);
    slot
}

/// Random bytes with a likely operation.
fn noise(random: &mut Random, abi: Abi) -> Vec<u8> {
    let mut slot = rubbish(random, abi);
    if random.chance(80) {
        slot[0] = random.below(7) as u8;
        slot[1] = random.below(14) as u8;
    }
    slot
}

/// The operations that the disk lets pass checks 22 and 24.
fn allowed_operations(disk: &Disk) -> Vec<u8> {
    let mut allowed = vec![READ, READ];
    if disk.writable {
        allowed.extend([WRITE, WRITE]);
    }
    if disk.writable && disk.barrier {
        allowed.extend([BARRIER, BARRIER]);
    }
    if disk.flush {
        allowed.push(FLUSH);
    }
    if disk.writable && disk.discard {
        allowed.push(DISCARD);
    }
    allowed
}

fn sound(random: &mut Random, disk: &Disk, grants: &[u8]) -> Draft {
    let operation = random.pick(&allowed_operations(disk));
    draft(random, operation, disk, grants)
}

/// The operations that the disk offers, or those that it does not.
fn having(offered: bool, operations: [(u8, bool); 3]) -> Vec<u8> {
    let chosen = operations.into_iter().filter(|(_, on)| *on == offered);
    chosen.map(|(operation, _)| operation).collect()
}

/// A draft whose operation leads to the check aimed at, where the disk has one.
fn faulty_operation(random: &mut Random, number: u64, disk: &Disk, grants: &[u8]) -> Draft {
    let mut candidates = match number {
        21 => vec![4, 6, 7, 128, 255, random.byte() | 8],
        22 => having(
            false,
            [
                (BARRIER, disk.barrier),
                (FLUSH, disk.flush),
                (DISCARD, disk.discard),
            ],
        ),
        24 if !disk.writable => having(
            true,
            [
                (WRITE, true),
                (BARRIER, disk.barrier),
                (DISCARD, disk.discard),
            ],
        ),
        26 | 27 => having(
            true,
            [
                (READ, true),
                (WRITE, disk.writable),
                (BARRIER, disk.writable && disk.barrier),
            ],
        ),
        _ => Vec::new(),
    };
    if candidates.is_empty() {
        candidates = allowed_operations(disk);
    }
    let operation = random.pick(&candidates);
    draft(random, operation, disk, grants)
}

/// A draft that passes checks 25 to 29, if the disk is large enough.
pub fn draft(random: &mut Random, operation: u8, disk: &Disk, grants: &[u8]) -> Draft {
    let mut draft = Draft {
        operation,
        count_or_flag: 0,
        start: random.word(),
        discard_count: random.word(),
        segments: Vec::new(),
    };
    match operation {
        FLUSH => {}
        DISCARD => {
            // No flag is at fault, whatever the disk's discard-secure.
            let any = random.byte();
            draft.count_or_flag = random.pick(&[0, 1, any, any]);
            draft.discard_count = aligned_up_to(random, disk.sectors, disk.unit());
            draft.discard_count = draft.discard_count.max(disk.unit());
            draft.start = place(random, draft.discard_count, disk);
        }
        BARRIER if random.chance(20) => {}
        _ => {
            draft.segments = segments(random, operation, disk, grants);
            draft.count_or_flag = draft.segments.len() as u8;
            draft.start = place(random, draft.count(), disk);
        }
    }
    draft
}

/// A multiple of `unit` up to `end`, often near one of the ends.
fn aligned_up_to(random: &mut Random, end: u64, unit: u64) -> u64 {
    let steps = end / unit;
    let step = match random.index(4) {
        0 => steps,
        1 => steps.min(1 + random.below(8)),
        _ if steps == u64::MAX => random.word(),
        _ => random.below(steps + 1),
    };
    step * unit
}

/// A start so that `count` sectors fit, when any does.
fn place(random: &mut Random, count: u64, disk: &Disk) -> u64 {
    aligned_up_to(random, disk.sectors.saturating_sub(count), disk.unit())
}

fn segments(random: &mut Random, operation: u8, disk: &Disk, grants: &[u8]) -> Vec<Segment> {
    let amount = match random.index(8) {
        0 | 1 => EXTENTS,
        2..=4 => 1,
        _ => 1 + random.index(EXTENTS),
    };
    let whole = random.chance(25);
    let segment = |_| {
        let mut segment = Segment {
            frame: granted_frame(random, operation, grants),
            first: 0,
            last: 7,
        };
        if !whole {
            segment.set(aligned_sectors(random, disk.unit()));
        }
        segment
    };
    (0..amount).map(segment).collect()
}

/// Sectors of a frame that begin and end on boundaries of the disk's.
fn aligned_sectors(random: &mut Random, unit: u64) -> Range<u64> {
    let steps = FRAME_SECTORS / unit;
    let begin = random.below(steps);
    let end = begin + 1 + random.below(steps - begin);
    unit * begin..unit * end
}

/// Sectors of a frame that do not, for a unit above 1.
fn unaligned_sectors(random: &mut Random, unit: u64) -> Range<u64> {
    let (begins, ends) = random.pick(&[(false, true), (true, false), (false, false)]);
    loop {
        let begin = random.below(FRAME_SECTORS);
        let end = begin + 1 + random.below(FRAME_SECTORS - begin);
        if (begin % unit == 0, end % unit == 0) == (begins, ends) {
            return begin..end;
        }
    }
}

pub fn is_granted(operation: u8, grant: u8) -> bool {
    grant == 2 || grant == 1 && operation != READ
}

/// A frame granted as needed, unless none is found soon.
fn granted_frame(random: &mut Random, operation: u8, grants: &[u8]) -> u32 {
    let mut frame = random.pick(&[0, 1023, 5]);
    for _ in 0..64 {
        if is_granted(operation, grants[frame]) {
            break;
        }
        frame = random.index(grants.len());
    }
    frame as u32
}

/// A frame not granted as needed: of another grant, or beyond the grants.
fn refused_frame(random: &mut Random, operation: u8, grants: &[u8]) -> u32 {
    match random.index(6) {
        0 => 1024,
        1 => random.pick(&[1029, 2048, 65536, 1 << 31, u32::MAX, 0x0100_0005]),
        _ => {
            let mut frame = random.index(grants.len());
            for _ in 0..64 {
                if !is_granted(operation, grants[frame]) {
                    break;
                }
                frame = random.index(grants.len());
            }
            frame as u32
        }
    }
}

/// Makes a draft fail at a check from 25 on, as far as the operation has that check.
pub fn spoil(random: &mut Random, number: u64, draft: &mut Draft, disk: &Disk, grants: &[u8]) {
    match number {
        25 => spoil_amount(random, draft),
        26 if draft.has_segments() => {
            let at = random.index(draft.segments.len());
            let (first, last) = match random.index(5) {
                0 => (3, 2),
                1 => (0, 8),
                2 => (8, 8),
                3 => (random.byte(), random.byte()),
                _ => (7, 6),
            };
            draft.segments[at].first = first;
            draft.segments[at].last = last;
        }
        27 if draft.has_segments() => {
            let at = random.index(draft.segments.len());
            draft.segments[at].frame = refused_frame(random, draft.operation, grants);
        }
        28 => spoil_range(random, draft, disk),
        29 => spoil_alignment(random, draft, disk),
        _ => {}
    }
}

fn spoil_amount(random: &mut Random, draft: &mut Draft) {
    let above = random.pick(&[12, 13, 128, 255]);
    match draft.operation {
        FLUSH => draft.count_or_flag = random.pick(&[1, 11, 255]),
        DISCARD => draft.discard_count = 0,
        BARRIER => draft.count_or_flag = above,
        _ => draft.count_or_flag = random.pick(&[0, above]),
    }
}

/// Just beyond the end, far beyond it, or beyond 2^64.
fn spoil_range(random: &mut Random, draft: &mut Draft, disk: &Disk) {
    let unit = disk.unit();
    let fits = disk.sectors.saturating_sub(draft.count());
    draft.start = match random.index(5) {
        0 => 0u64.wrapping_sub(unit),
        1 => 0u64.wrapping_sub(draft.count()),
        2 => random.word() / unit * unit,
        _ => fits.saturating_add(unit) / unit * unit,
    };
    if draft.operation == DISCARD && random.chance(30) {
        draft.discard_count = 0u64.wrapping_sub(unit * random.below(3));
    }
}

/// A start, a discard's count or a segment that is not in whole units; none for a unit of 1.
fn spoil_alignment(random: &mut Random, draft: &mut Draft, disk: &Disk) {
    let unit = disk.unit();
    if unit == 1 {
        return;
    }
    if draft.has_segments() && random.chance(85) {
        spoil_segments(random, &mut draft.segments, unit);
        // The total is another one now, and has to fit.
        draft.start = place(random, draft.count(), disk);
    } else if draft.operation == DISCARD && random.chance(50) {
        draft.discard_count = draft.discard_count.saturating_sub(1).max(1);
    } else {
        draft.start = draft.start.wrapping_sub(1 + random.below(unit - 1));
        if draft.start > disk.sectors {
            draft.start = 1;
        }
    }
}

/// All segments, two neighbours or one of them, often the first or the last, not in whole units.
fn spoil_segments(random: &mut Random, segments: &mut [Segment], unit: u64) {
    let tail = segments.len() - 1;
    let any = random.index(tail + 1);
    let at = random.pick(&[0, 0, tail, any]);
    match random.index(6) {
        0 => {
            for segment in segments {
                segment.set(unaligned_sectors(random, unit));
            }
        }
        1 | 2 if at < tail => split_unit(random, &mut segments[at..], unit),
        _ => segments[at].set(unaligned_sectors(random, unit)),
    }
}

/// Makes the first two segments the parts of one unit, so that their total stays in whole units. The
/// second goes on where the first ends, or begins as the first does.
fn split_unit(random: &mut Random, segments: &mut [Segment], unit: u64) {
    let begin = unit * random.below(FRAME_SECTORS / unit);
    let cut = 1 + random.below(unit - 1);
    segments[0].set(begin..begin + cut);
    let begin = random.pick(&[begin, begin + cut]);
    segments[1].set(begin..begin + unit - cut);
}

/// Puts a draft into a slot; every byte that has no meaning is random.
fn encode(random: &mut Random, abi: Abi, draft: &Draft) -> Vec<u8> {
    let mut slot = rubbish(random, abi);
    slot[0] = draft.operation;
    slot[1] = draft.count_or_flag;
    // Few ids, so that pairs repeat.
    if random.chance(50) {
        slot[abi.id_at()..][..8].copy_from_slice(&random.below(8).to_le_bytes());
    }
    slot[abi.start_at()..][..8].copy_from_slice(&draft.start.to_le_bytes());
    let body = &mut slot[abi.segments_at()..];
    if draft.operation == DISCARD {
        body[..8].copy_from_slice(&draft.discard_count.to_le_bytes());
    }
    for (place, segment) in body.chunks_exact_mut(8).zip(&draft.segments) {
        place[0..4].copy_from_slice(&segment.frame.to_le_bytes());
        place[4] = segment.first;
        place[5] = segment.last;
    }
    slot
}

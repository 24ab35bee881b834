//! What is to be seen in a joining: told from its words alone, as whole numbers, without any program.

use super::Joining;
use kernelharp::words::extent;
use kernelharp::Refusal;

pub const TOO_FEW_FRAMES: u32 = Refusal::TooFewFrames as u32;
pub const TOO_FEW_RUNS: u32 = Refusal::TooFewRuns as u32;
pub const NO_PLAN: u32 = Refusal::NoPlan as u32;

/// The sectors of a frame.
const SECTORS: u128 = 8;

/// An extent's words.
pub type Place = [u64; extent::WORDS];

/// What can be wrong with an extent by itself, and with its place on the disk. Each occurs alone.
pub const FAULTS: [&str; 16] = [
    "empty",
    "from sector 8 on",
    "nine sectors from 0 on",
    "past sector 7 by one",
    "past sector 7 by more",
    "far past sector 7",
    "past sector 7, not when the sum wraps",
    "past sector 7, not when cut to 32 bits",
    "up to disk sector 2^64",
    "beyond disk sector 2^64",
    "where the one before begins",
    "one sector too low",
    "one sector too high",
    "next when cut to 32 bits",
    "elsewhere on the disk",
    "at disk sector 0",
];
/// Never alone: the one before goes up to disk sector 2^64.
pub const AT_WRAP: &str = "next when disk sectors wrap";

/// How neighbours join.
pub const JOINED: [&str; 2] = ["in the same frame", "in the next frame"];
/// How neighbours miss each other.
pub const APART: [&str; 15] = [
    "2^64 - 1, then 0",
    "all of the same frame again",
    "one lower",
    "two higher",
    "one higher when cut to 32 bits",
    "sector 7, then 0, elsewhere",
    "a gap in the frame",
    "back in the frame",
    "one higher, not from sector 7",
    "one higher, not to sector 0",
    "one higher, as if in one frame",
    "one higher, with a gap",
    "the same frame when cut to 32 bits",
    "as if in one frame, elsewhere",
    "elsewhere",
];

/// What a joining comes to.
#[derive(Debug)]
pub struct Facts {
    /// The extents that are named and have a place.
    pub named: Vec<Place>,
    /// More are named than there are places.
    pub too_many: bool,
    /// What is wrong, with the number of the extent.
    pub faults: Vec<(usize, &'static str)>,
    /// How each extent meets the one before it, and how it would by their own frames; none where it is a
    /// case for refusal 10 or 8.
    pub meets: Vec<(&'static str, &'static str)>,
    /// The refusals that it deserves, in the order in which they are judged.
    pub refusals: Vec<u32>,
}

impl Facts {
    pub fn of(joining: &Joining) -> Facts {
        let places = places(&joining.extents);
        let too_many = joining.count > places.len() as u64;
        let count = places.len().min(joining.count as usize);
        let named = places[..count].to_vec();
        let mut facts = Facts {
            faults: faults(&named),
            named,
            too_many,
            meets: Vec::new(),
            refusals: Vec::new(),
        };
        let few_frames = (joining.frames.len() as u64) < joining.count;
        if !too_many && facts.faults.is_empty() && !few_frames {
            facts.meets = meets(&facts.named, &joining.frames);
        }
        // Where it is not known how many runs there are, there is one at least.
        let few_runs = joining.count > 0 && joining.room < facts.runs().max(1);
        let due = [
            (too_many || !facts.faults.is_empty(), NO_PLAN),
            (few_frames, TOO_FEW_FRAMES),
            (few_runs, TOO_FEW_RUNS),
        ];
        let due = due.into_iter().filter(|(applies, _)| *applies);
        facts.refusals = due.map(|(_, refusal)| refusal).collect();
        facts
    }

    /// The runs that are needed, where `meets` says how the extents meet.
    pub fn runs(&self) -> usize {
        let apart = self.meets.iter().filter(|(meet, _)| APART.contains(meet));
        apart.count() + usize::from(!self.named.is_empty())
    }
}

/// The places that words have.
pub fn places(words: &[u64]) -> Vec<Place> {
    let places = words.chunks_exact(extent::WORDS);
    places
        .map(|words| words.try_into().expect("a place"))
        .collect()
}

fn faults(named: &[Place]) -> Vec<(usize, &'static str)> {
    let mut faults = Vec::new();
    for (at, place) in named.iter().enumerate() {
        let before = at.checked_sub(1).map(|before| &named[before]);
        let of_order = before.and_then(|before| order_fault(before, place));
        let all = [frame_fault(place), disk_fault(place), of_order];
        faults.extend(all.into_iter().flatten().map(|fault| (at, fault)));
    }
    faults
}

fn cut(number: u64) -> u128 {
    u128::from(number as u32)
}

fn whole(place: &Place, at: usize) -> u128 {
    u128::from(place[at])
}

/// What is wrong with the sectors in the frame.
fn frame_fault(place: &Place) -> Option<&'static str> {
    let (first, length) = (place[extent::FIRST], place[extent::LENGTH]);
    let sum = u128::from(first) + u128::from(length);
    let cut_sum = cut(first) + cut(length);
    Some(match (first, length) {
        (_, 0) => FAULTS[0],
        _ if sum <= SECTORS => return None,
        (8, 1..=8) => FAULTS[1],
        (0, 9) => FAULTS[2],
        _ if sum == SECTORS + 1 => FAULTS[3],
        _ if sum <= 3 * SECTORS => FAULTS[4],
        _ if first.wrapping_add(length) <= SECTORS as u64 => FAULTS[6],
        _ if cut(length) > 0 && cut_sum <= SECTORS => FAULTS[7],
        _ => FAULTS[5],
    })
}

/// The disk sector right behind an extent.
fn disk_end(place: &Place) -> u128 {
    whole(place, extent::SECTOR) + whole(place, extent::LENGTH)
}

/// What is wrong with the end on the disk.
fn disk_fault(place: &Place) -> Option<&'static str> {
    match disk_end(place).checked_sub(1 << 64) {
        None => None,
        Some(0) => Some(FAULTS[8]),
        Some(_) => Some(FAULTS[9]),
    }
}

/// What is wrong with the place on the disk behind the extent before.
fn order_fault(before: &Place, place: &Place) -> Option<&'static str> {
    let (sector, due) = (place[extent::SECTOR], disk_end(before));
    Some(match u128::from(sector) {
        sector if sector == due => return None,
        _ if sector == due as u64 => AT_WRAP,
        _ if sector == before[extent::SECTOR] => FAULTS[10],
        sector if sector + 1 == due => FAULTS[11],
        sector if sector == due + 1 => FAULTS[12],
        _ if cut(sector) == cut(due as u64) => FAULTS[13],
        0 => FAULTS[15],
        _ => FAULTS[14],
    })
}

fn meets(named: &[Place], frames: &[u64]) -> Vec<(&'static str, &'static str)> {
    let behind = |place: &Place| place[extent::FIRST] + place[extent::LENGTH];
    let pairs = named.windows(2).zip(frames.windows(2));
    let mut meets = Vec::new();
    for (pair, frames) in pairs {
        let (end, first) = (behind(&pair[0]), pair[1][extent::FIRST]);
        let own = (pair[0][extent::FRAME], pair[1][extent::FRAME]);
        meets.push((
            meet((frames[0], end), (frames[1], first)),
            meet((own.0, end), (own.1, first)),
        ));
    }
    meets
}

/// How an extent that ends before sector `end` of a frame meets one that begins with `first` of another.
fn meet((frame, end): (u64, u64), (other, first): (u64, u64)) -> &'static str {
    let above = |step| frame.checked_add(step) == Some(other);
    let (turns, goes_on) = ((end, first) == (8, 0), end == first);
    match (frame, other) {
        _ if frame == other && goes_on => JOINED[0],
        _ if above(1) && turns => JOINED[1],
        (u64::MAX, 0) if turns => APART[0],
        _ if frame == other && turns => APART[1],
        _ if other.checked_add(1) == Some(frame) && turns => APART[2],
        _ if above(2) && turns => APART[3],
        _ if cut(frame) + 1 == cut(other) && turns => APART[4],
        _ if turns => APART[5],
        _ if frame == other && first > end => APART[6],
        _ if frame == other => APART[7],
        _ if above(1) && first == 0 => APART[8],
        _ if above(1) && end == 8 => APART[9],
        _ if above(1) && goes_on => APART[10],
        _ if above(1) => APART[11],
        _ if goes_on && cut(frame) == cut(other) => APART[12],
        _ if goes_on => APART[13],
        _ => APART[14],
    }
}

//! Makes joinings: sound ones as plans have them, often, and those that miss by little.

use super::facts::{Facts, Place};
use super::Joining;
use crate::Random;
use kernelharp::words::extent;

const TOP: u64 = u64::MAX;
/// One more than 32 bits hold.
const HIGH: u64 = 1 << 32;

/// Makes joinings; the same seed makes the same ones.
#[derive(Clone, Debug)]
pub struct JoinGenerator {
    random: Random,
    /// In a hundred extents: how many join the one before.
    joins: u64,
}

/// Where an extent ends in the machine's memory: its frame, and the sector behind it, 1 to 8.
type End = (u64, u64);

impl JoinGenerator {
    /// Starts from a seed.
    pub fn new(seed: u64) -> JoinGenerator {
        let random = Random::new(seed);
        JoinGenerator { random, joins: 50 }
    }

    /// Another joining.
    pub fn next_joining(&mut self) -> Joining {
        self.joins = self.random.pick(&[5, 50, 50, 80, 97]);
        let extents = self.extents();
        let (mut places, mut frames) = self.placed(extents);
        let sectors = places.iter().map(|place| place[extent::LENGTH]).sum();
        if let Some(first) = places.first_mut() {
            first[extent::SECTOR] = self.start(sectors);
        }
        lay(&mut places);
        if self.random.chance(30) {
            self.spoil(&mut places);
        }
        let mut joining = Joining {
            count: places.len() as u64,
            extents: places.concat(),
            ..Joining::default()
        };
        self.end(&mut joining);
        self.resize(&mut frames, joining.count);
        joining.frames = frames;
        joining.room = self.room(&joining);
        joining
    }

    /// How many extents: up to those of a plan, and now and then more.
    fn extents(&mut self) -> usize {
        let most = match self.random.below(500) {
            0 => return 1024,
            1..=15 => 40,
            16..=200 => 3,
            _ => 11,
        };
        self.random.index(most + 1)
    }

    /// Extents without their disk sectors, and their machine frames.
    fn placed(&mut self, count: usize) -> (Vec<Place>, Vec<u64>) {
        let (mut places, mut frames) = (Vec::new(), Vec::new());
        let mut end = (self.frame(), self.random.below(9));
        let mut own = self.frame();
        for _ in 0..count {
            let (frame, first) = self.begin(end);
            let room = 8 - first;
            let length = if self.random.chance(60) {
                room
            } else {
                1 + self.random.below(room)
            };
            own = self.own_frame(own, end.1, frame);
            end = (frame, first + length);
            places.push([own, first, length, 0]);
            frames.push(frame);
        }
        (places, frames)
    }

    /// Any frame, often the first or the last ones.
    fn frame(&mut self) -> u64 {
        let (few, any) = (self.random.below(4), self.random.word());
        self.random
            .pick(&[few, TOP - few, TOP - few, HIGH - few, any, any])
    }

    /// Where the next extent begins: behind the one before, or close to that.
    fn begin(&mut self, (frame, end): End) -> (u64, u64) {
        let (next, any) = (frame.wrapping_add(end / 8), self.random.below(8));
        if self.random.chance(self.joins) {
            return (next, end % 8);
        }
        let other = self.frame();
        self.random.pick(&[
            (frame, any),
            (frame, 0),
            (frame.wrapping_add(1), 0),
            (frame.wrapping_add(1), any),
            (frame.wrapping_add(1), end % 8),
            (frame.wrapping_sub(1), 0),
            (frame.wrapping_add(2), 0),
            (next.wrapping_add(HIGH), end % 8),
            (other, end % 8),
            (other, any),
        ])
    }

    /// An extent's own frame, which no joining looks at: it may say another thing than the machine's.
    fn own_frame(&mut self, before: u64, end: u64, machine: u64) -> u64 {
        let (joined, other) = (before.wrapping_add(end / 8), self.frame());
        self.random
            .pick(&[machine, joined, joined, other, other % 1024])
    }

    /// Where so many sectors begin on the disk. Their end may be that of all disks, or beyond it.
    fn start(&mut self, sectors: u64) -> u64 {
        let (any, few) = (self.random.word(), self.random.below(100));
        let last = TOP - sectors;
        if self.random.chance(6) {
            return last.wrapping_add(1 + self.random.below(sectors.max(1)));
        }
        self.random
            .pick(&[0, few, few, any >> 1, HIGH - few, last, last - few])
    }

    /// Makes something of a list that no plan has.
    fn spoil(&mut self, places: &mut [Place]) {
        let times = if self.random.chance(85) { 1 } else { 2 };
        for _ in 0..times {
            if places.is_empty() {
                return;
            }
            let ends = [0, places.len() - 1, self.random.index(places.len())];
            let at = self.random.pick(&ends);
            let before = places[at.saturating_sub(1)][extent::SECTOR];
            self.spoil_place(&mut places[at], before);
            if self.random.chance(80) {
                lay(&mut places[at..]);
            }
        }
    }

    fn spoil_place(&mut self, place: &mut Place, before: u64) {
        let [_, first, length, sector] = place;
        let (any, few) = (self.random.word(), self.random.below(10));
        match self.random.below(17) {
            0 => *length = 0,
            1 => *length = 9_u64.wrapping_sub(*first),
            2 => (*first, *length) = (8, 1 + few % 8),
            3 => (*first, *length) = (0, 9),
            4 => (*first, *length) = (few, self.random.below(10)),
            5 => *first = first.wrapping_add(HIGH),
            6 => *length = length.wrapping_add(HIGH),
            7 => *length = any,
            8 => *first = any,
            9 => {
                *first = TOP - few;
                *length = length.wrapping_add(few);
            }
            10 => *length = TOP - few,
            11 => *sector = sector.wrapping_sub(1),
            12 => *sector = sector.wrapping_add(1),
            13 => *sector = before,
            14 => *sector = sector.wrapping_add(HIGH),
            15 => *sector = 0,
            _ => *sector = any,
        }
    }

    /// What stands behind the extents, and how many are named.
    fn end(&mut self, joining: &mut Joining) {
        let named = joining.count;
        if self.random.chance(4) {
            let missing = 1 + self.random.index(extent::WORDS);
            let words = joining.extents.len().saturating_sub(missing);
            joining.extents.truncate(words);
        } else if self.random.chance(30) {
            let more = self.random.index(20);
            let words = (0..more).map(|_| self.random.word() >> 62);
            joining.extents.extend(words);
        }
        if self.random.chance(12) {
            let places = (joining.extents.len() / extent::WORDS) as u64;
            let (any, fewer) = (self.random.word(), self.random.below(named + 1));
            joining.count = self.random.pick(&[
                places,
                places + 1,
                places + 1,
                named + HIGH,
                1 << 62,
                named + (1 << 62),
                TOP,
                any,
                fewer,
                0,
            ]);
        }
    }

    /// As many machine frames as extents are named, or others.
    fn resize(&mut self, frames: &mut Vec<u64>, count: u64) {
        let due = usize::try_from(count).map_or(frames.len(), |count| count.min(2000));
        let more = due + self.random.index(4);
        let (less, fewer) = (due.saturating_sub(1), self.random.index(due + 1));
        let length = match self.random.below(100) {
            0..=9 => more,
            10..=17 => less,
            18..=23 => fewer,
            24..=27 => 0,
            _ => due,
        };
        let last = frames.last().copied().unwrap_or_default();
        frames.resize(length, last);
    }

    /// As many records as runs, or others.
    fn room(&mut self, joining: &Joining) -> usize {
        let facts = Facts::of(joining);
        let (runs, named) = (facts.runs(), facts.named.len());
        match self.random.below(100) {
            0..=9 => runs.saturating_sub(1),
            10..=17 => 0,
            18..=37 => named,
            38..=57 => named + self.random.index(5),
            58..=62 => runs + 1,
            _ => runs,
        }
    }
}

/// Lays extents on the disk one behind the other, from where the first of them is.
fn lay(places: &mut [Place]) {
    let mut next = places.first().map_or(0, |place| place[extent::SECTOR]);
    for place in places {
        place[extent::SECTOR] = next;
        next = next.wrapping_add(place[extent::LENGTH]);
    }
}

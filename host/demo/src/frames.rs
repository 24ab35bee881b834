//! A guest's granted frames, and where they lie in the machine's memory.

use crate::pattern::SECTOR;
use generate::Random;
use kernelharp::layout::{EXTENTS, PORT_GRANTS, TAGS};
use std::sync::atomic::{AtomicU64, Ordering};

/// Frames that the host may read and write, eleven to a slot of the largest ring.
pub const READ_WRITE_FRAMES: usize = TAGS * EXTENTS;
/// Frames behind them that it may only read, eleven to a slot as far as there are grants.
pub const READ_ONLY_FRAMES: usize = 28 * EXTENTS;
const FRAMES: usize = READ_WRITE_FRAMES + READ_ONLY_FRAMES;
/// A frame that is not granted.
pub const NO_FRAME: u32 = FRAMES as u32;
/// Sectors of a frame.
pub const FRAME_SECTORS: usize = 8;
const SECTOR_WORDS: usize = SECTOR / 8;
const FRAME_WORDS: usize = FRAME_SECTORS * SECTOR_WORDS;

/// The most frames of a stretch that lies together in the machine, and the most between two of them.
const LONGEST_STRETCH: usize = 24;
const LARGEST_GAP: u64 = 2;

/// The grant bytes of a guest.
pub fn grants() -> [u8; PORT_GRANTS] {
    let mut grants = [0; PORT_GRANTS];
    grants[..READ_WRITE_FRAMES].fill(2);
    grants[READ_WRITE_FRAMES..FRAMES].fill(1);
    grants
}

/// The machine frame that a guest's frames lie from on, each guest's apart from the others'.
pub fn begin_of(port: usize) -> u64 {
    match port {
        // Frame 5 of a first request is the machine's last, which has no next; frame 6 is its first.
        0 => u64::MAX - 5,
        _ => (port as u64) << 20,
    }
}

/// The part of the machine's memory that has a guest's frames. The guest may write it at any time, so
/// nobody has a slice of it.
pub struct Frames {
    words: Vec<AtomicU64>,
    /// The machine frame that the words begin with.
    begin: u64,
    /// By guest frame, how many machine frames it lies behind the begin.
    places: Vec<u64>,
}

impl Frames {
    /// Frames that lie in the machine from a frame on. It may be one of the last: then those at the
    /// machine's begin follow it.
    pub fn new(begin: u64, random: &mut Random) -> Frames {
        let places = spread(random);
        let behind = places.iter().max().map_or(0, |last| last + 1);
        let words = behind as usize * FRAME_WORDS;
        Frames {
            words: (0..words).map(|_| AtomicU64::new(0)).collect(),
            begin,
            places,
        }
    }

    /// The machine's number of a guest frame.
    pub fn machine_frame(&self, frame: u32) -> u64 {
        self.begin.wrapping_add(self.places[frame as usize])
    }

    /// Copies whole sectors out of a guest frame.
    pub fn read(&self, frame: u32, first: usize, bytes: &mut [u8]) {
        self.read_machine(self.machine_frame(frame), first as u64, bytes);
    }

    /// Copies whole sectors into a guest frame.
    pub fn write(&self, frame: u32, first: usize, bytes: &[u8]) {
        self.write_machine(self.machine_frame(frame), first as u64, bytes);
    }

    /// Copies whole sectors out of machine frames, from a sector of the first of them on.
    pub fn read_machine(&self, frame: u64, first: u64, bytes: &mut [u8]) {
        let words = self.words_at(frame, first, bytes.len() / 8);
        for (word, bytes) in words.iter().zip(bytes.chunks_exact_mut(8)) {
            bytes.copy_from_slice(&word.load(Ordering::Relaxed).to_ne_bytes());
        }
    }

    /// Copies whole sectors into machine frames, likewise.
    pub fn write_machine(&self, frame: u64, first: u64, bytes: &[u8]) {
        let words = self.words_at(frame, first, bytes.len() / 8);
        for (word, bytes) in words.iter().zip(bytes.chunks_exact(8)) {
            let bytes = bytes.try_into().expect("eight bytes");
            word.store(u64::from_ne_bytes(bytes), Ordering::Relaxed);
        }
    }

    fn words_at(&self, frame: u64, first: u64, words: usize) -> &[AtomicU64] {
        let ahead = first as usize * SECTOR_WORDS;
        // The words of frame 0 stand behind those of 2^64 - 1, but in the machine nothing does.
        let more = (ahead + words).div_ceil(FRAME_WORDS) as u64 - 1;
        let last = frame.checked_add(more);
        assert!(last.is_some(), "nothing is behind the machine's last frame");
        let place = frame.wrapping_sub(self.begin) as usize;
        &self.words[place * FRAME_WORDS + ahead..][..words]
    }
}

/// Places of guest frames: stretches of neighbours, the first of which has all frames of a request. It
/// lies in front; the others lie in any order, with gaps or none between them.
fn spread(random: &mut Random) -> Vec<u64> {
    let (mut stretches, mut end) = (Vec::new(), EXTENTS);
    while end < FRAMES {
        let begin = end;
        end = FRAMES.min(begin + 1 + random.index(LONGEST_STRETCH));
        stretches.push(begin..end);
    }
    let mut places: Vec<u64> = (0..FRAMES as u64).collect();
    let mut next = EXTENTS as u64;
    while !stretches.is_empty() {
        let stretch = stretches.swap_remove(random.index(stretches.len()));
        next += random.below(LARGEST_GAP + 1);
        for (place, at) in places[stretch].iter_mut().zip(next..) {
            (*place, next) = (at, at + 1);
        }
    }
    places
}

#[cfg(test)]
mod tests {
    use super::*;
    use std::collections::HashSet;

    fn frames(begin: u64) -> Frames {
        Frames::new(begin, &mut Random::new(3))
    }

    #[test]
    fn most_neighbours_are_neighbours_in_the_machine() {
        let frames = frames(begin_of(1));
        let numbers: Vec<u64> = (0..NO_FRAME).map(|it| frames.machine_frame(it)).collect();
        let different: HashSet<u64> = numbers.iter().copied().collect();
        assert_eq!(different.len(), FRAMES);
        let neighbours = numbers.windows(2).filter(|pair| pair[0] + 1 == pair[1]);
        let apart = FRAMES - 1 - neighbours.count();
        assert!((FRAMES / 20..FRAMES / 5).contains(&apart), "{apart}");
    }

    /// Guest and host see the same bytes, each by its own numbers.
    #[test]
    fn a_stretch_of_the_machine_has_the_frames_of_the_guest() {
        let frames = frames(begin_of(1));
        let (fives, sixes) = ([5; SECTOR], [6; SECTOR]);
        frames.write(5, FRAME_SECTORS - 1, &fives);
        frames.write(6, 0, &sixes);
        let (machine, mut bytes) = (frames.machine_frame(5), [0; 2 * SECTOR]);
        frames.read_machine(machine, 7, &mut bytes);
        assert_eq!(bytes, *[fives, sixes].concat());
        frames.write_machine(machine, 7, &[8; 2 * SECTOR]);
        let mut bytes = [0; SECTOR];
        frames.read(6, 0, &mut bytes);
        assert_eq!(bytes, [8; SECTOR]);
    }

    #[test]
    #[should_panic = "nothing is behind the machine's last frame"]
    fn no_stretch_goes_past_the_last_frame() {
        let frames = frames(begin_of(0));
        assert_eq!([5, 6].map(|it| frames.machine_frame(it)), [u64::MAX, 0]);
        frames.read_machine(u64::MAX, 0, &mut [0; FRAME_SECTORS * SECTOR]);
        frames.read_machine(u64::MAX, 7, &mut [0; 2 * SECTOR]);
    }
}

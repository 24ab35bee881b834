//! High indices, which a list of calls would take too long to reach: a port that was just opened is set to
//! them in every program, as it would be after so many requests that were taken and answered.

use crate::Random;

/// Chooses how many requests a port passes over. The same seed gives the same numbers.
#[derive(Debug)]
pub struct Skips {
    random: Random,
}

impl Skips {
    /// Starts a list. Its numbers are none of the list's own.
    pub fn new(seed: u64) -> Skips {
        Skips {
            random: Random::new(seed.rotate_left(32)),
        }
    }

    /// For a port that was just opened. Half of them begin at 0; of the others most come to 2^32 soon,
    /// and some begin around a multiple of 64.
    pub fn requests(&mut self) -> Option<u32> {
        let (near, any) = (self.random.below(140) as u32, self.random.word() as u32);
        match self.random.index(8) {
            0..4 => None,
            4..7 => Some(u32::MAX - near),
            _ => Some((any & !63).wrapping_add(near % 8).wrapping_sub(4)),
        }
    }
}

//! Runs: what joining extents takes, where all of them join and where none does.

use crate::programs::DONE;
use kernelharp::words::{extent, JoinWords, JOIN_WORDS};
use kernelharp::{join_extents, Run};

/// The sectors of a frame.
const FRAME_SECTORS: u64 = 8;

/// Extents of whole frames, with all that joining them is lent.
pub struct Joining {
    extents: Vec<u64>,
    machine_frames: Vec<u64>,
    runs: Vec<Run>,
    answer: JoinWords,
    /// How many runs there will be.
    due: u64,
}

impl Joining {
    /// So many extents. In the machine their frames lie together, else no two of them.
    pub fn new(count: usize, together: bool) -> Joining {
        let numbers = || 0..count as u64;
        let (distance, due) = if together { (1, 1) } else { (2, count as u64) };
        Joining {
            extents: numbers().flat_map(whole_frame).collect(),
            machine_frames: numbers().map(|number| distance * number).collect(),
            runs: vec![Run::default(); count],
            answer: [0; JOIN_WORDS],
            due,
        }
    }

    /// Joins them by a call.
    pub fn join(
        &mut self,
        call: impl FnOnce(&[u64], u64, &[u64], &mut [Run], &mut JoinWords) -> u32,
    ) {
        let count = self.machine_frames.len() as u64;
        let (frames, runs, answer) = (&self.machine_frames, &mut self.runs, &mut self.answer);
        let code = call(&self.extents, count, frames, runs, answer);
        let came = (code, self.answer);
        assert_eq!(came, (DONE, [self.due]), "a plan's extents join");
    }
}

/// The words of an extent that follows the one before on the disk.
fn whole_frame(number: u64) -> [u64; extent::WORDS] {
    let mut words = [0; extent::WORDS];
    words[extent::FRAME] = number;
    words[extent::LENGTH] = FRAME_SECTORS;
    words[extent::SECTOR] = FRAME_SECTORS * number;
    words
}

/// Rounds of one call, to count its instructions.
pub fn run(count: usize, together: bool, rounds: usize) {
    let mut joining = Joining::new(count, together);
    for _ in 0..rounds {
        joining.join(join_extents);
    }
}

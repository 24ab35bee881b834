//! A plan's extents joined to runs: what lies together in the machine's memory and on the disk, for one
//! disk call each.

use crate::answers::{Extent, Plan};
use crate::ffi::join_extents;
use crate::layout::EXTENTS;
use crate::lender::outcome;
use crate::terms::Refusal;
use crate::words::{extent, JOIN_WORDS};
use std::fmt;

/// Extents joined to one (rule 17.13): `kh_run`. Sectors of 512 bytes that lie together in the machine's
/// memory, over as many frames as it takes, and on the disk.
#[repr(C)]
#[derive(Clone, Copy, Debug, Default, PartialEq, Eq)]
pub struct Run {
    /// The machine frame that it begins in.
    pub frame: u64,
    /// The first sector within that frame, 0 to 7.
    pub first: u64,
    /// How many sectors, of all its extents together.
    pub length: u64,
    /// Where they begin on the disk.
    pub sector: u64,
}

impl fmt::Display for Run {
    fn fmt(&self, f: &mut fmt::Formatter) -> fmt::Result {
        let (disk, frame) = (self.sector, self.frame);
        write!(f, "{} sectors from disk sector {disk} on, ", self.length)?;
        write!(f, "machine frame {frame} from sector {} on", self.first)
    }
}

impl Plan {
    /// Joins the extents to as few runs as can be, in their order, for a host that reaches guest frames by
    /// the machine's numbers: an extent goes on with the run before it where it begins right behind it, in the
    /// same machine frame or at the start of the frame with the next number, where that one ends with
    /// sector 7. No extent is split, and the runs move just the sectors that the extents move.
    ///
    /// `machine_frames` has the machine's number of each extent's guest frame, one to an extent, in their
    /// order; what is behind the last extent's is not looked at. The runs are put at the front of `runs` and
    /// given back; records behind them stay as they are. As many records as extents are always enough, so
    /// [`EXTENTS`] are for every plan.
    ///
    /// With fewer machine frames than extents it is [`Refusal::TooFewFrames`], with fewer records than runs
    /// [`Refusal::TooFewRuns`], and `runs` stays. No plan of a backend is [`Refusal::NoPlan`].
    ///
    /// ```
    /// use kernelharp::{layout::EXTENTS, Backend, Port, Run, Turn};
    ///
    /// let mut backend = Backend::new()?;
    /// let port = Port::try_from(0)?;
    /// backend.open(port, b"\x03\x01\0\x01\0\x06\0\x03\0\x07\0\x04\0w5122008")?;
    /// backend.grants_mut(port)[5..=6].fill(2);
    /// let ring = backend.ring_mut(port);
    /// ring[65] = 2; // a read of two segments
    /// ring[88..94].copy_from_slice(&[5, 0, 0, 0, 4, 7]); // frame 5, sectors 4 to 7
    /// ring[96..102].copy_from_slice(&[6, 0, 0, 0, 0, 7]); // frame 6, all of it
    /// ring[0] = 1; // req_prod
    /// let Turn::Started(plan) = backend.turn() else { panic!("a start") };
    /// let mut runs = [Run::default(); EXTENTS];
    /// let joined = plan.join(&[0x9000, 0x9001], &mut runs)?;
    /// assert_eq!(joined, [Run { frame: 0x9000, first: 4, length: 12, sector: 0 }]);
    /// assert_eq!(plan.join(&[0x9001, 0x9000], &mut runs)?.len(), 2);
    /// # Ok::<(), Box<dyn std::error::Error>>(())
    /// ```
    pub fn join<'runs>(
        &self,
        machine_frames: &[u64],
        runs: &'runs mut [Run],
    ) -> Result<&'runs [Run], Refusal> {
        let (mut words, mut answer) = ([[0; extent::WORDS]; EXTENTS], [0; JOIN_WORDS]);
        let extents = self.extents();
        for (words, extent) in words.iter_mut().zip(extents) {
            *words = extent.to_words();
        }
        let (words, count) = (words.as_flattened(), extents.len() as u64);
        let code = join_extents(words, count, machine_frames, runs, &mut answer);
        outcome(code)?;
        let [joined] = answer;
        Ok(&runs[..joined as usize])
    }
}

impl Extent {
    /// The extent as a turn's answer has it.
    fn to_words(self) -> [u64; extent::WORDS] {
        let mut words = [0; extent::WORDS];
        words[extent::FRAME] = self.frame.into();
        words[extent::FIRST] = self.first_sector.into();
        words[extent::LENGTH] = self.length.into();
        words[extent::SECTOR] = self.disk_sector;
        words
    }
}

#[cfg(test)]
mod tests {
    use super::*;
    use crate::answers::Turn;
    use crate::words::{kind, turn, TURN_WORDS};
    use std::mem::{offset_of, size_of};

    /// A plan of so many extents as the words of an answer have them.
    fn plan_of(extents: &[[u64; extent::WORDS]]) -> Plan {
        let mut words = [0; TURN_WORDS];
        words[turn::KIND] = kind::STARTED;
        words[turn::EXTENT_COUNT] = extents.len() as u64;
        let written = extents.as_flattened();
        words[turn::EXTENTS..][..written.len()].copy_from_slice(written);
        match Turn::from_words(&words) {
            Some(Turn::Started(plan)) => plan,
            other => panic!("no plan: {other:?}"),
        }
    }

    /// A record that was never filled.
    const STALE: Run = Run {
        frame: 1,
        first: 2,
        length: 3,
        sector: 4,
    };

    /// What runs say, in the order of their fields.
    fn numbers(runs: &[Run]) -> Vec<[u64; 4]> {
        let numbers = runs
            .iter()
            .map(|run| [run.frame, run.first, run.length, run.sector]);
        numbers.collect()
    }

    #[test]
    fn a_run_is_laid_out_as_in_c() {
        let places = [
            offset_of!(Run, frame),
            offset_of!(Run, first),
            offset_of!(Run, length),
            offset_of!(Run, sector),
        ];
        assert_eq!((places, size_of::<Run>()), ([0, 8, 16, 24], 32));
    }

    #[test]
    fn a_run_prints_where_it_lies() {
        let due = "3 sectors from disk sector 4 on, machine frame 1 from sector 2 on";
        assert_eq!(STALE.to_string(), due);
    }

    #[test]
    fn the_words_of_an_extent() {
        let words = [1023, 7, 1, u64::MAX];
        assert_eq!(plan_of(&[words]).extents()[0].to_words(), words);
    }

    /// Three extents in two frames that follow each other, and one elsewhere.
    #[test]
    fn a_plan_is_joined() {
        let plan = plan_of(&[
            [9, 2, 3, 100],
            [9, 5, 3, 103],
            [4, 0, 8, 106],
            [5, 0, 8, 114],
        ]);
        let (frames, mut runs) = ([70, 70, 71, 73, 5], [STALE; EXTENTS]);
        let due = [[70, 2, 14, 100], [73, 0, 8, 114]];
        let joined = plan.join(&frames, &mut runs).unwrap();
        assert_eq!(numbers(joined), due);
        assert_eq!(runs[2..], [STALE; EXTENTS - 2]);
        // Just as many of both as it takes.
        let joined = plan.join(&frames[..4], &mut runs[..2]).unwrap();
        assert_eq!(numbers(joined), due);
    }

    #[test]
    fn a_refused_joining_leaves_the_list() {
        let plan = plan_of(&[[9, 0, 8, 100], [8, 0, 8, 108]]);
        let mut runs = [STALE; 2];
        let refused = plan.join(&[70], &mut runs);
        assert_eq!(refused, Err(Refusal::TooFewFrames));
        let refused = plan.join(&[70, 72], &mut runs[..1]);
        assert_eq!(refused, Err(Refusal::TooFewRuns));
        assert_eq!(plan.join(&[70, 71], &mut []), Err(Refusal::TooFewRuns));
        // Words that no backend answers with.
        let refused = plan_of(&[[9, 0, 9, 100]]).join(&[70], &mut runs);
        assert_eq!(refused, Err(Refusal::NoPlan));
        assert_eq!(runs, [STALE; 2]);
    }

    #[test]
    fn a_plan_without_extents_has_no_runs() {
        assert_eq!(plan_of(&[]).join(&[], &mut []), Ok(&[][..]));
    }
}

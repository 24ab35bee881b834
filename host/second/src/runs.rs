//! A plan's extents joined to runs (section 17): what lies together in the machine's memory and on the
//! disk. No backend and no ring has a part in it (rule 17.1).

use crate::terms::Refusal;

/// Rule 17.2: the words of a place. The first of them, the extent's own frame, is not looked at.
const WORDS: usize = 4;

/// The sectors of a frame, 0 to 7.
const FRAME_SECTORS: u64 = 8;

/// Rule 17.13.
#[derive(Clone, Copy, Debug, Default, PartialEq, Eq)]
pub struct Run {
    /// Its first extent's machine frame.
    pub frame: u64,
    /// Its first extent's first sector.
    pub first: u64,
    /// All its extents' sectors together.
    pub length: u64,
    /// Its first extent's disk sector.
    pub sector: u64,
}

/// Joins as many extents as `count` says, which stand in `words`, and puts the runs at the front of the list
/// (rule 17.15). Gives how many there are (rule 17.14), or the first of refusals 10, 8 and 9 (rule 17.4).
pub fn join_extents(
    words: &[u64],
    count: u64,
    machine_frames: &[u64],
    runs: &mut [Run],
) -> Result<usize, Refusal> {
    let extents = read_all(words, count)?;
    if machine_frames.len() < extents.len() {
        return Err(Refusal::TooFewFrames);
    }
    let joined = join(&extents, machine_frames);
    let Some(front) = runs.get_mut(..joined.len()) else {
        return Err(Refusal::TooFewRuns);
    };
    front.copy_from_slice(&joined);
    Ok(joined.len())
}

/// An extent as it is handed in: numbers of 64 bits, which need not fit anything.
struct Extent {
    first: u64,
    length: u64,
    sector: u64,
}

impl Extent {
    fn read(place: &[u64]) -> Extent {
        Extent {
            first: place[1],
            length: place[2],
            sector: place[3],
        }
    }

    /// Rule 17.6. Sums are whole numbers: none of them wraps.
    fn is_sound(&self) -> bool {
        let behind_in_frame = whole(self.first) + whole(self.length);
        let behind_on_disk = whole(self.sector) + whole(self.length);
        self.length > 0
            && behind_in_frame <= whole(FRAME_SECTORS)
            && behind_on_disk <= whole(u64::MAX)
    }

    /// Rule 17.7.
    fn follows(&self, before: &Extent) -> bool {
        whole(self.sector) == whole(before.sector) + whole(before.length)
    }
}

fn whole(number: u64) -> u128 {
    u128::from(number)
}

/// The extents that are named, or refusal 10. What stands in the places behind them is not looked at
/// (rule 17.8), and words that make no whole place are none.
fn read_all(words: &[u64], count: u64) -> Result<Vec<Extent>, Refusal> {
    let places = words.chunks_exact(WORDS);
    // Rule 17.5.
    if whole(count) > places.len() as u128 {
        return Err(Refusal::NoPlan);
    }
    let extents: Vec<Extent> = places.take(count as usize).map(Extent::read).collect();
    let sound = extents.iter().all(Extent::is_sound);
    let in_order = extents.windows(2).all(|pair| pair[1].follows(&pair[0]));
    if sound && in_order {
        Ok(extents)
    } else {
        Err(Refusal::NoPlan)
    }
}

/// An extent where the machine has it (rule 17.3).
struct Placed<'a> {
    frame: u64,
    extent: &'a Extent,
}

impl Placed<'_> {
    /// The first sector of the frame behind it, 1 to 8.
    fn end(&self) -> u64 {
        self.extent.first + self.extent.length
    }

    /// Rule 17.11: whether it begins right behind another.
    fn joins(&self, before: &Placed) -> bool {
        let in_frame = self.frame == before.frame && self.extent.first == before.end();
        let ends_frame = before.end() == FRAME_SECTORS && self.extent.first == 0;
        // 2^64 - 1 has no next.
        let in_next = ends_frame && before.frame.checked_add(1) == Some(self.frame);
        in_frame || in_next
    }
}

/// Rule 17.12: each extent that joins the one before goes on with its run; each other one begins a run.
fn join(extents: &[Extent], machine_frames: &[u64]) -> Vec<Run> {
    let mut runs: Vec<Run> = Vec::new();
    let mut before: Option<Placed> = None;
    for (extent, &frame) in extents.iter().zip(machine_frames) {
        let placed = Placed { frame, extent };
        match (runs.last_mut(), before) {
            (Some(run), Some(before)) if placed.joins(&before) => run.length += extent.length,
            _ => runs.push(Run {
                frame,
                first: extent.first,
                length: extent.length,
                sector: extent.sector,
            }),
        }
        before = Some(placed);
    }
    runs
}

#[cfg(test)]
mod tests;

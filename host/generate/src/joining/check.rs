//! What is claimed of the runs themselves (rules 17.17 to 17.19), told from what was lent and left: no
//! program takes part.

use super::facts::{places, Facts};
use super::Joining;
use kernelharp::words::extent;
use kernelharp::Run;

/// The longest list of which every grouping is tried.
const TRIED: usize = 9;

/// A sector of the machine's memory, numbered through all frames, and the disk sector that it goes with.
type Moved = (u128, u128);

/// The runs of a joining that was done: they move what its extents move, in order, and no grouping of the
/// extents has fewer.
pub fn check_runs(joining: &Joining, runs: &[Run]) -> Result<(), String> {
    if let Some(refusal) = Facts::of(joining).refusals.first() {
        return Err(format!("done, and refusal {refusal} was due"));
    }
    let named = &places(&joining.extents)[..joining.count as usize];
    let moved: Vec<Vec<Moved>> = named
        .iter()
        .zip(&joining.frames)
        .map(|(place, &frame)| {
            let (first, length) = (place[extent::FIRST], place[extent::LENGTH]);
            sectors([frame, first, length, place[extent::SECTOR]])
        })
        .collect();
    check_moved(&moved.concat(), runs)?;
    check_ends(&moved, runs)?;
    match fewest(&moved) {
        Some(fewest) if fewest != runs.len() => {
            Err(format!("{} runs, and {fewest} would do", runs.len()))
        }
        _ => Ok(()),
    }
}

/// What frame, first sector, length and disk sector say.
fn sectors([frame, first, length, sector]: [u64; 4]) -> Vec<Moved> {
    let machine = 8 * u128::from(frame) + u128::from(first);
    let moved = (0..u128::from(length)).map(|at| (machine + at, u128::from(sector) + at));
    moved.collect()
}

/// Rules 17.18 and 17.19.
fn check_moved(extents: &[Moved], runs: &[Run]) -> Result<(), String> {
    let length: u128 = runs.iter().map(|run| u128::from(run.length)).sum();
    if length != extents.len() as u128 {
        return Err(format!("{length} sectors of {}", extents.len()));
    }
    let moved = runs
        .iter()
        .flat_map(|run| sectors([run.frame, run.first, run.length, run.sector]));
    for (at, (run, extent)) in moved.zip(extents).enumerate() {
        if run != *extent {
            return Err(format!("sector {at} is {run:?}, not {extent:?}"));
        }
    }
    let rising = extents.windows(2).all(|pair| pair[1].1 == pair[0].1 + 1);
    rising
        .then_some(())
        .ok_or_else(|| "a disk sector is left out or moved twice".to_string())
}

/// Rule 17.12: where a run ends, an extent ends.
fn check_ends(extents: &[Vec<Moved>], runs: &[Run]) -> Result<(), String> {
    let mut ends = extents.iter().scan(0, |end, extent| {
        *end += extent.len() as u64;
        Some(*end)
    });
    let mut end = 0;
    for (at, run) in runs.iter().enumerate() {
        end += run.length;
        if !ends.any(|extent| extent == end) {
            return Err(format!("run {at} splits an extent"));
        }
    }
    Ok(())
}

/// The fewest groups that the extents can be put into, each of sectors that lie together. Every grouping is
/// tried: a bit to each two neighbours says whether there is a cut between them.
fn fewest(extents: &[Vec<Moved>]) -> Option<usize> {
    let neighbours = extents.len().checked_sub(1)?;
    if extents.len() > TRIED {
        return None;
    }
    let groupings = (0..1_u32 << neighbours).filter(|cuts| is_allowed(extents, *cuts));
    groupings.map(|cuts| cuts.count_ones() as usize + 1).min()
}

/// Whether each group that the cuts leave lies together in the machine's memory.
fn is_allowed(extents: &[Vec<Moved>], cuts: u32) -> bool {
    let mut before: Option<u128> = None;
    extents.iter().enumerate().all(|(at, extent)| {
        let is_cut = at > 0 && cuts >> (at - 1) & 1 == 1;
        let mut machine = extent.iter().map(|moved| moved.0);
        if is_cut {
            before = machine.next();
        }
        machine.all(|sector| before.replace(sector).is_none_or(|it| it + 1 == sector))
    })
}

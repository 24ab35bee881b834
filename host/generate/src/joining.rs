//! Random joinings of extents (section 17). Each stands by itself: [`run_joins`] makes one after the other of
//! several programs, and stops at the first difference, or where the runs of the first one do not keep what
//! is claimed of them.

mod census;
mod check;
mod facts;
mod generator;
mod run;

pub use census::JoinCensus;
pub use check::check_runs;
pub use generator::JoinGenerator;
pub use run::run_joins;

use crate::programs::code;
use kernelharp::words::JoinWords;
use kernelharp::Run;

/// What a joining is handed, but for the records to be filled.
#[derive(Clone, Debug, Default, PartialEq, Eq)]
pub struct Joining {
    /// The words of the extents, four to a place.
    pub extents: Vec<u64>,
    /// How many of them are named.
    pub count: u64,
    /// The machine frames.
    pub frames: Vec<u64>,
    /// How many records are lent.
    pub room: usize,
}

/// A program: gives 0 when it was done, else the refusal's number; then neither records nor answer have
/// changed.
pub type Joiner<'a> = dyn Fn(&Joining, &mut [Run], &mut JoinWords) -> u32 + 'a;

/// The archive.
pub fn join_by_archive(joining: &Joining, runs: &mut [Run], answer: &mut JoinWords) -> u32 {
    let Joining {
        extents,
        count,
        frames,
        ..
    } = joining;
    kernelharp::join_extents(extents, *count, frames, runs, answer)
}

/// The second program, lent records of its own.
pub fn join_by_second(joining: &Joining, runs: &mut [Run], answer: &mut JoinWords) -> u32 {
    let mut own: Vec<second::Run> = runs.iter().map(for_second).collect();
    let joined = second::join_extents(&joining.extents, joining.count, &joining.frames, &mut own);
    for (run, own) in runs.iter_mut().zip(own) {
        *run = from_second(own);
    }
    code(joined, |count| *answer = [count as u64])
}

fn for_second(run: &Run) -> second::Run {
    second::Run {
        frame: run.frame,
        first: run.first,
        length: run.length,
        sector: run.sector,
    }
}

fn from_second(run: second::Run) -> Run {
    Run {
        frame: run.frame,
        first: run.first,
        length: run.length,
        sector: run.sector,
    }
}

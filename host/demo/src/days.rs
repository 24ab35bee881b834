//! The long part: the guests live for days, half of them over private copies and half over live pages.

use crate::lent::Way;
use crate::profile::profiles;
use crate::report::{print_table, Checks, Counts};
use crate::run::{run, Course, Outcome};
use std::path::Path;
use std::time::Instant;

const BEGIN: &str = "\
Eight guests on eight disk images. Two are game boards that roll their day at different hours,
beside saved scores that must stay untouched; four guests put and collect by the library's
guest's half; three, whose rings have 32-bit records, two pages or both, by a plain front end; one
is hostile and comes back each time with a ring of another layout or size. Every id is to be
answered once, every byte to be read back as it was written, and every meter to count what its
guest saw. What lies together in the machine's memory and on a disk is moved by one disk call.";

/// Runs both halves and prints one table of them.
pub fn show(folder: &Path, seed: u64, rounds: u64) -> Result<(), String> {
    println!("\n{BEGIN}");
    let mut outcomes = Vec::new();
    for (way, rounds) in Way::ALL.into_iter().zip(halves(rounds)) {
        if rounds > 0 {
            outcomes.push(half(folder, way, seed, rounds)?);
        }
    }
    let (counts, checks) = sums(&outcomes);
    print_table(&profiles(), &counts, &checks);
    print_disk_calls(&outcomes);
    println!(
        "meters: as the host and the guests counted, half of them zeroed at each of {} period ends",
        counts.periods
    );
    let bytes: u64 = outcomes.iter().map(|outcome| outcome.bytes).sum();
    println!("images: {bytes} bytes as the guests left them, none behind a disk's end touched");
    Ok(())
}

/// The rounds of each way.
fn halves(rounds: u64) -> [u64; 2] {
    [rounds - rounds / 2, rounds / 2]
}

fn half(folder: &Path, way: Way, seed: u64, rounds: u64) -> Result<Outcome, String> {
    let begin = Instant::now();
    let course = Course {
        way,
        seed,
        rounds,
        hostile: true,
    };
    let outcome = run(&folder.join(format!("{way:?}")), course)
        .map_err(|fault| format!("over {way}: {fault}"))?;
    let total = outcome.counts.total();
    println!(
        "{way:<15} {rounds} rounds, {} requests, {} turns ({} idle, {} sleeps), {:.1} s",
        total.own.0.taken,
        outcome.counts.turns,
        outcome.counts.idle,
        outcome.counts.sleeps,
        begin.elapsed().as_secs_f64()
    );
    Ok(outcome)
}

/// What the host counted and the guests checked in all of them.
fn sums(outcomes: &[Outcome]) -> (Counts, Vec<Checks>) {
    let (mut counts, mut checks) = (Counts::default(), vec![Checks::default(); profiles().len()]);
    for outcome in outcomes {
        counts.add(&outcome.counts);
        for (sum, part) in checks.iter_mut().zip(outcome.checks()) {
            sum.add(part);
        }
    }
    (counts, checks)
}

/// How many disk calls moved the bytes, beside one to each extent.
fn print_disk_calls(outcomes: &[Outcome]) {
    let calls: u64 = outcomes.iter().map(|outcome| outcome.calls).sum();
    let extents: u64 = outcomes.iter().map(|outcome| outcome.extents).sum();
    println!("disk calls to move data: {extents} if each extent had its own, {calls} with extents joined to runs");
}

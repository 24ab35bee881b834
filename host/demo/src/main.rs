//! The demo: a host with eight simulated guests, each on its own disk image, one of them hostile.
//!
//! `demo [SEED [ROUNDS]]`. First the incident: what a guest does to a host that reads its page twice, and
//! not to one that goes by the library. Then days of eight guests, over private copies and over live
//! pages: each is a thread that writes and reads back through its live ring and holds every response and
//! every byte against its own model of the disk. Last, how quickly the good guests are served with the
//! hostile one and without. The exit status is 0 when all of it held, 1 when not, 2 for arguments that
//! are no numbers.

mod batch;
mod compare;
mod days;
mod disk;
mod frames;
mod front;
mod guest;
mod host;
mod hostile;
mod incident;
mod lent;
mod link;
mod old_worker;
mod pace;
mod pattern;
mod profile;
mod race;
mod report;
mod run;
mod scene;
mod serve;
mod tally;
mod volume;
mod waits;
mod wish;

use std::path::PathBuf;
use std::process::ExitCode;
use std::time::Instant;
use std::{env, fs, io};

const SEED: u64 = 1;
/// A hundred days of 24 rounds.
const ROUNDS: u64 = 2400;

fn main() -> ExitCode {
    let Some((seed, rounds)) = arguments() else {
        eprintln!("demo [SEED [ROUNDS]], both numbers, ROUNDS at least 1");
        return ExitCode::from(2);
    };
    println!("A host and its guests: seed {seed}, {rounds} rounds.");
    match demo(seed, rounds) {
        Ok(()) => ExitCode::SUCCESS,
        Err(fault) => {
            println!("FAULT: {fault}");
            ExitCode::FAILURE
        }
    }
}

fn arguments() -> Option<(u64, u64)> {
    let mut numbers = [SEED, ROUNDS];
    for (place, argument) in env::args().skip(1).enumerate() {
        *numbers.get_mut(place)? = argument.parse().ok()?;
    }
    let [seed, rounds] = numbers;
    (rounds > 0).then_some((seed, rounds))
}

fn demo(seed: u64, rounds: u64) -> Result<(), String> {
    let folder = Folder::new("images").map_err(|fault| format!("temporary folder: {fault}"))?;
    let begin = Instant::now();
    incident::show(&folder.0, seed, rounds)?;
    days::show(&folder.0, seed, rounds)?;
    compare::show(&folder.0, seed, rounds)?;
    println!(
        "Every check held, in {:.1} s.",
        begin.elapsed().as_secs_f64()
    );
    Ok(())
}

/// A new folder that goes away with its images.
struct Folder(PathBuf);

impl Folder {
    fn new(part: &str) -> io::Result<Folder> {
        let name = format!("kernelharp-demo-{}-{part}", std::process::id());
        let path = env::temp_dir().join(name);
        fs::create_dir(&path)?;
        // Only what was made here is taken away.
        Ok(Folder(path))
    }
}

impl Drop for Folder {
    fn drop(&mut self) {
        // What stays behind in a temporary folder does no harm.
        let _ = fs::remove_dir_all(&self.0);
    }
}

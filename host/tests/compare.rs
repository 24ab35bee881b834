//! The archive against the second program, over random lists of calls.
//!
//! After each call both must have returned the same number and left the same answer words, ring
//! bytes, grants, sheet and entries; a refused call must have left its answer and every word of the archive's
//! memory; and the checker of demand 3 follows the archive's history over every list. Each answer is
//! handed over to a record of counters, which both must raise alike and as the history says; any words
//! are, too, to records of any numbers. The counts of what occurred are printed, and a class that did
//! not occur fails the test.
//!
//! Half of the ports that are opened begin at indices close to 2^32 or to a multiple of 64: they are set to
//! them in both programs, as they would be after so many requests that were taken and answered, and the
//! checker counts on from there.
//!
//! A completion is compared with the list of one besides, and a list with its completions one by one, on
//! copies of the archive's memory and rings.
//!
//! The guest's half is compared likewise: by itself, on pages that a made-up backend writes, and
//! together with the backend on one page, where what is claimed of both halves is checked as well.
//!
//! - `KH_CALLS`: how many calls of each comparison in all, 2,000,000 unless set. With fewer than that
//!   the classes are printed only.
//! - `KH_SEED`: the first list's seed. List i has seed `KH_SEED` + i, and 20,000 calls.
//!
//! A failure prints the two settings that run its list again up to the call at fault. More calls of
//! another seed: `KH_SEED=7 KH_CALLS=50000000 cargo test --release --test compare -- --nocapture`.

use generate::{run, run_guests, run_halves, Census, Core, Failure, Report};
use generate::{GuestCensus, Halves, HalvesReport};
use kernelharp::{GuestMemory, Memory};
use second::{Backend, Guest};
use std::time::Instant;
use tests::{Exchanged, Twin};

const SEED: u64 = 20_010_000;
const CALLS: u64 = 2_000_000;
const LIST_CALLS: u64 = 20_000;

fn setting(name: &str, usual: u64) -> u64 {
    let set = std::env::var(name);
    set.map_or(usual, |text| text.parse().expect("a number"))
}

/// Runs lists of that many calls in all, by a seed and a number of calls each.
fn run_lists<T>(
    usual: u64,
    mut list: impl FnMut(u64, u64) -> Result<T, Failure>,
    mut add: impl FnMut(T),
) -> u64 {
    let (seed, calls) = (setting("KH_SEED", SEED), setting("KH_CALLS", usual));
    println!("{calls} calls, seeds from {seed}, lists of {LIST_CALLS}");
    for number in 0..calls.div_ceil(LIST_CALLS) {
        let calls = LIST_CALLS.min(calls - LIST_CALLS * number);
        let report = list(seed.wrapping_add(number), calls).unwrap_or_else(|at| {
            let again = format!("KH_SEED={} KH_CALLS={}", at.seed, at.number + 1);
            panic!("program 0 is the archive, 1 the second program\n{at}\nonce more: {again}")
        });
        add(report);
    }
    calls
}

/// One list through both; the archive comes first, so the history is its own.
fn compare(archive: &mut dyn Core, seed: u64, calls: u64) -> Result<Report, Failure> {
    run(&mut [archive, &mut Backend::new()], seed, calls)
}

#[test]
fn archive_and_second_program_agree() {
    let begun = Instant::now();
    let (mut census, mut longest_wait) = (Census::new(), 0);
    let list = |seed, calls| {
        let mut archive = Memory::new().expect("an archive of this package");
        compare(&mut archive, seed, calls)
    };
    let calls = run_lists(CALLS, list, |report| {
        census.add(&report.census);
        longest_wait = longest_wait.max(report.longest_wait);
    });
    print!("{census}");
    println!("longest wait: {longest_wait} turns; {:?}", begun.elapsed());
    let missing = census.missing();
    println!("did not occur: {missing:?}");
    assert!(calls < CALLS || missing.is_empty());
    assert!(calls < CALLS || longest_wait == 7);
}

/// Runs lists through the archive and a program made of it. The two memories are compared at the end of
/// each list.
fn agree_with<C: Core>(lists: u64, calls: u64, made: fn(Memory) -> C, memory: fn(&C) -> &Memory) {
    let begun = Instant::now();
    let seed = setting("KH_SEED", SEED);
    for seed in (0..lists).map(|number| seed.wrapping_add(number)) {
        let mut archive = Memory::new().expect("an archive of this package");
        let mut other = made(archive.clone());
        let agreed = run(&mut [&mut archive, &mut other], seed, calls);
        agreed.map(drop).unwrap_or_else(|at| panic!("{at}"));
        let same = archive == *memory(&other);
        assert!(same, "seed {seed}: the memories differ");
    }
    println!("{:?}", begun.elapsed());
}

/// What is behind a ring of one page, and in the share of a closed port, has no influence on the archive. The
/// lists are short, for their end is where the memories are compared.
#[test]
fn the_archive_and_its_twin_agree() {
    agree_with(75, 2_000, Twin::new, |twin| &twin.core);
}

/// A completion is the list of one, and a list leaves what its completions would leave one by one: looked at
/// after each call.
#[test]
fn completions_and_lists_exchanged_agree() {
    agree_with(25, LIST_CALLS, Exchanged::new, |it| &it.memory);
}

#[test]
fn guests_agree() {
    let begun = Instant::now();
    let mut census = GuestCensus::new();
    let list = |seed, calls| {
        let mut archive = GuestMemory::new().expect("an archive of this package");
        run_guests(&mut [&mut archive, &mut Guest::new()], seed, calls)
    };
    let calls = run_lists(CALLS, list, |report| census.add(&report));
    print!("{census}");
    let missing = census.missing();
    println!("did not occur: {missing:?}; {:?}", begun.elapsed());
    assert!(calls < CALLS || missing.is_empty());
}

#[test]
fn both_halves_agree() {
    let begun = Instant::now();
    let mut report = HalvesReport::new();
    let list = |seed, calls| {
        let archive = Halves {
            backend: &mut Memory::new().expect("an archive of this package"),
            guest: &mut GuestMemory::new().expect("an archive of this package"),
        };
        let second = Halves {
            backend: &mut Backend::new(),
            guest: &mut Guest::new(),
        };
        run_halves(vec![archive, second], seed, calls)
    };
    let calls = run_lists(CALLS, list, |one| report.add(&one));
    print!("{}", report.tally());
    let missing = report.missing();
    println!("did not occur: {missing:?}; {:?}", begun.elapsed());
    assert!(calls < CALLS || missing.is_empty());
}

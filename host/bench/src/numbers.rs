//! Numbers: what reading the node sectors takes when a port is opened, by how many digits it has.

use crate::programs::DONE;
use crate::samples::{self, Timed};
use generate::{Core, Random};
use kernelharp::layout::PORTS;
use kernelharp::Memory;
use second::{Backend, Refusal};
use std::iter::Cycle;
use std::slice::ChunksExact;
use std::time::Instant;

/// The most digits of a number below 2^64. A longer one is refused once it is read.
const MOST_DIGITS: usize = 20;
const SEED: u64 = 1;

/// What a process reads.
struct Load {
    digits: usize,
    /// How many numbers are drawn: many, so that the processor learns none of them.
    numbers: usize,
    /// How many have all their ports opened between two readings of the clock. With one, the clock's own
    /// time would count; many don't stay in the nearest cache.
    backends: usize,
    /// Rounds that are counted.
    rounds: usize,
}

impl Load {
    fn new(digits: usize) -> Load {
        let (numbers, backends, rounds) = if digits > MOST_DIGITS {
            (8, 1, 20)
        } else {
            (1024, 4, 2000)
        };
        Load {
            digits,
            numbers,
            backends,
            rounds,
        }
    }

    /// What an opening gives.
    fn due(&self) -> u32 {
        if self.digits > MOST_DIGITS {
            Refusal::SheetNumber as u32
        } else {
            DONE
        }
    }

    fn sheets(&self) -> Vec<Vec<u8>> {
        let mut random = Random::new(SEED);
        let numbers = (0..self.numbers).map(|_| number(self.digits, &mut random));
        numbers.map(|sectors| sheet(&sectors)).collect()
    }
}

/// A number of so many digits, which begins with no 0. It is below 2^64 wherever it can be.
fn number(digits: usize, random: &mut Random) -> String {
    if digits > MOST_DIGITS {
        let more = (1..digits).map(|_| char::from(b'0' + random.below(10) as u8));
        return std::iter::once('1').chain(more).collect();
    }
    let least = 10u64.pow(digits as u32 - 1);
    let span = least.checked_mul(9).unwrap_or(u64::MAX - least);
    (least + random.below(span)).to_string()
}

/// The nodes 1, 6 and 7: a writable disk of so many sectors of 512 bytes.
fn sheet(sectors: &str) -> Vec<u8> {
    let [low, high] = (sectors.len() as u16).to_le_bytes();
    let contents = [3, 1, 0, 1, 0, 6, 0, 3, 0, 7, 0, low, high];
    [&contents[..], b"w512", sectors.as_bytes()].concat()
}

/// A backend whose ports are closed, and what their last openings gave.
struct Ports<C> {
    backend: C,
    codes: [u32; PORTS],
}

impl<C: Core> Ports<C> {
    fn open(&mut self, sheets: &[Vec<u8>]) {
        for (port, (code, sheet)) in (0..).zip(self.codes.iter_mut().zip(sheets)) {
            *code = self.backend.open(port, sheet);
        }
    }

    fn close(&mut self) {
        for (port, code) in (0..).zip(self.codes) {
            if code == DONE {
                assert_eq!(self.backend.close(port), DONE, "an open port closes");
            }
        }
    }
}

/// A program's backends, and the sheets of one round after the other.
struct Openings<'a, C> {
    backends: Vec<Ports<C>>,
    sheets: Cycle<ChunksExact<'a, Vec<u8>>>,
}

impl<'a, C: Core> Openings<'a, C> {
    fn new(backend: fn() -> C, backends: usize, sheets: &'a [Vec<u8>]) -> Openings<'a, C> {
        let ports = || Ports {
            backend: backend(),
            codes: [DONE; PORTS],
        };
        Openings {
            backends: std::iter::repeat_with(ports).take(backends).collect(),
            sheets: sheets.chunks_exact(PORTS * backends).cycle(),
        }
    }

    fn codes(&self) -> impl Iterator<Item = u32> + '_ {
        self.backends.iter().flat_map(|ports| ports.codes)
    }
}

/// Nanoseconds an opening.
impl<C: Core> Timed<1> for Openings<'_, C> {
    /// Only the openings lie between the clock's readings.
    fn round(&mut self) -> [f64; 1] {
        let sheets = self.sheets.next().expect("a sheet to each port");
        let begun = Instant::now();
        for (ports, sheets) in self.backends.iter_mut().zip(sheets.chunks_exact(PORTS)) {
            ports.open(sheets);
        }
        let span = begun.elapsed();
        self.backends.iter_mut().for_each(Ports::close);
        [span.as_nanos() as f64 / sheets.len() as f64]
    }
}

fn archive() -> Memory {
    Memory::new().expect("an archive of this package")
}

/// One process of a load; every opening's code is compared.
pub fn sample(digits: usize) {
    let load = Load::new(digits);
    let sheets = load.sheets();
    let archive = Openings::new(archive, load.backends, &sheets);
    let second = Openings::new(Backend::new, load.backends, &sheets);
    samples::sample(archive, second, load.rounds, |archive, second| {
        archive.codes().eq(second.codes()) && archive.codes().all(|code| code == load.due())
    });
}

/// Rounds of the archive with one backend, to count its instructions.
pub fn run(digits: usize, rounds: usize) {
    let load = Load::new(digits);
    let sheets = load.sheets();
    let mut archive = Openings::new(archive, 1, &sheets);
    for _ in 0..rounds {
        archive.round();
        assert!(
            archive.codes().all(|code| code == load.due()),
            "what is due"
        );
    }
}

/// The table of all loads.
pub fn print() {
    println!("| digits | archive | second program | ratio | lowest to highest |");
    println!("|---|---|---|---|---|");
    samples::print_lines(
        [1, 8, 15, 16, 20, 65_000].map(|digits: usize| [digits.to_string()]),
        0,
    );
}

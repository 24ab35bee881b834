//! Times: what a turn and a completion take on full rings.

use crate::load::{Load, LOADS};
use crate::programs::{check_answers, Archive, Bench, Program, Second};
use crate::samples::{self, Timed};
use std::time::Instant;

/// Rounds of a process that are counted.
const ROUNDS: usize = 2000;

/// Nanoseconds a request: turn, completion, both together.
impl<P: Program> Timed<3> for Bench<P> {
    /// Only the calls lie between the clock's readings.
    fn round(&mut self) -> [f64; 3] {
        self.refill();
        let begun = Instant::now();
        self.turns();
        let started = Instant::now();
        self.completions();
        let done = Instant::now();
        let spans = [started - begun, done - started, done - begun];
        spans.map(|span| span.as_nanos() as f64 / self.requests() as f64)
    }
}

/// One process of a load.
pub fn sample(load: Load) {
    check_answers(load);
    let archive = Bench::new(Archive::new(), load);
    let second = Bench::new(Second::new(), load);
    samples::sample(archive, second, ROUNDS, Bench::agrees);
}

/// The table of all loads.
pub fn print() {
    println!("| segments | open ports | rings | archive: turn | completion | request | second program: turn | completion | request | ratio | lowest to highest |");
    println!("|---|---|---|---|---|---|---|---|---|---|---|");
    samples::print_lines(LOADS.map(Load::words), 0);
}

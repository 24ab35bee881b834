//! Samples: both programs in one process, in alternating rounds, or one program alone, over several
//! processes.
//!
//! A call's time differs from one run of the same program to the next by more than from round to
//! round. So the rounds are spread over several processes. Each has one load alone, for in a mixture
//! the second program loses more than the archive; the loads' processes take turns, so that what else
//! the machine does meets all loads alike.

use std::process::Command;

/// How many processes a load has.
const PROCESSES: usize = 25;

/// A program that does a round, and gives the nanoseconds of a call in it: one number or several.
pub trait Timed<const CELLS: usize> {
    fn round(&mut self) -> [f64; CELLS];
}

fn median(mut values: Vec<f64>) -> f64 {
    values.sort_by(f64::total_cmp);
    values[values.len() / 2]
}

/// The median of each column.
fn medians<R: AsRef<[f64]>>(rows: &[R]) -> Vec<f64> {
    let column = |cell: usize| rows.iter().map(move |row| row.as_ref()[cell]);
    let cells = 0..rows[0].as_ref().len();
    cells.map(|cell| median(column(cell).collect())).collect()
}

/// One process: the archive's medians, then the second program's, as a line of numbers. A tenth of
/// the rounds come before those that count.
pub fn sample<A: Timed<CELLS>, S: Timed<CELLS>, const CELLS: usize>(
    mut archive: A,
    mut second: S,
    rounds: usize,
    agree: impl Fn(&A, &S) -> bool,
) {
    let (mut ours, mut other) = (Vec::new(), Vec::new());
    let warm_up = rounds / 10;
    for number in 0..warm_up + rounds {
        // Each goes first in every other round.
        if number % 2 == 0 {
            ours.push(archive.round());
            other.push(second.round());
        } else {
            other.push(second.round());
            ours.push(archive.round());
        }
        assert!(agree(&archive, &second), "both did the same");
    }
    let medians = [ours, other].map(|samples| medians(&samples[warm_up..]));
    print_numbers(&medians.concat());
}

/// One process of a program alone: its medians, likewise.
pub fn sample_alone<P: Timed<CELLS>, const CELLS: usize>(mut program: P, rounds: usize) {
    let warm_up = rounds / 10;
    let samples: Vec<_> = (0..warm_up + rounds).map(|_| program.round()).collect();
    print_numbers(&medians(&samples[warm_up..]));
}

fn print_numbers(numbers: &[f64]) {
    let cells: Vec<String> = numbers.iter().map(f64::to_string).collect();
    println!("{}", cells.join(" "));
}

/// What another process prints that samples a load.
fn other_process(load: &[String]) -> Vec<f64> {
    let program = std::env::current_exe().expect("the path of this program");
    let mut sample = Command::new(program);
    let output = sample.arg("sample").args(load).output();
    let output = output.expect("this program once more");
    assert!(output.status.success(), "a sample: {output:?}");
    let line = String::from_utf8(output.stdout).expect("a line of numbers");
    let cells = line.split_whitespace();
    cells.map(|cell| cell.parse().expect("a number")).collect()
}

/// What the processes of each load print, a row to a process.
fn rows<const WORDS: usize, const LOADS: usize>(
    loads: &[[String; WORDS]; LOADS],
) -> [Vec<Vec<f64>>; LOADS] {
    let mut rows = [const { Vec::new() }; LOADS];
    for _ in 0..PROCESSES {
        for (rows, load) in rows.iter_mut().zip(loads) {
            rows.push(other_process(load));
        }
    }
    rows
}

fn cells(medians: &[f64]) -> String {
    let cells: Vec<String> = medians.iter().map(|cell| format!("{cell:.1}")).collect();
    cells.join(" | ")
}

/// A line to a load of one program, which is given by the words that name it: those behind the first,
/// and the medians over the processes.
pub fn print_lines_alone<const WORDS: usize, const LOADS: usize>(loads: [[String; WORDS]; LOADS]) {
    for (rows, load) in rows(&loads).iter().zip(&loads) {
        println!("| {} | {} |", load[1..].join(" | "), cells(&medians(rows)));
    }
}

/// A line to a load, which is given by the words that name it: those from `shown` on, the medians over the
/// processes, the ratio of both programs' last cells, and the lowest and the highest ratio of a single
/// process.
pub fn print_lines<const WORDS: usize, const LOADS: usize>(
    loads: [[String; WORDS]; LOADS],
    shown: usize,
) {
    for (rows, load) in rows(&loads).iter().zip(&loads) {
        let ratio = |cells: &[f64]| cells[cells.len() / 2 - 1] / cells[cells.len() - 1];
        let ratios = || rows.iter().map(|row| ratio(row));
        let (lowest, highest) = (
            ratios().fold(f64::MAX, f64::min),
            ratios().fold(0.0, f64::max),
        );
        let medians = medians(rows);
        let load = load[shown..].join(" | ");
        let (cells, ratio) = (cells(&medians), ratio(&medians));
        println!("| {load} | {cells} | {ratio:.2} | {lowest:.2} to {highest:.2} |");
    }
}

//! What is counted, the progress line, and the table at the end.

use crate::link::Link;
use crate::pattern::SECTOR;
use crate::profile::Profile;
use crate::tally::Tally;
use crate::waits::Waits;
use kernelharp::layout::PORTS;
use kernelharp::{Meter, Plan, Reason, Sheet, Status};
use std::io::{self, IsTerminal, Write};
use std::sync::atomic::Ordering;
use std::time::{Duration, Instant};

const MEBIBYTE: f64 = 1_048_576.0;
/// Reasons are numbered in a row, in which one is withdrawn.
const FIRST_REASON: usize = Reason::UnknownOperation as usize;
const REASONS: usize = Reason::Unaligned as usize - FIRST_REASON + 1;

/// What a guest checked.
#[derive(Clone, Copy, Debug, Default)]
pub struct Checks {
    /// Requests put on the ring, and responses held against them, each once.
    pub own: Tally,
    /// Bytes of frames held against the model of the disk.
    pub bytes: u64,
    pub days_rolled: u64,
    /// Requests that went through the library's guest's half, and those that it refused.
    pub put_by_library: u64,
    pub refused_by_library: u64,
    /// Discards done that were asked to be secure: those due as such, and those due as plain ones.
    pub secure: u64,
    pub secure_as_plain: u64,
}

impl Checks {
    /// Counts a discard that was asked to be secure: it is so where the disk has such ones.
    pub fn count_secure(&mut self, sheet: &Sheet) {
        self.secure += u64::from(sheet.secure_discard);
        self.secure_as_plain += u64::from(!sheet.secure_discard);
    }

    pub fn add(&mut self, other: &Checks) {
        self.own.add(&other.own.0);
        self.bytes += other.bytes;
        self.days_rolled += other.days_rolled;
        self.put_by_library += other.put_by_library;
        self.refused_by_library += other.refused_by_library;
        self.secure += other.secure;
        self.secure_as_plain += other.secure_as_plain;
    }
}

/// What the host counts of a port.
#[derive(Clone, Copy, Debug, Default)]
pub struct PortCounts {
    /// What its meter said, the sum of all periods.
    pub metered: Tally,
    /// What its meter ought to say.
    pub own: Tally,
    pub completed: u64,
    /// Calls that completed something, the most that one of them did, and those that gave a notice.
    pub calls: u64,
    pub longest: usize,
    pub notices: u64,
    /// By reason, from 21.
    pub refused: [u64; REASONS],
    pub overruns: u64,
    pub completions_refused: u64,
    /// Sectors moved between frames and disk.
    pub sectors: u64,
    /// Plans with the secure mark that were carried out.
    pub secure: u64,
}

impl PortCounts {
    pub fn count_refused(&mut self, reason: Reason, status: Status) {
        self.refused[reason as usize - FIRST_REASON] += 1;
        self.own.count_taken();
        self.own.count_answer(status);
    }

    /// Counts a call that completed so many requests.
    pub fn count_call(&mut self, completed: usize, notify: bool) {
        self.calls += 1;
        self.longest = self.longest.max(completed);
        self.notices += u64::from(notify);
    }

    pub fn count_completed(&mut self, plan: &Plan, result: i32, status: Status) {
        self.completed += 1;
        self.own.count_answer(status);
        if result == plan.expected_result() {
            self.secure += u64::from(plan.secure);
            if !plan.extents().is_empty() {
                self.sectors += plan.count;
            }
        }
    }

    fn add(&mut self, other: &PortCounts) {
        self.metered.add(&other.metered.0);
        self.own.add(&other.own.0);
        self.completed += other.completed;
        self.calls += other.calls;
        self.longest = self.longest.max(other.longest);
        self.notices += other.notices;
        for (sum, part) in self.refused.iter_mut().zip(other.refused) {
            *sum += part;
        }
        self.overruns += other.overruns;
        self.completions_refused += other.completions_refused;
        self.sectors += other.sectors;
        self.secure += other.secure;
    }
}

/// What the host counts.
#[derive(Clone, Copy, Debug, Default)]
pub struct Counts {
    pub turns: u64,
    pub idle: u64,
    pub sleeps: u64,
    /// Billing periods that ended while the guests ran.
    pub periods: u64,
    pub ports: [PortCounts; PORTS],
    pub waits: Waits,
}

impl Counts {
    /// Adds what another run counted.
    pub fn add(&mut self, other: &Counts) {
        self.turns += other.turns;
        self.idle += other.idle;
        self.sleeps += other.sleeps;
        self.periods += other.periods;
        for (port, other) in self.ports.iter_mut().zip(&other.ports) {
            port.add(other);
        }
        self.waits.add(&other.waits);
    }

    pub fn total(&self) -> PortCounts {
        let mut total = PortCounts::default();
        self.ports.iter().for_each(|port| total.add(port));
        total
    }
}

/// A line that is rewritten on a terminal.
pub struct Progress {
    rounds: u64,
    terminal: bool,
    shown: Instant,
}

impl Progress {
    pub fn new(rounds: u64) -> Progress {
        Progress {
            rounds,
            terminal: io::stdout().is_terminal(),
            shown: Instant::now(),
        }
    }

    /// Shows how far the slowest guest is.
    pub fn show(&mut self, links: &[Link], counts: &Counts) {
        if !self.terminal || self.shown.elapsed() < Duration::from_millis(100) {
            return;
        }
        self.shown = Instant::now();
        let rounds = links.iter().map(|link| link.rounds.load(Ordering::Relaxed));
        let total = counts.total();
        print!(
            "\r{:>3} %  {} responses, {:.0} MiB moved, {} overruns ",
            100 * rounds.min().unwrap_or(0) / self.rounds,
            total.own.answers(),
            mebibytes(total.sectors),
            total.overruns
        );
        // A line that cannot be shown is no reason to stop.
        let _ = io::stdout().flush();
    }

    /// Makes room for what follows.
    pub fn end(&self) {
        if self.terminal {
            print!("\r{:70}\r", "");
        }
    }
}

/// The table. What was taken and answered is what the meters said.
pub fn print_table(profiles: &[Profile], counts: &Counts, checks: &[Checks]) {
    println!();
    let over = [
        "", "", "", "ring", "", "", "", "", "unsup-", "MiB", "over-", "ids", "MiB",
    ];
    let head = [
        "", "guest", "disk", "bits", "pages", "taken", "okay", "error", "ported", "moved", "runs",
        "checked", "checked",
    ];
    for titles in [over, head] {
        let [port, guest, disk, bits, pages, figures @ ..] = titles;
        let front = row_front(port, guest, disk, bits, pages);
        println!("{}", row(&front, figures.map(str::to_string)));
    }
    let mut sum = Checks::default();
    for (port, (profile, checks)) in profiles.iter().zip(checks).enumerate() {
        let mode = if profile.sheet.writable { "w" } else { "r" };
        let disk = format!("{mode} {}", profile.sheet.sector_size);
        let (port_name, layout, pages) = (port.to_string(), profile.layout(), profile.pages());
        let front = row_front(&port_name, profile.name, &disk, &layout, &pages);
        println!("{}", row(&front, figures(&counts.ports[port], checks)));
        sum.add(checks);
    }
    let front = row_front("", "all", "", "", "");
    println!("{}", row(&front, figures(&counts.total(), &sum)));
    print_legend(&counts.total());
    print_sums(counts, &sum);
}

fn row_front(port: &str, guest: &str, disk: &str, bits: &str, pages: &str) -> String {
    format!("{port:<2}{guest:<21}{disk:>6}{bits:>7}{pages:>6}")
}

fn row(front: &str, figures: [String; 8]) -> String {
    let [taken, okay, error, not_supported, moved, overruns, ids, checked] = figures;
    format!("{front}{taken:>7}{okay:>7}{error:>7}{not_supported:>7}{moved:>8}{overruns:>6}{ids:>8}{checked:>8}")
}

fn figures(counts: &PortCounts, checks: &Checks) -> [String; 8] {
    let Meter {
        taken,
        okay,
        error,
        not_supported,
    } = counts.metered.0;
    [
        taken.to_string(),
        okay.to_string(),
        error.to_string(),
        not_supported.to_string(),
        format!("{:.1}", mebibytes(counts.sectors)),
        counts.overruns.to_string(),
        checks.own.answers().to_string(),
        format!("{:.1}", checks.bytes as f64 / MEBIBYTE),
    ]
}

/// What the columns mean, and why their figures are as high as they are.
const LEGEND: &str = "\
disk: writable or read-only, and its sector size. taken: requests taken off the ring; okay, error,
unsupported: how they were answered. Sound guests are refused too: on purpose they also ask for
what their disk cannot do, or in a wrong way, and see that they are told so and that nothing was
moved. MiB moved: between frames and disk. More is checked: of a read, also of a refused one, each
byte of its frames, those too that the host had to leave alone. ids checked: responses held
against their requests, each once. The hostile guest checks nothing; overruns are of its req_prod,
and its port was closed for each. Refused at once, by reason:";

fn print_legend(total: &PortCounts) {
    println!("{LEGEND}");
    for (number, &count) in (FIRST_REASON as u32..).zip(&total.refused) {
        if count > 0 {
            println!("  {number} {count:>7}  {}", Reason::text(number));
        }
    }
}

fn print_sums(counts: &Counts, checks: &Checks) {
    let total = counts.total();
    println!(
        "secure discards: {} done as such, {} as plain ones on a disk without discard-secure",
        total.secure, checks.secure_as_plain
    );
    println!(
        "turns: {} ({} idle, the host slept {} times); no sound guest waited for more than {} turns",
        counts.turns,
        counts.idle,
        counts.sleeps,
        counts.waits.longest.iter().max().unwrap_or(&0)
    );
    println!(
        "completions: {} done by {} calls, up to {} in one, {} doubled or late ones refused",
        total.completed, total.calls, total.longest, total.completions_refused
    );
    println!(
        "notices of completions: {}, {:.1} completions a notice",
        total.notices,
        total.completed as f64 / total.notices.max(1) as f64
    );
    println!(
        "guest's half: {} requests put and collected, {} malformed ones refused before the ring",
        checks.put_by_library, checks.refused_by_library
    );
    println!(
        "days rolled by the boards: {}, the saved scores untouched after each",
        checks.days_rolled
    );
}

fn mebibytes(sectors: u64) -> f64 {
    (sectors * SECTOR as u64) as f64 / MEBIBYTE
}

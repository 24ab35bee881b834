//! The good guests beside the hostile one and without it: how quickly they are served.

use crate::lent::Way;
use crate::profile::{profiles, Role};
use crate::run::{run, Course, Outcome};
use std::io::{self, IsTerminal};
use std::path::Path;

/// The run is shorter than the long ones by so much.
const SHORTER: u64 = 20;
/// Characters of the longest bar.
const BAR: f64 = 24.0;

const BEGIN: &str = "\
Over live pages. Times are from put to collected; turns: the longest that a request on the ring
waited for the turn that took it. A port with something to serve is served within eight. Rates and
times hang on what else the machine does, the hostile guest's own thread included; turns do not.";

/// Runs the guests twice, and prints a bar for each of the good ones and each run.
pub fn show(folder: &Path, seed: u64, rounds: u64) -> Result<(), String> {
    let rounds = rounds.div_ceil(SHORTER);
    let course = |hostile| Course {
        way: Way::Pages,
        seed,
        rounds,
        hostile,
    };
    let silent = run(&folder.join("silent"), course(false))?;
    let beside = run(&folder.join("beside"), course(true))?;
    println!(
        "\nThe good guests while the hostile one is silent, and beside it: {rounds} rounds each."
    );
    println!("{BEGIN}");
    println!(
        "{:<21}{:<8}{:>11} {:<24}{:>11}{:>11}{:>7}",
        "guest", "hostile", "requests/s", "", "median", "99 %", "turns"
    );
    print_bars(&[("silent", silent), ("there", beside)]);
    Ok(())
}

fn print_bars(runs: &[(&str, Outcome)]) {
    let rates = |run: &(&str, Outcome)| -> Vec<f64> {
        let ends = run.1.ends.iter();
        ends.map(|end| end.pace.rate()).collect()
    };
    let most = runs.iter().flat_map(rates).fold(1.0, f64::max);
    let mark = if io::stdout().is_terminal() {
        "█"
    } else {
        "#"
    };
    for (port, profile) in profiles().iter().enumerate() {
        if profile.role == Role::Hostile {
            continue;
        }
        let mut name = profile.name;
        for (hostile, run) in runs {
            let pace = &run.ends[port].pace;
            let bar = mark.repeat((BAR * pace.rate() / most).ceil() as usize);
            println!(
                "{name:<21}{hostile:<8}{:>11.0} {bar:<24}{:>8} us{:>8} us{:>7}",
                pace.rate(),
                pace.quantile(50),
                pace.quantile(99),
                run.counts.waits.longest[port]
            );
            name = "";
        }
    }
}

//! The benchmark: the archive's calls and the second program's, on full rings of reads and on node
//! sheets with numbers; the archive's guest's half; and its joining of extents to runs.
//!
//! - `bench times`: nanoseconds a request of both programs, over many runs of `bench sample LOAD`.
//! - `bench numbers`: nanoseconds an opening, over many runs of `bench sample DIGITS`.
//! - `bench guest`: nanoseconds a put and a collect, over many runs of `bench sample guest RING`.
//! - `bench lists`: nanoseconds an entry of a list and a single completion, over many runs of
//!   `bench sample lists LOAD LENGTH`.
//! - `bench live`: nanoseconds of each way to serve live rings, over many runs of `bench sample live WAY`.
//! - `bench memory`: what host and guest lend, and the stack of a call.
//! - `bench rounds archive|metered|second LOAD ROUNDS`: rounds of one program, to count its
//!   instructions; `metered` is the archive with a meter to each port.
//! - `bench rounds lists|metered-lists LOAD LENGTH ROUNDS`: the archive's rounds with lists of LENGTH
//!   entries, likewise.
//! - `bench rounds archive DIGITS ROUNDS`: rounds of eight openings, likewise.
//! - `bench rounds guest RING ROUNDS`: rounds of a ring filled and emptied by a guest, likewise.
//! - `bench rounds runs EXTENTS together|apart ROUNDS`: rounds of one joining, likewise.
//! - `bench rounds live WAY single|lists|idle ROUNDS`: rounds of one way, likewise.
//!
//! LOAD is SEGMENTS PORTS RINGS, where the rings of the guests are `64-bit`, `32-bit`, or `both` by
//! turns, of one page each, or `64-bit-two-page` or `32-bit-two-page`; for rounds, SECTOR-SIZE LENGTH may
//! follow: disks of that sector size, and segments of so many sectors. DIGITS is how many the number of sectors has. RING is SEGMENTS REQUESTS ORDER: so
//! many requests are put in a row and answered `as-put` or in `reverse`. WAY is `calls`, `backend`,
//! `pages` or `copies`. `tests/bench` runs all of it.

mod guest;
mod lists;
mod live;
mod load;
mod numbers;
mod programs;
mod runs;
mod samples;
#[allow(unsafe_code)]
mod stack;
mod times;

use load::{Load, Rings};
use programs::{Archive, Bench, Metered, Program, Second};

fn main() {
    let arguments: Vec<String> = std::env::args().skip(1).collect();
    let arguments: Vec<&str> = arguments.iter().map(String::as_str).collect();
    match arguments[..] {
        ["times"] => times::print(),
        ["numbers"] => numbers::print(),
        ["guest"] => guest::print(),
        ["lists"] => lists::print(),
        ["live"] => live::print(),
        ["memory"] => stack::print(),
        ["sample", ref load @ ..] => sample(load),
        ["rounds", ref load @ .., rounds] => count(load, number(rounds)),
        _ => panic!("{USAGE}"),
    }
}

const USAGE: &str = "times, numbers, guest, lists, live, memory, sample LOAD|DIGITS|guest RING|lists LOAD LENGTH|live WAY, rounds archive|metered|second LOAD ROUNDS, rounds lists|metered-lists LOAD LENGTH ROUNDS, rounds archive DIGITS ROUNDS, rounds guest RING ROUNDS, rounds runs EXTENTS together|apart ROUNDS, or rounds live WAY single|lists|idle ROUNDS; LOAD is SEGMENTS PORTS RINGS, for rounds also with SECTOR-SIZE LENGTH, RING is SEGMENTS REQUESTS ORDER";

/// One process of what is timed.
fn sample(load: &[&str]) {
    match *load {
        ["lists", segments, ports, rings, length] => {
            lists::sample(list(segments, ports, rings, length))
        }
        ["guest", segments, requests, order] => guest::sample(ring(segments, requests, order)),
        ["live", way] => live::sample(way),
        [segments, ports, rings] => times::sample(load_of(segments, ports, rings)),
        [digits] => numbers::sample(number(digits)),
        _ => panic!("{USAGE}"),
    }
}

/// Rounds of what has its instructions counted.
fn count(load: &[&str], rounds: usize) {
    match *load {
        [program @ ("lists" | "metered-lists"), segments, ports, rings, length] => {
            let load = list(segments, ports, rings, length);
            lists::run(load, rounds, program == "metered-lists")
        }
        ["guest", segments, requests, order] => guest::run(ring(segments, requests, order), rounds),
        ["runs", extents, place @ ("together" | "apart")] => {
            runs::run(number(extents), place == "together", rounds)
        }
        ["live", way, kind] => live::run(way, kind, rounds),
        ["archive", digits] => numbers::run(number(digits), rounds),
        [program, segments, ports, rings] => {
            run_program(program, load_of(segments, ports, rings), rounds)
        }
        [program, segments, ports, rings, size, length] => {
            let load = load_of(segments, ports, rings).on(number(size) as u32, number(length));
            run_program(program, load, rounds)
        }
        _ => panic!("{USAGE}"),
    }
}

fn number(text: &str) -> usize {
    text.parse().expect("a number")
}

fn load_of(segments: &str, ports: &str, rings: &str) -> Load {
    let rings = Rings::of(rings).expect("64-bit, 32-bit, both, 64-bit-two-page or 32-bit-two-page");
    Load::new(number(segments), number(ports), rings)
}

fn list(segments: &str, ports: &str, rings: &str, length: &str) -> lists::Load {
    lists::Load::new(load_of(segments, ports, rings), number(length))
}

fn ring(segments: &str, requests: &str, order: &str) -> guest::Load {
    let order = guest::Order::of(order).expect("as-put or reverse");
    guest::Load::new(number(segments), number(requests), order)
}

fn run_program(program: &str, load: Load, rounds: usize) {
    match program {
        "archive" => run(Bench::new(Archive::new(), load), rounds),
        "metered" => run(Bench::new(Metered::new(), load), rounds),
        "second" => run(Bench::new(Second::new(), load), rounds),
        other => panic!("{other} is neither archive, metered nor second"),
    }
}

fn run<P: Program>(mut bench: Bench<P>, rounds: usize) {
    for _ in 0..rounds {
        bench.refill();
        bench.turns();
        bench.completions();
    }
}

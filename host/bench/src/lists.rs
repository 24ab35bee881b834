//! Lists of completions: what an entry takes in lists of some length, beside a single completion.
//!
//! Both complete port by port, in the order of the starts. The words of the entries are written outside the
//! timing, where a host writes them as its I/O ends.

use crate::load::{self, Lent, Rings};
use crate::programs::{Archive, Program, DONE, OKAY};
use crate::samples::{self, Timed};
use kernelharp::layout::PORTS;
use kernelharp::words::{entry, many, ManyWords, MANY_WORDS};
use kernelharp::{Completion, Entry, Meter, Serial, Tag};
use std::ops::Range;
use std::time::Instant;

/// Rounds of a process that are counted.
const ROUNDS: usize = 2000;

/// Full rings, and how many entries a list has.
#[derive(Clone, Copy)]
pub struct Load {
    rings: load::Load,
    length: usize,
}

impl Load {
    const ALL: [Load; 7] = [
        Load::of(Rings::BITS64, 1),
        Load::of(Rings::BITS64, 8),
        Load::of(Rings::BITS64, 32),
        Load::of(Rings::BITS64_TWO_PAGES, 1),
        Load::of(Rings::BITS64_TWO_PAGES, 8),
        Load::of(Rings::BITS64_TWO_PAGES, 32),
        Load::of(Rings::BITS64_TWO_PAGES, 64),
    ];

    pub const fn new(rings: load::Load, length: usize) -> Load {
        Load { rings, length }
    }

    /// Of the full load, which is of eleven segments on eight ports.
    const fn of(rings: Rings, length: usize) -> Load {
        Load::new(load::Load::new(11, PORTS, rings), length)
    }

    /// What names it for another process.
    fn words(self) -> [String; 5] {
        let [segments, ports, rings] = self.rings.words();
        let length = self.length.to_string();
        ["lists".to_string(), segments, ports, rings, length]
    }

    /// The requests of a port, among all of them by port.
    fn of_port(self, port: usize) -> Range<usize> {
        let requests = self.rings.requests() / self.rings.ports;
        requests * port..requests * (port + 1)
    }
}

/// The archive with its buffers, and the requests of a round by port.
struct Begun {
    archive: Archive,
    lent: Lent,
    load: Load,
    named: Vec<Completion>,
}

impl Begun {
    fn new(load: Load) -> Begun {
        let mut archive = Archive::new();
        for port in 0..load.rings.ports {
            let opened = archive.open(port as u32, &load.rings.sheet(port));
            assert!(opened, "port {port} opens");
        }
        Begun {
            archive,
            lent: Lent::new(load.rings),
            load,
            named: Vec::new(),
        }
    }

    /// Fills the rings and starts every request.
    fn start(&mut self) {
        self.lent.refill();
        let starts = 0..self.load.rings.requests();
        let turn = |_| self.archive.turn(&mut self.lent);
        self.named = starts.map(turn).collect();
        self.named.sort_by_key(|named| named.port);
    }

    /// Nanoseconds a request.
    fn each(&self, begun: Instant) -> [f64; 1] {
        [begun.elapsed().as_nanos() as f64 / self.named.len() as f64]
    }
}

/// Completes by lists.
struct Listed {
    begun: Begun,
    entries: Vec<Entry>,
    answer: ManyWords,
}

impl Listed {
    fn new(load: Load) -> Listed {
        Listed {
            begun: Begun::new(load),
            entries: Vec::new(),
            answer: [0; MANY_WORDS],
        }
    }

    fn start(&mut self) {
        self.begun.start();
        let named = self.begun.named.iter();
        let entry =
            |named: &Completion| Entry::new(Tag(named.tag), Serial(named.serial), named.result);
        self.entries = named.map(entry).collect();
    }

    /// Completes every request; what each list answered is handed on.
    fn complete(&mut self, mut answered: impl FnMut(usize, &ManyWords)) {
        let Begun {
            archive,
            lent,
            load,
            ..
        } = &mut self.begun;
        for port in 0..load.rings.ports {
            let words = Entry::words(&self.entries[load.of_port(port)]);
            for list in words.chunks(entry::WORDS * load.length) {
                let (memory, rings) = (archive.memory_mut(), lent.lend().0);
                let code = memory.complete_many(rings, port as u32, list, &mut self.answer);
                let count = list.len() / entry::WORDS;
                let came = (code, self.answer[many::COUNT]);
                assert_eq!(came, (DONE, count as u64), "a list of busy tags");
                let statuses = &self.answer[many::STATUSES..][..count];
                assert!(
                    statuses.iter().all(|&it| it == OKAY),
                    "whole reads are okay"
                );
                answered(port, &self.answer);
            }
        }
    }
}

impl Timed<1> for Listed {
    /// Only the calls lie between the clock's readings.
    fn round(&mut self) -> [f64; 1] {
        self.start();
        let begun = Instant::now();
        self.complete(|_, _| ());
        self.begun.each(begun)
    }
}

/// Completes one by one.
struct Single(Begun);

impl Timed<1> for Single {
    fn round(&mut self) -> [f64; 1] {
        self.0.start();
        let Begun {
            archive,
            lent,
            named,
            ..
        } = &mut self.0;
        let begun = Instant::now();
        for named in named {
            archive.complete(lent, *named);
        }
        self.0.each(begun)
    }
}

/// One process of a load.
pub fn sample(load: Load) {
    let (listed, single) = (Listed::new(load), Single(Begun::new(load)));
    samples::sample(listed, single, ROUNDS, |listed, single| {
        listed.begun.lent.same_rings(&single.0.lent)
    });
}

/// Rounds of lists, to count their instructions; with a meter to each port, those of the meters.
pub fn run(load: Load, rounds: usize, metered: bool) {
    let (mut listed, mut meters) = (Listed::new(load), [Meter::default(); PORTS]);
    for _ in 0..rounds {
        listed.start();
        listed.complete(|port, answer| {
            if metered {
                meters[port].many(DONE, answer);
            }
        });
    }
}

/// The table of all loads.
pub fn print() {
    println!("| segments | open ports | rings | entries | entry of a list | single completion | ratio | lowest to highest |");
    println!("|---|---|---|---|---|---|---|---|");
    samples::print_lines(Load::ALL.map(Load::words), 1);
}

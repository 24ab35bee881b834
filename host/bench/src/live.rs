//! What it takes to serve live rings: the calls alone on private rings, and the ways of a host that has
//! guests which write at the same time, with all copies, fences and second looks. The guests fill their
//! rings outside the timing.

use crate::load::{Lent, Load, Rings};
use crate::samples::{self, Timed};
use kernelharp::layout::{Abi, PAGE_BYTES, RING_BYTES};
use kernelharp::live::{
    DirectBackend, LiveBackend, Mapping, Row, SharedRing, PAGE_WORDS, ROW_WORDS,
};
use kernelharp::words::{
    kind, turn, DoneWords, ManyWords, TurnWords, DONE_WORDS, MANY_WORDS, TURN_WORDS,
};
use kernelharp::{
    ArchiveMismatch, Backend, Completion, Done, DoneMany, Entry, Memory, Name, Port, Refusal,
    Serial, Tag, Turn,
};
use std::sync::atomic::{AtomicU32, Ordering};
use std::time::Instant;

/// Eleven segments, eight open ports.
const LOAD: Load = Load::new(11, 8, Rings::BITS64);
/// Rounds of a process that are counted.
const ROUNDS: usize = 1000;
/// Entries of a list.
const ENTRIES: usize = 32;
/// Idle turns of a round.
const IDLE_TURNS: usize = 64;
/// The bytes of a word.
const WORD: usize = PAGE_BYTES / PAGE_WORDS;

/// The ways by name.
const WAYS: [&str; 4] = ["calls", "backend", "pages", "copies"];

/// A host's way to serve.
trait Way {
    /// The guests fill every slot.
    fn refill(&mut self);
    /// What was started; nothing where the turn is idle.
    fn turn(&mut self) -> Option<(Name, i32)>;
    fn complete(&mut self, name: Name, result: i32);
    fn complete_many(&mut self, port: Port, entries: &[Entry]);
}

/// The way of a name: the C functions, or one of the package's backends.
fn way(name: &str) -> Box<dyn Way> {
    let guests = Guests::new();
    match name {
        "calls" => Box::new(Calls::new()),
        "backend" => typed(
            Backend::new(),
            |backend, port, sheet| backend.open(port, sheet).expect(OPENS),
            |backend, rings| {
                for (port, ring) in Port::all().zip(rings.chunks_exact(RING_BYTES)) {
                    backend.ring_mut(port).copy_from_slice(ring);
                }
            },
        ),
        "pages" => typed(
            DirectBackend::new(Row::of_atomics(&guests.0)),
            |backend, port, sheet| backend.open(port, sheet).expect(OPENS),
            |_, rings| guests.fill(rings),
        ),
        "copies" => typed(
            LiveBackend::new(),
            |backend, port, sheet| {
                let page = Mapping::of_atomics(guests.page(port));
                let ring = SharedRing::one_page(page, Abi::Bits64);
                backend.open(port, sheet, ring).expect(OPENS);
            },
            |_, rings| guests.fill(rings),
        ),
        other => panic!("{other} is none of {WAYS:?}"),
    }
}

const OPENS: &str = "a sheet that opens";

fn ports() -> impl Iterator<Item = Port> {
    Port::all().take(LOAD.ports)
}

/// The C functions: the answers are words that are lent again and again.
struct Calls {
    memory: Memory,
    lent: Lent,
    turned: TurnWords,
    done: DoneWords,
    many: ManyWords,
}

impl Calls {
    fn new() -> Calls {
        let mut memory = Memory::new().expect("an archive of this package");
        for port in ports() {
            let code = memory.open(port.number(), &LOAD.sheet(port.index()));
            assert_eq!(code, 0, "{OPENS}");
        }
        Calls {
            memory,
            lent: Lent::new(LOAD),
            turned: [0; TURN_WORDS],
            done: [0; DONE_WORDS],
            many: [0; MANY_WORDS],
        }
    }
}

impl Way for Calls {
    fn refill(&mut self) {
        self.lent.refill();
    }

    fn turn(&mut self) -> Option<(Name, i32)> {
        let (words, (rings, grants)) = (&mut self.turned, self.lent.lend());
        assert_eq!(self.memory.turn(rings, grants, words), 0);
        let started = words[turn::KIND] == kind::STARTED;
        let name = Name {
            port: Port::try_from(words[turn::PORT] as u32).expect("a port"),
            tag: Tag(words[turn::TAG] as u32),
            serial: Serial(words[turn::SERIAL] as u32),
        };
        started.then_some((name, words[turn::COUNT] as i32))
    }

    fn complete(&mut self, name: Name, result: i32) {
        let (rings, named) = (self.lent.lend().0, Completion::of(name, result));
        let code = self.memory.complete(rings, named, &mut self.done);
        assert_eq!(code, 0, "a busy tag");
    }

    fn complete_many(&mut self, port: Port, entries: &[Entry]) {
        let (rings, entries) = (self.lent.lend().0, Entry::words(entries));
        let code = self
            .memory
            .complete_many(rings, port.number(), entries, &mut self.many);
        assert_eq!(code, 0, "busy tags");
    }
}

/// What the package's backends have in common.
trait Calling {
    fn grants(&mut self, port: Port) -> &mut [u8];
    fn turn(&mut self) -> Turn;
    fn complete(&mut self, name: Name, result: i32) -> Result<Done, Refusal>;
    fn complete_many(&mut self, port: Port, entries: &[Entry]) -> Result<DoneMany, Refusal>;
}

macro_rules! calling {
    ($($backend:ty)*) => {
        $(
            impl Calling for $backend {
                fn grants(&mut self, port: Port) -> &mut [u8] {
                    self.grants_mut(port)
                }

                fn turn(&mut self) -> Turn {
                    self.turn()
                }

                fn complete(&mut self, name: Name, result: i32) -> Result<Done, Refusal> {
                    self.complete(name, result)
                }

                fn complete_many(
                    &mut self,
                    port: Port,
                    entries: &[Entry],
                ) -> Result<DoneMany, Refusal> {
                    self.complete_many(port, entries)
                }
            }
        )*
    };
}

calling! { Backend DirectBackend LiveBackend }

/// A backend with typed answers, and how its guests' rings are filled.
struct Typed<B, F> {
    backend: B,
    lent: Lent,
    fill: F,
}

fn typed<B: Calling + 'static>(
    backend: Result<B, ArchiveMismatch>,
    open: impl Fn(&mut B, Port, &[u8]),
    fill: impl Fn(&mut B, &[u8]) + 'static,
) -> Box<dyn Way> {
    let mut backend = backend.expect("an archive of this package");
    for port in ports() {
        open(&mut backend, port, &LOAD.sheet(port.index()));
        backend.grants(port).fill(2);
    }
    let lent = Lent::new(LOAD);
    Box::new(Typed {
        backend,
        lent,
        fill,
    })
}

impl<B: Calling, F: Fn(&mut B, &[u8])> Way for Typed<B, F> {
    fn refill(&mut self) {
        self.lent.refill();
        (self.fill)(&mut self.backend, self.lent.lend().0);
    }

    fn turn(&mut self) -> Option<(Name, i32)> {
        match self.backend.turn() {
            Turn::Started(plan) => Some((plan.name, plan.expected_result())),
            Turn::Idle => None,
            other => panic!("a read of whole frames starts: {other}"),
        }
    }

    fn complete(&mut self, name: Name, result: i32) {
        let done = self.backend.complete(name, result);
        let _ = done.expect("a busy tag");
    }

    fn complete_many(&mut self, port: Port, entries: &[Entry]) {
        let done = self.backend.complete_many(port, entries);
        let _ = done.expect("busy tags");
    }
}

/// Guests' pages in a row.
#[repr(align(4096))]
struct Guests([AtomicU32; ROW_WORDS]);

impl Guests {
    fn new() -> &'static Guests {
        Box::leak(Box::new(Guests([const { AtomicU32::new(0) }; ROW_WORDS])))
    }

    /// A port's first page.
    fn page(&'static self, port: Port) -> &'static [AtomicU32; PAGE_WORDS] {
        let page = &self.0[RING_BYTES / WORD * port.index()..][..PAGE_WORDS];
        page.try_into().expect("a page")
    }

    fn fill(&self, rings: &[u8]) {
        for (word, bytes) in self.0.iter().zip(rings.chunks_exact(WORD)) {
            let bytes = bytes.try_into().expect("a word");
            word.store(u32::from_ne_bytes(bytes), Ordering::Relaxed);
        }
    }
}

/// A way at work.
struct Rounds {
    way: Box<dyn Way>,
    begun: Vec<(Name, i32)>,
}

impl Rounds {
    fn new(name: &str) -> Rounds {
        Rounds {
            way: way(name),
            begun: Vec::with_capacity(LOAD.requests()),
        }
    }

    /// Starts every request.
    fn turns(&mut self) {
        self.begun.clear();
        for _ in 0..LOAD.requests() {
            let started = self.way.turn().expect("a full ring has a request");
            self.begun.push(started);
        }
    }

    fn completions(&mut self) {
        for &(name, result) in &self.begun {
            self.way.complete(name, result);
        }
    }

    /// The entries of each port.
    fn entries(&self) -> Vec<(Port, Vec<Entry>)> {
        let of = |port| {
            let begun = self.begun.iter().filter(|(name, _)| name.port == port);
            begun.map(|&(name, it)| Entry::of(name, it)).collect()
        };
        ports().map(|port| (port, of(port))).collect()
    }

    fn lists(&mut self, entries: &[(Port, Vec<Entry>)]) {
        for (port, entries) in entries {
            for list in entries.chunks(ENTRIES) {
                self.way.complete_many(*port, list);
            }
        }
    }

    fn idle_turns(&mut self) {
        for _ in 0..IDLE_TURNS {
            assert!(self.way.turn().is_none(), "nothing waits");
        }
    }
}

/// Nanoseconds of a turn, a completion, both together, an entry of a list, and an idle turn.
impl Timed<5> for Rounds {
    fn round(&mut self) -> [f64; 5] {
        self.way.refill();
        let begun = Instant::now();
        self.turns();
        let started = Instant::now();
        self.completions();
        let done = Instant::now();
        self.idle_turns();
        let idle = done.elapsed();
        self.way.refill();
        self.turns();
        let (entries, listed) = (self.entries(), Instant::now());
        self.lists(&entries);
        let listed = listed.elapsed();
        let each = LOAD.requests();
        [
            (started - begun, each),
            (done - started, each),
            (done - begun, each),
            (listed, each),
            (idle, IDLE_TURNS),
        ]
        .map(|(span, calls)| span.as_nanos() as f64 / calls as f64)
    }
}

/// One process of a way.
pub fn sample(name: &str) {
    samples::sample_alone(Rounds::new(name), ROUNDS);
}

/// Rounds of a way, to count their instructions: of turns with completions one by one or by lists, and of
/// idle turns.
pub fn run(name: &str, kind: &str, rounds: usize) {
    let mut way = Rounds::new(name);
    for _ in 0..rounds {
        if kind == "idle" {
            way.idle_turns();
            continue;
        }
        way.way.refill();
        way.turns();
        match kind {
            "single" => way.completions(),
            "lists" => way.lists(&way.entries()),
            other => panic!("{other} is none of single, lists, idle"),
        }
    }
}

/// The table of all ways.
pub fn print() {
    println!("| way | turn | completion | request | entry of a list of {ENTRIES} | idle turn |");
    println!("|---|---|---|---|---|---|");
    samples::print_lines_alone(WAYS.map(|way| ["live", way].map(str::to_string)));
}

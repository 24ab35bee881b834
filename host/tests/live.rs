//! Live rings against rings that are lent: after each call of a random list the memory that stands
//! in for the guests' rings holds, byte for byte, what the second program leaves in rings lent to it, and
//! the counters are those of its answers.
//!
//! With private copies the guests of these lists keep their hands off requests that wait, for a live
//! ring's next one is copied when first seen. Each guest has two pages mapped, apart in memory, whatever its
//! port uses. With live pages the guests do as they like.

use frontend::GuestRing;
use generate::{Buffer, Call, Generator, Outcome, Ring, Step, World};
use kernelharp::layout::{ring, PORTS, PORT_GRANTS, RING_BYTES};
use kernelharp::live::{Counters, DirectBackend, LiveBackend, NotOpened, Row, State, ROW_WORDS};
use kernelharp::words::entry;
use kernelharp::{
    Abi, Completion, Done, DoneMany, Entry, Name, Operation, Pages, Port, Refusal, Serial, Status,
    Tag, Turn,
};
use std::collections::HashSet;
use std::sync::atomic::{AtomicU32, Ordering};

/// A backend over live rings, with the guests' memory.
trait Host {
    /// Whether it begins anew when every port is closed.
    const BEGINS_ANEW: bool;

    /// Rings of zeros.
    fn new() -> Self;

    /// A guest writes, at a place of all rings.
    fn write(&mut self, at: usize, bytes: &[u8]);

    /// Whether the guests' rings are these.
    fn holds(&self, rings: &[u8]) -> bool;

    fn grants_mut(&mut self, port: Port) -> &mut [u8; PORT_GRANTS];
    fn open(&mut self, port: Port, sheet: &[u8]) -> Result<(), Refusal>;
    fn close(&mut self, port: Port) -> Result<(), Refusal>;
    fn turn(&mut self) -> Turn;
    fn complete(&mut self, name: Name, result: i32) -> Result<Done, Refusal>;
    fn complete_many(&mut self, port: Port, entries: &[Entry]) -> Result<DoneMany, Refusal>;
    fn counters(&self, port: Port) -> Counters;
}

/// Calls that go to the backend as they are.
macro_rules! handed_on {
    () => {
        fn grants_mut(&mut self, port: Port) -> &mut [u8; PORT_GRANTS] {
            self.backend.grants_mut(port)
        }

        fn turn(&mut self) -> Turn {
            self.backend.turn()
        }

        fn complete(&mut self, name: Name, result: i32) -> Result<Done, Refusal> {
            self.backend.complete(name, result)
        }

        fn complete_many(&mut self, port: Port, entries: &[Entry]) -> Result<DoneMany, Refusal> {
            self.backend.complete_many(port, entries)
        }

        fn counters(&self, port: Port) -> Counters {
            self.backend.counters(port)
        }
    };
}

/// Private copies.
struct Copies {
    rings: [&'static GuestRing; PORTS],
    backend: LiveBackend,
}

impl Host for Copies {
    const BEGINS_ANEW: bool = true;

    fn new() -> Copies {
        let rings = std::array::from_fn(|_| GuestRing::new());
        for ring in &rings {
            ring.write(0, &[0; RING_BYTES]);
        }
        Copies {
            rings,
            backend: LiveBackend::new().expect("an archive of this package"),
        }
    }

    fn write(&mut self, at: usize, bytes: &[u8]) {
        self.rings[at / RING_BYTES].write(at % RING_BYTES, bytes);
    }

    fn holds(&self, rings: &[u8]) -> bool {
        let mut bytes = [0; RING_BYTES];
        self.rings.iter().enumerate().all(|(port, live)| {
            live.read(0, &mut bytes);
            bytes == ring(rings, port)
        })
    }

    fn open(&mut self, port: Port, sheet: &[u8]) -> Result<(), Refusal> {
        let ring = self.rings[port.index()].shared(Abi::of_sheet(sheet), Pages::Two);
        let opened = self.backend.open(port, sheet, ring);
        opened.map_err(|fault| match fault {
            NotOpened::Refused(refusal) => refusal,
            other => panic!("{other}"),
        })
    }

    fn close(&mut self, port: Port) -> Result<(), Refusal> {
        self.backend.close(port).map(drop)
    }

    handed_on!();
}

/// Live pages.
struct LivePages {
    row: &'static [AtomicU32; ROW_WORDS],
    backend: DirectBackend,
}

impl Host for LivePages {
    const BEGINS_ANEW: bool = false;

    fn new() -> LivePages {
        let row = Box::leak(Box::new([const { AtomicU32::new(0) }; ROW_WORDS]));
        let backend = DirectBackend::new(Row::of_atomics(row));
        LivePages {
            row,
            backend: backend.expect("an archive of this package"),
        }
    }

    /// Any bytes: hostile guests write half words too.
    fn write(&mut self, at: usize, bytes: &[u8]) {
        for (at, &byte) in (at..).zip(bytes) {
            let mut word = self.row[at / 4].load(Ordering::Relaxed).to_le_bytes();
            word[at % 4] = byte;
            self.row[at / 4].store(u32::from_le_bytes(word), Ordering::Relaxed);
        }
    }

    fn holds(&self, rings: &[u8]) -> bool {
        let mut words = self.row.iter().zip(rings.chunks_exact(4));
        words.all(|(word, bytes)| word.load(Ordering::Relaxed).to_le_bytes() == bytes)
    }

    fn open(&mut self, port: Port, sheet: &[u8]) -> Result<(), Refusal> {
        self.backend.open(port, sheet)
    }

    fn close(&mut self, port: Port) -> Result<(), Refusal> {
        self.backend.close(port)
    }

    handed_on!();
}

/// The entries of a list. One with a tag or serial beyond 32 bits has none; a result beyond them is another
/// that nothing expects.
fn typed(words: &[u64]) -> Option<Vec<Entry>> {
    let entries = words.chunks_exact(entry::WORDS).map(|words| {
        let [tag, serial] = [entry::TAG, entry::SERIAL].map(|at| u32::try_from(words[at]));
        let result = i32::try_from(words[entry::RESULT] as i64).unwrap_or(i32::MIN);
        Some(Entry::new(Tag(tag.ok()?), Serial(serial.ok()?), result))
    });
    entries.collect()
}

/// A host that is given the calls of a list, and what came of them.
struct Live<H> {
    host: H,
    /// The counters by the second program's answers.
    due: [Counters; PORTS],
    /// The kinds of rings that ports were opened with.
    opened: HashSet<Ring>,
    /// Lists that completed more than one request.
    listed: usize,
}

impl<H: Host> Live<H> {
    fn new() -> Live<H> {
        let host = H::new();
        let mut due = Port::all().map(|port| host.counters(port));
        Live {
            due: std::array::from_fn(|_| due.next().unwrap()),
            host,
            opened: HashSet::new(),
            listed: 0,
        }
    }

    fn write(&mut self, step: &Step) {
        for write in &step.writes {
            match write.buffer {
                Buffer::Rings => self.host.write(write.at, &write.bytes),
                Buffer::Grants => self.grant(write.at, &write.bytes),
            }
        }
    }

    fn grant(&mut self, at: usize, bytes: &[u8]) {
        for (at, &byte) in (at..).zip(bytes) {
            let port = Port::try_from((at / PORT_GRANTS) as u32).unwrap();
            self.host.grants_mut(port)[at % PORT_GRANTS] = byte;
        }
    }

    /// Makes a call, as the second program has answered it; one that the types have no words for
    /// (a port above 7, a buffer of another length) is left out.
    fn call(&mut self, call: &Call, due: &Outcome) {
        let refused = Refusal::from_number(due.code).map_or(Ok(()), Err);
        match *call {
            Call::Turn { .. } => {
                if refused.is_ok() {
                    let turn = Turn::from_words(&due.turned).unwrap();
                    assert_eq!(self.host.turn(), turn);
                    self.count_turn(&turn);
                }
            }
            Call::Open { port, .. }
            | Call::Close { port }
            | Call::CompleteMany { port, .. }
            | Call::Complete {
                named: Completion { port, .. },
                ..
            } => {
                let lengths_are_due = refused != Err(Refusal::WrongLength);
                if let (Ok(port), true) = (Port::try_from(port), lengths_are_due) {
                    self.call_of_port(port, call, refused, due);
                }
            }
        }
    }

    fn call_of_port(
        &mut self,
        port: Port,
        call: &Call,
        refused: Result<(), Refusal>,
        due: &Outcome,
    ) {
        let (host, counters) = (&mut self.host, &mut self.due[port.index()]);
        match *call {
            Call::Open { ref sheet, .. } => {
                assert_eq!(host.open(port, sheet), refused);
                self.opened.extend(refused.map(|()| Ring::of_sheet(sheet)));
                count_change(counters, refused, State::Open);
            }
            Call::Close { .. } => {
                assert_eq!(host.close(port), refused);
                count_change(counters, refused, State::Closed);
            }
            Call::Complete { named, .. } => {
                let name = Name {
                    port,
                    tag: Tag(named.tag),
                    serial: Serial(named.serial),
                };
                let due = refused.map(|()| Done::from_words(&due.done).unwrap());
                assert_eq!(host.complete(name, named.result), due);
                let statuses = due.map(|done| (vec![done.status], done.notify));
                count_responses(counters, statuses);
            }
            Call::CompleteMany { ref entries, .. } => {
                if let Some(entries) = typed(entries) {
                    let due = refused.map(|()| DoneMany::from_words(&due.many).unwrap());
                    assert_eq!(host.complete_many(port, &entries), due);
                    self.listed += usize::from(due.is_ok() && entries.len() > 1);
                    let statuses = due.map(|done| (done.statuses().to_vec(), done.notify));
                    count_responses(counters, statuses);
                }
            }
            Call::Turn { .. } => unreachable!("a turn names no port"),
        }
    }

    fn count_turn(&mut self, turn: &Turn) {
        match turn {
            Turn::Started(plan) => {
                let counters = &mut self.due[plan.name.port.index()];
                counters.in_flight += 1;
                match plan.operation {
                    Operation::Read => counters.reads += 1,
                    Operation::Write => counters.writes += 1,
                    Operation::Barrier => counters.barriers += 1,
                    Operation::Flush => counters.flushes += 1,
                    Operation::Discard => counters.discards += 1,
                    other => panic!("{other}"),
                }
                let sectors = match plan.operation {
                    Operation::Read => &mut counters.sectors_read,
                    Operation::Discard => &mut counters.sectors_discarded,
                    _ => &mut counters.sectors_written,
                };
                *sectors = sectors.saturating_add(plan.count);
            }
            Turn::Answered {
                port,
                reason,
                status,
                notify,
            } => {
                let counters = &mut self.due[port.index()];
                counters.refused[*reason as usize - 21] += 1;
                counters.in_flight += 1;
                count_responses(counters, Ok((vec![*status], *notify)));
            }
            Turn::Overrun(port) => {
                count_change(&mut self.due[port.index()], Ok(()), State::Broken);
            }
            _ => {}
        }
    }
}

/// A port that was opened, closed or overrun, or a refusal.
fn count_change(counters: &mut Counters, refused: Result<(), Refusal>, state: State) {
    if refused.is_ok() {
        counters.state = state;
        match state {
            State::Open => counters.opens += 1,
            State::Closed => counters.closes += 1,
            State::Broken => counters.overruns += 1,
        }
    }
}

/// Responses of what is in flight, or a completion that was refused.
fn count_responses(counters: &mut Counters, given: Result<(Vec<Status>, bool), Refusal>) {
    let Ok((statuses, notify)) = given else {
        counters.completions_refused += 1;
        return;
    };
    counters.in_flight -= statuses.len() as u64;
    counters.notifies += u64::from(notify);
    for status in statuses {
        match status {
            Status::Okay => counters.okay += 1,
            Status::Error => counters.errors += 1,
            Status::NotSupported => counters.not_supported += 1,
        }
    }
}

/// A list of calls, and what came of it.
fn run<H: Host>(seed: u64, mut generator: Generator, calls: usize) -> Live<H> {
    let (mut backend, mut world) = (second::Backend::new(), World::new());
    let mut live = Live::<H>::new();
    for number in 0..calls {
        let step = generator.next_step(&world);
        let outcome = world.run(&mut backend, &step);
        live.write(&step);
        live.call(&step.call, &outcome);
        let same = live.host.holds(world.rings());
        assert!(same, "seed {seed}, step {number}: {:?}", step.call);
        generator.observe(&step.call, &outcome);
        let all_closed = live.due.iter().all(|port| port.state == State::Closed);
        if H::BEGINS_ANEW && all_closed {
            backend = second::Backend::new();
        }
    }
    for port in Port::all() {
        let (came, due) = (live.host.counters(port), live.due[port.index()]);
        assert_eq!(came, due, "seed {seed}");
    }
    let layouts: HashSet<Abi> = live.opened.iter().map(|ring| ring.abi).collect();
    let sizes: HashSet<Pages> = live.opened.iter().map(|ring| ring.pages).collect();
    let kinds = (layouts.len(), sizes.len());
    assert_eq!(kinds, (2, 2), "seed {seed}: both layouts and sizes occur");
    assert!(live.listed > 100, "seed {seed}: {} lists", live.listed);
    live
}

#[test]
fn live_rings_end_up_as_lent_ones() {
    let mut opened = HashSet::new();
    for seed in 1..=10 {
        opened.extend(run::<Copies>(seed, Generator::polite(seed), 10_000).opened);
    }
    assert_eq!(opened.len(), Ring::ALL.len(), "every ring occurs");
}

#[test]
fn live_pages_end_up_as_lent_rings() {
    let (mut opened, mut overruns) = (HashSet::new(), 0);
    for seed in 1..=4 {
        let live = run::<LivePages>(seed, Generator::new(seed), 10_000);
        overruns += live.due.iter().map(|port| port.overruns).sum::<u64>();
        opened.extend(live.opened);
    }
    assert_eq!(opened.len(), Ring::ALL.len(), "every ring occurs");
    assert!(overruns > 10, "{overruns} overruns");
}

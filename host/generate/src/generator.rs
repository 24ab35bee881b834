//! Makes the steps: eight guests of different manners, and a host that mostly does its work.

mod calls;
mod guests;
mod lists;

use crate::{Call, Outcome, Random, Ring, Step, World};
use history::State;
use kernelharp::layout::PORTS;
use kernelharp::words::{entry, kind, turn, TurnWords};
use second::{read_sheet, Disk, Operation};
use std::collections::VecDeque;

/// How a guest treats its ring.
#[derive(Clone, Copy, Debug, PartialEq, Eq)]
enum Manner {
    /// Keeps the ring's rules; a few of its requests are at fault.
    Polite,
    /// Keeps the ring's rules mostly; many of its requests are at fault.
    Careless,
    /// Writes anything anywhere.
    Hostile,
}

/// A request that the host has yet to complete.
#[derive(Clone, Copy, Debug)]
struct Begun {
    tag: u32,
    serial: u32,
    expected: i32,
}

/// What the host and the guest of one port know.
#[derive(Debug)]
struct Guest {
    manner: Manner,
    state: State,
    disk: Option<Disk>,
    /// The ring of its last opening.
    ring: Ring,
    /// The guest's own req_prod.
    produced: u32,
    /// Requests taken, as the host counts them, those passed over too.
    taken: u32,
    begun: Vec<Begun>,
    /// Completed lately, of this or an earlier opening.
    finished: VecDeque<(u32, u32)>,
    /// Just opened: the guest has yet to set up its ring.
    fresh: bool,
}

impl Guest {
    fn new(manner: Manner) -> Guest {
        Guest {
            manner,
            state: State::Closed,
            disk: None,
            ring: Ring::default(),
            produced: 0,
            taken: 0,
            begun: Vec::new(),
            finished: VecDeque::new(),
            fresh: false,
        }
    }

    /// The index of the next response.
    fn answered(&self) -> u32 {
        self.taken.wrapping_sub(self.begun.len() as u32)
    }

    /// How far req_prod may run ahead of the requests taken.
    fn room(&self) -> u32 {
        self.ring.slots() - self.begun.len() as u32
    }
}

/// How much the guests ask for.
#[derive(Clone, Copy, Debug)]
enum Pace {
    Busy,
    Slow,
    Quiet,
    /// One guest has the host to itself, so that its ring fills up.
    Lone(usize),
}

/// Makes steps. The same seed and the same answers give the same steps.
#[derive(Debug)]
pub struct Generator {
    random: Random,
    guests: [Guest; PORTS],
    pace: Pace,
    /// The host hardly completes anything, so that rings fill up.
    host_sleeps: bool,
    begun_grants: bool,
}

/// Guests 0 to 2 are polite so that long runs happen.
const MANNERS: [Manner; PORTS] = [
    Manner::Polite,
    Manner::Polite,
    Manner::Polite,
    Manner::Careless,
    Manner::Careless,
    Manner::Careless,
    Manner::Hostile,
    Manner::Hostile,
];

impl Generator {
    /// Starts a list.
    pub fn new(seed: u64) -> Generator {
        Generator::with_manners(seed, MANNERS)
    }

    /// Starts a list whose guests never write over a request that waits.
    pub fn polite(seed: u64) -> Generator {
        Generator::with_manners(seed, [Manner::Polite; PORTS])
    }

    fn with_manners(seed: u64, manners: [Manner; PORTS]) -> Generator {
        Generator {
            random: Random::new(seed),
            guests: manners.map(Guest::new),
            pace: Pace::Busy,
            host_sleeps: false,
            begun_grants: false,
        }
    }

    /// The next step, with the buffers as the last call left them.
    pub fn next_step(&mut self, world: &World) -> Step {
        self.change_moods();
        let mut writes = Vec::new();
        self.write_grants(&mut writes);
        self.set_up_rings(world, &mut writes);
        self.guests_write(world, &mut writes);
        let call = self.choose_call();
        if let Call::CompleteMany { port, entries, .. } = &call {
            let responses = entries.len() / entry::WORDS;
            self.ask_for_event(*port, responses as u32, &mut writes);
        }
        Step { writes, call }
    }

    /// Learns from the answer, as a host does.
    pub fn observe(&mut self, call: &Call, outcome: &Outcome) {
        if outcome.code != 0 {
            return;
        }
        match *call {
            Call::Open { port, ref sheet } => self.opened(port as usize, sheet),
            Call::Close { port } => self.guests[port as usize].state = State::Closed,
            Call::Turn { .. } => self.turned(&outcome.turned),
            Call::Complete { named, .. } => {
                self.completed(named.port, named.tag, named.serial);
            }
            Call::CompleteMany {
                port, ref entries, ..
            } => {
                for entry in entries.chunks_exact(entry::WORDS) {
                    let [tag, serial] = [entry::TAG, entry::SERIAL].map(|at| entry[at] as u32);
                    self.completed(port, tag, serial);
                }
            }
        }
    }

    fn opened(&mut self, port: usize, sheet: &[u8]) {
        let guest = &mut self.guests[port];
        guest.state = State::Open;
        guest.disk = read_sheet(sheet).ok();
        guest.ring = Ring::of_sheet(sheet);
        guest.taken = 0;
        guest.begun.clear();
        guest.fresh = true;
    }

    /// A port that was just opened has passed over so many requests.
    pub(crate) fn skip(&mut self, port: usize, requests: u32) {
        self.guests[port].taken = requests;
    }

    fn turned(&mut self, words: &TurnWords) {
        let Some(guest) = self.guests.get_mut(words[turn::PORT] as usize) else {
            return;
        };
        match words[turn::KIND] {
            kind::STARTED => {
                guest.taken = guest.taken.wrapping_add(1);
                guest.begun.push(Begun {
                    tag: words[turn::TAG] as u32,
                    serial: words[turn::SERIAL] as u32,
                    expected: expected(words),
                });
            }
            kind::ANSWERED => guest.taken = guest.taken.wrapping_add(1),
            kind::OVERRUN => guest.state = State::Broken,
            _ => {}
        }
    }

    fn completed(&mut self, port: u32, tag: u32, serial: u32) {
        let Some(guest) = self.guests.get_mut(port as usize) else {
            return;
        };
        guest
            .begun
            .retain(|begun| (begun.tag, begun.serial) != (tag, serial));
        guest.finished.push_back((tag, serial));
        if guest.finished.len() > 12 {
            guest.finished.pop_front();
        }
    }

    fn change_moods(&mut self) {
        if self.random.below(150) == 0 {
            let lone = Pace::Lone(self.random.index(PORTS));
            self.pace = self
                .random
                .pick(&[Pace::Busy, Pace::Busy, Pace::Slow, Pace::Quiet, lone]);
        }
        if self.random.below(300) == 0 {
            self.host_sleeps = self.random.chance(25);
        }
    }
}

/// The result that a started request is expected to have (rule 6.9).
pub(crate) fn expected(words: &TurnWords) -> i32 {
    match Operation::from_byte(words[turn::OPERATION] as u8) {
        Some(Operation::Flush | Operation::Discard) => 0,
        _ => words[turn::COUNT] as i32,
    }
}

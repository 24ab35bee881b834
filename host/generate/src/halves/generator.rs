//! Makes the steps of both halves: the guest of one port, and a backend with seven more.

use super::{HalvesOutcome, HalvesStep};
use crate::guest::{any_length, request_of, spoil_words};
use crate::requests::{draft, spoil};
use crate::sheets::sound_sheet;
use crate::{Buffer, Call, Generator, GuestCall, GuestOutcome, Random, Ring, Step, World, Write};
use kernelharp::layout::{
    Abi, GRANTS_BYTES, PAGE_BYTES, PAGE_SLOTS, PORTS, PORT_GRANTS, RINGS_BYTES, RING_BYTES,
};
use kernelharp::words::{collect, request, RequestWords};
use second::{read_sheet, Disk};

/// In a hundred steps: how many are the guest's, and of those how many put.
#[derive(Clone, Copy, Debug)]
struct Pace {
    guest: u64,
    puts: u64,
}

/// Both work, the backend sleeps, the guest sleeps, the guest only puts.
const PACES: [Pace; 4] = [
    Pace {
        guest: 40,
        puts: 50,
    },
    Pace {
        guest: 98,
        puts: 85,
    },
    Pace { guest: 1, puts: 50 },
    Pace {
        guest: 40,
        puts: 95,
    },
];

/// Makes steps. The same seed and the same answers give the same steps.
pub struct HalvesGenerator {
    random: Random,
    /// The host, and the guests of the other ports.
    others: Generator,
    port: usize,
    sheet: Vec<u8>,
    disk: Disk,
    /// In some lists the port is closed on the way, and the guest goes on.
    may_close: bool,
    opened: bool,
    closed: bool,
    pace: Pace,
    outstanding: Vec<u64>,
}

impl HalvesGenerator {
    pub fn new(seed: u64) -> HalvesGenerator {
        let mut random = Random::new(!seed);
        let (sheet, disk) = loop {
            let sheet = sound_sheet(&mut random);
            match read_sheet(&sheet) {
                Ok(disk) if Ring::of_sheet(&sheet) == Ring::from(Abi::Bits64) => {
                    break (sheet, disk)
                }
                _ => {}
            }
        };
        HalvesGenerator {
            others: Generator::new(seed),
            port: (seed % PORTS as u64) as usize,
            random,
            sheet,
            disk,
            may_close: seed % 5 == 4,
            opened: false,
            closed: false,
            pace: PACES[0],
            outstanding: Vec::new(),
        }
    }

    /// The port whose guest it is.
    pub fn port(&self) -> usize {
        self.port
    }

    pub fn next_step(&mut self, world: &World) -> HalvesStep {
        if self.random.below(250) == 0 {
            self.pace = self.random.pick(&PACES);
        }
        if self.random.chance(self.pace.guest) && !self.is_stuck() {
            return HalvesStep::Guest(self.choose_guest_call(world));
        }
        let mut step = self.others.next_step(world);
        step.writes.retain(|write| !self.is_ours(write));
        if !self.opened && self.random.chance(5) {
            step.call = Call::Open {
                port: self.port as u32,
                sheet: self.sheet.clone(),
            };
        } else {
            self.keep_port(&mut step.call);
        }
        HalvesStep::Backend(step)
    }

    /// A full ring is tried now and then, and left to the backend otherwise.
    fn is_stuck(&mut self) -> bool {
        self.outstanding.len() == PAGE_SLOTS && self.random.chance(60)
    }

    /// Whether a write is one to the page that only the two halves write. Behind it, in the port's share,
    /// anybody may write.
    fn is_ours(&self, write: &Write) -> bool {
        let page = RING_BYTES * self.port;
        write.buffer == Buffer::Rings && (page..page + PAGE_BYTES).contains(&write.at)
    }

    /// The port is opened once, by its own sheet, and closed where that may be.
    fn keep_port(&mut self, call: &mut Call) {
        let ours = self.port as u32;
        let stays = match *call {
            Call::Open { port, .. } if port == ours => self.opened && !self.closed,
            Call::Close { port } if port == ours => self.may_close && self.random.chance(30),
            _ => true,
        };
        if !stays {
            *call = Call::Turn {
                rings_bytes: RINGS_BYTES,
                grants_bytes: GRANTS_BYTES,
            };
        }
    }

    pub fn observe(&mut self, step: &HalvesStep, outcome: &HalvesOutcome) {
        match (step, outcome) {
            (HalvesStep::Guest(call), HalvesOutcome::Guest(outcome)) => {
                self.observe_guest(call, outcome);
            }
            (HalvesStep::Backend(Step { call, .. }), HalvesOutcome::Backend(outcome)) => {
                let (ours, done) = (self.port as u32, outcome.code == 0);
                match *call {
                    Call::Open { port, .. } if port == ours => self.opened |= done,
                    Call::Close { port } if port == ours => self.closed |= done,
                    _ => self.others.observe(call, outcome),
                }
            }
            _ => unreachable!("a call and its own outcome"),
        }
    }

    fn observe_guest(&mut self, call: &GuestCall, outcome: &GuestOutcome) {
        if outcome.code != 0 {
            return;
        }
        match call {
            GuestCall::Put { request, .. } => self.outstanding.push(request[request::ID]),
            GuestCall::Collect { .. } => {
                let ended = outcome.collected[collect::ID];
                if outcome.collected[collect::FOUND] == 1 {
                    self.outstanding.retain(|&id| id != ended);
                }
            }
        }
    }

    fn choose_guest_call(&mut self, world: &World) -> GuestCall {
        let page_bytes = any_length(&mut self.random);
        if self.random.chance(self.pace.puts) {
            let request = Box::new(self.choose_request(world));
            GuestCall::Put {
                page_bytes,
                request,
            }
        } else {
            GuestCall::Collect { page_bytes }
        }
    }

    /// A request that the guest's half lets pass, whatever the backend says of it; now and then one
    /// that it refuses.
    fn choose_request(&mut self, world: &World) -> RequestWords {
        let random = &mut self.random;
        let grants = &world.grants()[PORT_GRANTS * self.port..][..PORT_GRANTS];
        let any = random.word();
        let mut id = random.pick(&[any, any % 100]);
        if random.chance(4) && !self.outstanding.is_empty() {
            id = random.pick(&self.outstanding);
        }
        let operation = random.pick(&[0, 0, 1, 1, 2, 3, 5]);
        let mut draft = draft(random, operation, &self.disk, grants);
        if random.chance(25) {
            let number = 27 + random.below(3);
            spoil(random, number, &mut draft, &self.disk, grants);
        }
        let mut words = request_of(random, &draft, id);
        if random.chance(4) {
            spoil_words(random, &mut words);
        }
        words
    }
}

//! Makes a guest's steps: times in which the ring fills, and times in which it drains.

use super::responder::Responder;
use super::words::{any_length, request_of, spoil_words};
use super::{GuestCall, GuestOutcome, GuestStep, PageWrite};
use crate::requests::draft;
use crate::Random;
use kernelharp::layout::{PAGE_BYTES, PAGE_SLOTS, PORT_GRANTS};
use kernelharp::words::{collect, request, RequestWords};
use second::{Disk, Layout};

/// The known operations.
pub const OPERATIONS: [u8; 5] = [0, 1, 2, 3, 5];

/// A disk on which every request has room: no guest knows the limits of its disk here.
const DISK: Disk = Disk {
    writable: true,
    barrier: true,
    flush: true,
    discard: true,
    secure: true,
    sector_size: 512,
    sectors: u64::MAX,
    layout: Layout::BITS_64,
    slots: PAGE_SLOTS as u32,
};

/// In a hundred steps: how many are puts, and before how many the backend answers.
#[derive(Clone, Copy, Debug)]
struct Pace {
    puts: u64,
    answers: u64,
}

const PACES: [Pace; 4] = [
    // The ring fills up.
    Pace {
        puts: 88,
        answers: 3,
    },
    Pace {
        puts: 50,
        answers: 30,
    },
    Pace {
        puts: 50,
        answers: 50,
    },
    // It gets empty.
    Pace {
        puts: 15,
        answers: 60,
    },
];

/// Makes steps. The same seed and the same answers give the same steps.
#[derive(Debug)]
pub struct GuestGenerator {
    random: Random,
    backend: Responder,
    pace: Pace,
    hostile: bool,
    begun: bool,
}

impl GuestGenerator {
    /// Starts a list.
    pub fn new(seed: u64) -> GuestGenerator {
        GuestGenerator {
            random: Random::new(seed),
            backend: Responder::on_any_page(),
            pace: PACES[0],
            hostile: false,
            begun: false,
        }
    }

    /// The next step.
    pub fn next_step(&mut self) -> GuestStep {
        if self.random.below(60) == 0 {
            self.pace = self.random.pick(&PACES);
        }
        if self.random.below(100) == 0 {
            self.hostile = self.random.chance(50);
        }
        let mut writes = Vec::new();
        self.set_up_page(&mut writes);
        self.backend_writes(&mut writes);
        let page_bytes = any_length(&mut self.random);
        let call = if self.random.chance(self.pace.puts) {
            let request = Box::new(self.choose_request());
            GuestCall::Put {
                page_bytes,
                request,
            }
        } else {
            GuestCall::Collect { page_bytes }
        };
        GuestStep { writes, call }
    }

    /// Learns from the answer.
    pub fn observe(&mut self, call: &GuestCall, outcome: &GuestOutcome) {
        if outcome.code != 0 {
            return;
        }
        match call {
            GuestCall::Put { request, .. } => {
                let operation = request[request::OPERATION] as u8;
                self.backend.was_put((request[request::ID], operation));
            }
            GuestCall::Collect { .. } => {
                let words = &outcome.collected;
                if words[collect::FOUND] == 1 {
                    let operation = words[collect::OPERATION] as u8;
                    self.backend.was_collected((words[collect::ID], operation));
                }
            }
        }
    }

    /// Half of the lists begin on a page of any bytes.
    fn set_up_page(&mut self, writes: &mut Vec<PageWrite>) {
        if !std::mem::replace(&mut self.begun, true) && self.random.chance(50) {
            let mut bytes = vec![0; PAGE_BYTES];
            self.random.fill(&mut bytes);
            writes.push(PageWrite { at: 0, bytes });
        }
    }

    fn backend_writes(&mut self, writes: &mut Vec<PageWrite>) {
        let random = &mut self.random;
        if random.chance(self.pace.answers) {
            self.backend.act_soundly(random, writes);
        }
        if random.chance(30) {
            self.backend.ask_for_event(random, writes);
        }
        if self.hostile && random.chance(25) {
            self.backend.misbehave(random, writes);
        }
    }

    fn choose_request(&mut self) -> RequestWords {
        let id = self.choose_id();
        let random = &mut self.random;
        let operation = random.pick(&OPERATIONS);
        let mut draft = draft(random, operation, &DISK, &[2; PORT_GRANTS]);
        let any = random.word();
        draft.start = random.pick(&[draft.start, 0, u64::MAX, any]);
        for segment in &mut draft.segments {
            let any = random.word() as u32;
            segment.frame = random.pick(&[segment.frame, 0, u32::MAX, any]);
        }
        let mut words = request_of(random, &draft, id);
        if random.chance(25) {
            spoil_words(random, &mut words);
            // Two faults are refused as one.
            if random.chance(10) {
                spoil_words(random, &mut words);
            }
        } else if random.chance(2) {
            words = words.map(|_| random.word());
        }
        words
    }

    /// Mostly one that is not outstanding; more often one that is when the ring is full.
    fn choose_id(&mut self) -> u64 {
        let random = &mut self.random;
        let any = random.word();
        let known = self.backend.any_outstanding(random).map(|(id, _)| id);
        let full = self.backend.outstanding() == PAGE_SLOTS;
        match random.index(20) {
            0 => known.unwrap_or(any),
            1..=6 if full => known.unwrap_or(any),
            1 => known.unwrap_or(any) ^ 1 << random.index(64),
            2 | 3 => self.backend.any_ended(random).map_or(any, |(id, _)| id),
            4 => random.pick(&[0, 1, 1 << 32, 1 << 63, u64::MAX]),
            5..=9 => random.below(1000),
            _ => any,
        }
    }
}

//! What a host does with its records of counters beside the calls of a list (section 15).
//!
//! The eight ports' records get each answer as rule 15.6 asks, and are zeroed now and then: these the
//! history accounts for. A [`Trial`] is made of a record that no history accounts for: it stands
//! anywhere, close to its end too, and is raised by any words.

use crate::{Call, Core, Outcome, Random, UNTOUCHED};
use history::Record;
use kernelharp::layout::PORTS;
use kernelharp::words::{
    done, kind, many, turn, DoneWords, ManyWords, TurnWords, DONE_WORDS, MANY_WORDS, TURN_WORDS,
};
use kernelharp::Meter;
use std::hint::black_box;

/// Words in the place of a turn's kind.
pub const KINDS: [u64; 12] = [
    kind::IDLE,
    kind::STARTED,
    kind::ANSWERED,
    kind::OVERRUN,
    4,
    5,
    1 << 32,
    (1 << 32) + 1,
    (1 << 32) + 2,
    (1 << 63) + 1,
    u64::MAX - 1,
    u64::MAX,
];

/// Words in the place of a status: the three, and what cut or signed ones would be taken for.
pub const STATUSES: [u64; 13] = [
    0,
    1,
    2,
    3,
    0xFFFE,
    0xFFFF,
    1 << 16,
    1 << 32,
    (1 << 32) + 1,
    (1 << 32) + 2,
    1 << 63,
    u64::MAX - 1,
    u64::MAX,
];

/// Words in the place of a list's number of entries: those that there is room for, and others.
pub const COUNTS: [u64; 11] = [
    0,
    1,
    2,
    63,
    64,
    65,
    67,
    1 << 32,
    (1 << 32) + 1,
    1 << 63,
    u64::MAX,
];

/// What a call can return that is not done, and what none does.
pub const REFUSALS: [u32; 10] = [1, 2, 4, 6, 7, 15, 255, 1 << 16, 1 << 31, u32::MAX];

/// What the records next to those in use hold.
const NEIGHBOUR: Meter = meter_of([UNTOUCHED; 4]);

/// The numbers of a record in their order.
pub fn numbers(meter: &Meter) -> Record {
    [meter.taken, meter.okay, meter.error, meter.not_supported]
}

/// The record of these numbers.
pub const fn meter_of([taken, okay, error, not_supported]: Record) -> Meter {
    Meter {
        taken,
        okay,
        error,
        not_supported,
    }
}

/// One host's records, with a neighbour on each side, and the answers that it lends again and again:
/// after a refused call they hold what an earlier one left.
#[derive(Debug, PartialEq, Eq)]
pub struct Records {
    meters: [Meter; PORTS + 2],
    turned: TurnWords,
    done: DoneWords,
    many: ManyWords,
}

impl Records {
    /// Records of zeros.
    pub fn new() -> Records {
        let mut meters = [Meter::default(); PORTS + 2];
        (meters[0], meters[PORTS + 1]) = (NEIGHBOUR, NEIGHBOUR);
        Records {
            meters,
            turned: [UNTOUCHED; TURN_WORDS],
            done: [UNTOUCHED; DONE_WORDS],
            many: [UNTOUCHED; MANY_WORDS],
        }
    }

    /// A port's record.
    pub fn of(&self, port: usize) -> Meter {
        self.meters[1 + port]
    }

    /// All of them, for the checker.
    pub fn all(&self) -> [Record; PORTS] {
        std::array::from_fn(|port| numbers(&self.of(port)))
    }

    /// Hands the answer of a turn, a completion or a list over to a port's record.
    pub fn hand_over(&mut self, core: &dyn Core, port: usize, call: &Call, outcome: &Outcome) {
        let meter = &mut self.meters[1 + port];
        let was_done = outcome.code == 0;
        match call {
            Call::Turn { .. } => {
                if was_done {
                    self.turned = outcome.turned;
                }
                core.meter_turn(meter, outcome.code, &self.turned);
            }
            Call::Complete { .. } => {
                if was_done {
                    self.done = outcome.done;
                }
                core.meter_completion(meter, outcome.code, &self.done);
            }
            Call::CompleteMany { .. } => {
                if was_done {
                    self.many = outcome.many;
                }
                core.meter_many(meter, outcome.code, &self.many);
            }
            Call::Open { .. } | Call::Close { .. } => {}
        }
    }

    /// What is not the same in two hosts' records.
    pub fn difference(&self, other: &Records) -> String {
        let mut pairs = self.meters.iter().zip(&other.meters);
        match pairs.position(|(one, other)| one != other) {
            Some(at) => {
                let (one, other) = (&self.meters[at], &other.meters[at]);
                format!("record {at}, 1 being port 0's: {one:?} and {other:?}")
            }
            None => "words of an answer that was handed over".into(),
        }
    }

    /// Rule 15.5.
    pub fn zero(&mut self, port: usize) {
        self.meters[1 + port] = Meter::default();
    }
}

/// The port that a call's answer names; none of a refused call, an idle turn, an open or a close.
pub fn named_port(call: &Call, outcome: &Outcome) -> Option<usize> {
    if outcome.code != 0 {
        return None;
    }
    match call {
        Call::Turn { .. } if outcome.turned[turn::KIND] != kind::IDLE => {
            Some(outcome.turned[turn::PORT] as usize)
        }
        Call::Complete { .. } => Some(outcome.done[done::PORT] as usize),
        Call::CompleteMany { .. } => Some(outcome.many[many::PORT] as usize),
        _ => None,
    }
}

/// The words of an answer.
#[derive(Clone, Debug, PartialEq, Eq)]
pub enum Words {
    /// A turn's.
    Turn(Box<TurnWords>),
    /// A completion's.
    Completion(DoneWords),
    /// A list's.
    Many(Box<ManyWords>),
}

/// Words handed over to a record, each of any value, some times in a row.
#[derive(Debug)]
pub struct Trial {
    /// The record before.
    pub meter: Meter,
    /// What the call is said to have returned.
    pub returned: u32,
    /// Its answer.
    pub words: Words,
    times: usize,
}

impl Trial {
    /// The record as a program leaves it. Neither its neighbours nor the words may change.
    pub fn run(&self, core: &dyn Core) -> Result<Meter, String> {
        let mut meters = [NEIGHBOUR, self.meter, NEIGHBOUR];
        let words = self.words.clone();
        for _ in 0..self.times {
            match &words {
                Words::Turn(words) => core.meter_turn(&mut meters[1], self.returned, words),
                Words::Completion(words) => {
                    core.meter_completion(&mut meters[1], self.returned, words);
                }
                Words::Many(words) => core.meter_many(&mut meters[1], self.returned, words),
            }
        }
        // What is lent to be read counts as unchanged; this makes the compiler look.
        if *black_box(&words) != self.words {
            return Err("a hand-over changed the answer's words".into());
        }
        if (meters[0], meters[2]) != (NEIGHBOUR, NEIGHBOUR) {
            return Err("a hand-over changed another record".into());
        }
        Ok(meters[1])
    }
}

/// Chooses what the host does with its records. The same seed and the same answers give the same deeds.
#[derive(Debug)]
pub struct Billing {
    random: Random,
}

impl Billing {
    /// Starts a list. Its numbers are none of the list's own, so that the calls stay as they are.
    pub fn new(seed: u64) -> Billing {
        Billing {
            random: Random::new(!seed),
        }
    }

    /// Whose record an answer is handed to: that of the port it names, else any (rule 15.8).
    pub fn record(&mut self, call: &Call, outcome: &Outcome) -> usize {
        named_port(call, outcome).unwrap_or_else(|| self.random.index(PORTS))
    }

    /// Now and then a record to be zeroed.
    pub fn zeroing(&mut self) -> Option<usize> {
        (self.random.below(512) == 0).then(|| self.random.index(PORTS))
    }

    /// Now and then a trial, of a call's own answer or of words made up.
    pub fn trial(&mut self, call: &Call, outcome: &Outcome) -> Option<Trial> {
        if self.random.below(16) != 0 {
            return None;
        }
        let own = self.random.chance(25);
        let (returned, words) = match call {
            Call::Turn { .. } if own => (outcome.code, Words::Turn(Box::new(outcome.turned))),
            Call::Complete { .. } if own => (outcome.code, Words::Completion(outcome.done)),
            Call::CompleteMany { .. } if own => (outcome.code, Words::Many(Box::new(outcome.many))),
            _ => (self.any_returned(), self.any_words()),
        };
        Some(Trial {
            meter: meter_of(std::array::from_fn(|_| self.any_number())),
            returned,
            words,
            times: 1 + self.random.index(3),
        })
    }

    /// A number of a record: mostly one close to its end.
    fn any_number(&mut self) -> u64 {
        let any = self.random.word();
        let near = u64::MAX - any % 3;
        self.random
            .pick(&[near, near, near, 0, u64::from(u32::MAX), u64::MAX >> 1, any])
    }

    fn any_returned(&mut self) -> u32 {
        match self.random.index(16) {
            0..=11 => 0,
            12 => self.random.word() as u32,
            _ => self.random.pick(&REFUSALS),
        }
    }

    fn any_status(&mut self) -> u64 {
        let any = self.random.word();
        let other = self.random.pick(&[0, 1, 2, any]);
        self.one_of(&STATUSES, other)
    }

    fn any_words(&mut self) -> Words {
        if self.random.chance(40) {
            let mut words = [0; MANY_WORDS].map(|_: u64| self.any_status());
            let any_count = self.random.below(70);
            words[many::COUNT] = self.one_of(&COUNTS, any_count);
            return Words::Many(Box::new(words));
        }
        let status = self.any_status();
        if self.random.chance(40) {
            let mut words = [0; DONE_WORDS].map(|_: u64| self.random.word());
            words[done::STATUS] = status;
            return Words::Completion(words);
        }
        let mut words = [0; TURN_WORDS].map(|_: u64| self.random.word());
        let any_kind = self.random.pick(&[kind::ANSWERED, words[turn::KIND]]);
        words[turn::KIND] = self.one_of(&KINDS, any_kind);
        words[turn::STATUS] = status;
        Words::Turn(Box::new(words))
    }

    /// One of the words, or now and then another.
    fn one_of(&mut self, words: &[u64], other: u64) -> u64 {
        if self.random.chance(30) {
            other
        } else {
            self.random.pick(words)
        }
    }
}

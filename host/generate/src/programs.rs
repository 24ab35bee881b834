//! What is compared: programs with the calls and the counters as the C interface has them.

use kernelharp::words::{done, extent, kind, many, turn};
use kernelharp::words::{DoneWords, ManyWords, TurnWords, DONE_WORDS, MANY_WORDS, TURN_WORDS};
use kernelharp::{Completion, Memory, Meter};
use second::{Backend, Done, DoneMany, Plan, Refusal, Turned};

/// A list of completions, as a call is handed it.
#[derive(Clone, Copy, Debug)]
pub struct List<'a> {
    /// The port named.
    pub port: u32,
    /// The words of its entries, three to each where they are whole ones.
    pub entries: &'a [u64],
}

/// The calls over slices of any length. Each gives 0 when it was done, else the refusal's
/// number; then nothing that was lent has changed, `answer` included. And what raises a record of
/// counters, which is no part of the program.
pub trait Core {
    /// `kh_open`
    fn open(&mut self, port: u32, sheet: &[u8]) -> u32;
    /// `kh_close`
    fn close(&mut self, port: u32) -> u32;
    /// `kh_turn`
    fn turn(&mut self, rings: &mut [u8], grants: &[u8], answer: &mut TurnWords) -> u32;
    /// `kh_complete`
    fn complete(&mut self, rings: &mut [u8], named: Completion, answer: &mut DoneWords) -> u32;
    /// `kh_complete_many`
    fn complete_many(&mut self, rings: &mut [u8], list: List, answer: &mut ManyWords) -> u32;
    /// `kh_meter_turn`
    fn meter_turn(&self, meter: &mut Meter, returned: u32, answer: &TurnWords);
    /// `kh_meter_completion`
    fn meter_completion(&self, meter: &mut Meter, returned: u32, answer: &DoneWords);
    /// `kh_meter_many`
    fn meter_many(&self, meter: &mut Meter, returned: u32, answer: &ManyWords);

    /// No call: a port that was just opened is as after so many requests, each taken and answered.
    fn skip(&mut self, port: usize, requests: u32);

    /// The words that a refused call must leave as they are; none where a program has no such words.
    fn memory(&self) -> &[u64] {
        &[]
    }
}

/// Backend memory has so many words to a port, and among them its two indices.
const PORT_WORDS: usize = 269;
const REQ_CONS: usize = 10;
const RSP_PROD_PVT: usize = 11;

/// The archive.
impl Core for Memory {
    fn open(&mut self, port: u32, sheet: &[u8]) -> u32 {
        Memory::open(self, port, sheet)
    }

    fn close(&mut self, port: u32) -> u32 {
        Memory::close(self, port)
    }

    fn turn(&mut self, rings: &mut [u8], grants: &[u8], answer: &mut TurnWords) -> u32 {
        Memory::turn(self, rings, grants, answer)
    }

    fn complete(&mut self, rings: &mut [u8], named: Completion, answer: &mut DoneWords) -> u32 {
        Memory::complete(self, rings, named, answer)
    }

    fn complete_many(&mut self, rings: &mut [u8], list: List, answer: &mut ManyWords) -> u32 {
        Memory::complete_many(self, rings, list.port, list.entries, answer)
    }

    fn meter_turn(&self, meter: &mut Meter, returned: u32, answer: &TurnWords) {
        meter.turn(returned, answer);
    }

    fn meter_completion(&self, meter: &mut Meter, returned: u32, answer: &DoneWords) {
        meter.completion(returned, answer);
    }

    fn meter_many(&self, meter: &mut Meter, returned: u32, answer: &ManyWords) {
        meter.many(returned, answer);
    }

    fn skip(&mut self, port: usize, requests: u32) {
        let port = &mut self.words_mut()[PORT_WORDS * port..][..PORT_WORDS];
        port[REQ_CONS] = u64::from(requests);
        port[RSP_PROD_PVT] = u64::from(requests);
    }

    fn memory(&self) -> &[u64] {
        self.words()
    }
}

/// The second program, its answers put into words.
impl Core for Backend {
    fn open(&mut self, port: u32, sheet: &[u8]) -> u32 {
        code(Backend::open(self, port, sheet), |()| {})
    }

    fn close(&mut self, port: u32) -> u32 {
        code(Backend::close(self, port), |()| {})
    }

    fn turn(&mut self, rings: &mut [u8], grants: &[u8], answer: &mut TurnWords) -> u32 {
        code(Backend::turn(self, rings, grants), |turned| {
            *answer = turn_words(&turned);
        })
    }

    fn complete(&mut self, rings: &mut [u8], named: Completion, answer: &mut DoneWords) -> u32 {
        code(Backend::complete(self, rings, for_second(named)), |done| {
            *answer = done_words(&done);
        })
    }

    fn complete_many(&mut self, rings: &mut [u8], list: List, answer: &mut ManyWords) -> u32 {
        let done = Backend::complete_many(self, rings, list.port, list.entries);
        code(done, |done| *answer = many_words(&done))
    }

    fn meter_turn(&self, meter: &mut Meter, returned: u32, answer: &TurnWords) {
        lend(meter, |own| own.turn_words(returned, answer));
    }

    fn meter_completion(&self, meter: &mut Meter, returned: u32, answer: &DoneWords) {
        lend(meter, |own| own.completion_words(returned, answer));
    }

    fn meter_many(&self, meter: &mut Meter, returned: u32, answer: &ManyWords) {
        lend(meter, |own| own.many_words(returned, answer));
    }

    fn skip(&mut self, port: usize, requests: u32) {
        Backend::skip(self, port, requests);
    }
}

/// Lends a record to the second program as one of its own.
fn lend(meter: &mut Meter, raise: impl FnOnce(&mut second::Meter)) {
    let mut own = second::Meter {
        taken: meter.taken,
        okay: meter.okay,
        error: meter.error,
        not_supported: meter.not_supported,
    };
    raise(&mut own);
    *meter = Meter {
        taken: own.taken,
        okay: own.okay,
        error: own.error,
        not_supported: own.not_supported,
    };
}

/// Hands an answer on, or gives the refusal's number.
pub(crate) fn code<T>(outcome: Result<T, Refusal>, store: impl FnOnce(T)) -> u32 {
    match outcome {
        Ok(answer) => {
            store(answer);
            0
        }
        Err(refusal) => refusal as u32,
    }
}

/// A completion as the second program takes it.
pub fn for_second(named: Completion) -> second::Completion {
    second::Completion {
        port: named.port,
        tag: named.tag,
        serial: named.serial,
        result: named.result,
    }
}

/// A turn of the second program in the words of the C interface; what is not named is 0.
pub fn turn_words(turned: &Turned) -> TurnWords {
    let mut words = [0; TURN_WORDS];
    match *turned {
        Turned::Idle => words[turn::KIND] = kind::IDLE,
        Turned::Started(ref plan) => fill(plan, &mut words),
        Turned::Answered {
            port,
            reason,
            status,
            notify,
        } => {
            words[turn::KIND] = kind::ANSWERED;
            words[turn::PORT] = u64::from(port);
            words[turn::REASON] = reason as u64;
            words[turn::STATUS] = magnitude(status);
            words[turn::NOTIFY] = u64::from(notify);
        }
        Turned::Overrun { port } => {
            words[turn::KIND] = kind::OVERRUN;
            words[turn::PORT] = u64::from(port);
        }
    }
    words
}

fn fill(plan: &Plan, words: &mut TurnWords) {
    words[turn::KIND] = kind::STARTED;
    words[turn::PORT] = u64::from(plan.port);
    words[turn::TAG] = u64::from(plan.tag);
    words[turn::SERIAL] = u64::from(plan.serial);
    words[turn::OPERATION] = plan.operation as u64;
    words[turn::START] = plan.start;
    words[turn::COUNT] = plan.count;
    words[turn::SECURE] = u64::from(plan.secure);
    words[turn::EXTENT_COUNT] = plan.extents.len() as u64;
    let places = words[turn::EXTENTS..].chunks_exact_mut(extent::WORDS);
    for (place, extent) in places.zip(&plan.extents) {
        place[extent::FRAME] = u64::from(extent.frame);
        place[extent::FIRST] = u64::from(extent.first_sector);
        place[extent::LENGTH] = extent.length;
        place[extent::SECTOR] = extent.disk_sector;
    }
}

/// A completion of the second program in the words of the C interface.
pub fn done_words(answer: &Done) -> DoneWords {
    let mut words = [0; DONE_WORDS];
    words[done::PORT] = u64::from(answer.port);
    words[done::STATUS] = magnitude(answer.status);
    words[done::NOTIFY] = u64::from(answer.notify);
    words
}

/// A list of the second program in the words of the C interface; what is not named is 0.
pub fn many_words(answer: &DoneMany) -> ManyWords {
    let mut words = [0; MANY_WORDS];
    words[many::PORT] = u64::from(answer.port);
    words[many::COUNT] = answer.statuses.len() as u64;
    words[many::NOTIFY] = u64::from(answer.notify);
    let places = words[many::STATUSES..].iter_mut();
    for (word, status) in places.zip(&answer.statuses) {
        *word = magnitude(*status);
    }
    words
}

/// A status without its sign.
fn magnitude(status: second::Status) -> u64 {
    u64::from((status as i16).unsigned_abs())
}

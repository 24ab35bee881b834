//! A program that completes in the other way: by a list where one completion is asked for, and one by one
//! where a list is.

use generate::{Core, List, UNTOUCHED};
use kernelharp::words::{done, entry, many, DoneWords, ManyWords, TurnWords};
use kernelharp::words::{DONE_WORDS, MANY_WORDS};
use kernelharp::{Completion, Entry, Memory, Meter, Refusal, Serial, Tag};

const DONE: u32 = 0;
const NOT_BUSY: u32 = Refusal::NotBusy as u32;

/// The archive, whose completions are made both ways, on copies of the same memory and rings. Both ways
/// must leave the same of them, every word and byte, and answer alike; a list notifies where one of its
/// completions does. Beside the archive itself it must then answer alike, too.
pub struct Exchanged {
    /// The archive's memory.
    pub memory: Memory,
}

impl Exchanged {
    /// A program whose ports are closed.
    pub fn new(memory: Memory) -> Exchanged {
        Exchanged { memory }
    }

    /// The entries of a list one after the other. Gives the answer that the list is due, or the refusal of
    /// the first that is refused.
    fn one_by_one(
        &mut self,
        rings: &mut [u8],
        port: u32,
        entries: &[u64],
    ) -> Result<ManyWords, u32> {
        let mut answer = [0; MANY_WORDS];
        answer[many::PORT] = u64::from(port);
        for (at, entry) in entries.chunks_exact(entry::WORDS).enumerate() {
            let done = self.single(rings, port, entry)?;
            answer[many::COUNT] += 1;
            answer[many::NOTIFY] |= done[done::NOTIFY];
            answer[many::STATUSES + at] = done[done::STATUS];
        }
        Ok(answer)
    }

    /// One entry as a completion. No tag or serial of more than 32 bits is busy, and a result of more is
    /// one that nothing expects.
    fn single(&mut self, rings: &mut [u8], port: u32, entry: &[u64]) -> Result<DoneWords, u32> {
        let number = |at: usize| u32::try_from(entry[at]).map_err(|_| NOT_BUSY);
        let named = Completion {
            port,
            tag: number(entry::TAG)?,
            serial: number(entry::SERIAL)?,
            result: i32::try_from(entry[entry::RESULT] as i64).unwrap_or(i32::MIN),
        };
        let mut words = [UNTOUCHED; DONE_WORDS];
        match self.memory.complete(rings, named, &mut words) {
            DONE => Ok(words),
            code => Err(code),
        }
    }

    /// The other way has left the same.
    fn check_same(&self, other: &Exchanged, rings: &[u8], other_rings: &[u8]) {
        assert!(self.memory == other.memory, "other words of memory");
        assert!(rings == other_rings, "other bytes of the rings");
    }
}

impl Core for Exchanged {
    fn open(&mut self, port: u32, sheet: &[u8]) -> u32 {
        self.memory.open(port, sheet)
    }

    fn close(&mut self, port: u32) -> u32 {
        self.memory.close(port)
    }

    fn turn(&mut self, rings: &mut [u8], grants: &[u8], answer: &mut TurnWords) -> u32 {
        self.memory.turn(rings, grants, answer)
    }

    fn complete(&mut self, rings: &mut [u8], named: Completion, answer: &mut DoneWords) -> u32 {
        let (mut other, mut other_rings) = (Exchanged::new(self.memory.clone()), rings.to_vec());
        let (mut words, mut single) = ([UNTOUCHED; MANY_WORDS], [UNTOUCHED; DONE_WORDS]);
        let entry = Entry::new(Tag(named.tag), Serial(named.serial), named.result);
        let entries = Entry::words(std::slice::from_ref(&entry));
        let memory = &mut self.memory;
        let code = memory.complete_many(rings, named.port, entries, &mut words);
        let other_code = other.memory.complete(&mut other_rings, named, &mut single);
        assert_eq!(code, other_code, "the list of one and the completion");
        self.check_same(&other, rings, &other_rings);
        if code == DONE {
            assert_eq!(words[many::COUNT], 1);
            *answer = [0; DONE_WORDS];
            answer[done::PORT] = words[many::PORT];
            answer[done::STATUS] = words[many::STATUSES];
            answer[done::NOTIFY] = words[many::NOTIFY];
            assert_eq!(*answer, single);
        } else {
            assert_eq!(words, [UNTOUCHED; MANY_WORDS]);
        }
        code
    }

    fn complete_many(&mut self, rings: &mut [u8], list: List, answer: &mut ManyWords) -> u32 {
        let (mut other, mut other_rings) = (Exchanged::new(self.memory.clone()), rings.to_vec());
        let (memory, List { port, entries }) = (&mut self.memory, list);
        let code = memory.complete_many(rings, port, entries, answer);
        // The other refusals no completion by itself has.
        if code == DONE || code == NOT_BUSY {
            let one_by_one = other.one_by_one(&mut other_rings, port, entries);
            match one_by_one {
                Ok(due) => {
                    assert_eq!((code, *answer), (DONE, due));
                    self.check_same(&other, rings, &other_rings);
                }
                Err(refusal) => assert_eq!(code, refusal),
            }
        }
        code
    }

    fn meter_turn(&self, meter: &mut Meter, returned: u32, answer: &TurnWords) {
        meter.turn(returned, answer);
    }

    /// By the words of the list of one.
    fn meter_completion(&self, meter: &mut Meter, returned: u32, answer: &DoneWords) {
        let mut words = [UNTOUCHED; MANY_WORDS];
        words[many::COUNT] = 1;
        words[many::STATUSES] = answer[done::STATUS];
        meter.many(returned, &words);
    }

    /// By the words of its completions.
    fn meter_many(&self, meter: &mut Meter, returned: u32, answer: &ManyWords) {
        let said = usize::try_from(answer[many::COUNT]).unwrap_or(usize::MAX);
        for status in answer[many::STATUSES..].iter().take(said) {
            let mut words = [UNTOUCHED; DONE_WORDS];
            words[done::STATUS] = *status;
            meter.completion(returned, &words);
        }
    }

    fn skip(&mut self, port: usize, requests: u32) {
        Core::skip(&mut self.memory, port, requests);
    }

    fn memory(&self) -> &[u64] {
        self.memory.words()
    }
}

//! What backends over rings of any kind have in common: the calls, with typed answers.

use crate::answers::{Done, DoneMany, Turn};
use crate::ffi::{ArchiveMismatch, Completion, Entry, Lent, Memory, Meter};
use crate::layout::{GRANTS_BYTES, PORTS, PORT_GRANTS};
use crate::names::{Name, Port};
use crate::terms::Refusal;
use crate::words::{turn, DONE_WORDS, MANY_WORDS, TURN_WORDS};
use std::mem;

/// All that calls are lent: rings, and memory, grants and the ports' meters, which it owns.
/// [`crate::Backend`] says what its methods do.
#[derive(Clone, Debug, PartialEq, Eq)]
pub(crate) struct Lender<R> {
    memory: Memory,
    pub(crate) rings: R,
    grants: Box<[u8; GRANTS_BYTES]>,
    meters: [Meter; PORTS],
}

impl<R: Lent> Lender<R> {
    /// Eight closed ports; grants and meters of zeros.
    pub(crate) fn new(rings: R) -> Result<Lender<R>, ArchiveMismatch> {
        Ok(Lender {
            memory: Memory::new()?,
            rings,
            grants: zeros(),
            meters: [Meter::default(); PORTS],
        })
    }

    pub(crate) fn grants(&self, port: Port) -> &[u8; PORT_GRANTS] {
        let grants = &self.grants[PORT_GRANTS * port.index()..][..PORT_GRANTS];
        grants.try_into().expect("a part of that length")
    }

    pub(crate) fn grants_mut(&mut self, port: Port) -> &mut [u8; PORT_GRANTS] {
        self.rings_and_grants_mut(port).1
    }

    /// The rings, and a port's grants.
    pub(crate) fn rings_and_grants_mut(&mut self, port: Port) -> (&mut R, &mut [u8; PORT_GRANTS]) {
        let grants = &mut self.grants[PORT_GRANTS * port.index()..][..PORT_GRANTS];
        let grants = grants.try_into().expect("a part of that length");
        (&mut self.rings, grants)
    }

    pub(crate) fn meter(&self, port: Port) -> Meter {
        self.meters[port.index()]
    }

    pub(crate) fn take_meter(&mut self, port: Port) -> Meter {
        mem::take(&mut self.meters[port.index()])
    }

    pub(crate) fn open(&mut self, port: Port, sheet: &[u8]) -> Result<(), Refusal> {
        outcome(self.memory.open(port.number(), sheet))
    }

    pub(crate) fn close(&mut self, port: Port) -> Result<(), Refusal> {
        outcome(self.memory.close(port.number()))
    }

    /// The empty backend again, whatever is open.
    pub(crate) fn empty_memory(&mut self) {
        self.memory.words_mut().fill(0);
    }

    #[inline]
    pub(crate) fn turn(&mut self) -> Turn {
        let mut words = [0; TURN_WORDS];
        let (rings, grants) = (&mut self.rings, &self.grants[..]);
        let code = self.memory.turn_over(rings, grants, &mut words);
        // First of all, so that no answer goes uncounted. Idle names port 0 and raises nothing.
        self.meters[words[turn::PORT] as usize].turn(code, &words);
        assert_eq!(code, 0, "a turn over buffers of the due lengths");
        Turn::from_words(&words).expect("an answer as the C interface has it")
    }

    #[inline]
    pub(crate) fn complete(&mut self, name: Name, result: i32) -> Result<Done, Refusal> {
        let mut words = [0; DONE_WORDS];
        let named = Completion::of(name, result);
        let code = self
            .memory
            .complete_over(&mut self.rings, named, &mut words);
        // A refusal raises nothing.
        self.meters[name.port.index()].completion(code, &words);
        outcome(code)?;
        Ok(Done::from_words(&words).expect("an answer as the C interface has it"))
    }

    #[inline]
    pub(crate) fn complete_many(
        &mut self,
        port: Port,
        entries: &[Entry],
    ) -> Result<DoneMany, Refusal> {
        let (mut words, rings) = ([0; MANY_WORDS], &mut self.rings);
        let (number, entries) = (port.number(), Entry::words(entries));
        let code = self
            .memory
            .complete_many_over(rings, number, entries, &mut words);
        // A refusal raises nothing.
        self.meters[port.index()].many(code, &words);
        outcome(code)?;
        Ok(DoneMany::from_words(&words).expect("an answer as the C interface has it"))
    }
}

/// What a call returned, as a refusal or none.
pub(crate) fn outcome(code: u32) -> Result<(), Refusal> {
    match code {
        0 => Ok(()),
        number => Err(Refusal::from_number(number).expect("a refusal's number")),
    }
}

/// Zeros on the heap, never on the stack.
pub(crate) fn zeros<const BYTES: usize>() -> Box<[u8; BYTES]> {
    let zeros = vec![0; BYTES].into_boxed_slice();
    zeros.try_into().expect("a slice of that length")
}

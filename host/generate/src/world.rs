//! The buffers that a program is lent, and making a step's call of it.

use crate::{Buffer, Call, Core, List, Step};
use history::Event;
use kernelharp::layout::{GRANTS_BYTES, RINGS_BYTES};
use kernelharp::words::{DoneWords, ManyWords, TurnWords, DONE_WORDS, MANY_WORDS, TURN_WORDS};
use std::iter;

/// What a call gave: its code, and the words of a turn, a completion or a list of completions.
#[derive(Clone, Debug, PartialEq, Eq)]
pub struct Outcome {
    /// 0 or the refusal.
    pub code: u32,
    /// A turn's words; another call leaves [`UNTOUCHED`] in them.
    pub turned: TurnWords,
    /// A completion's words; another call leaves [`UNTOUCHED`] in them.
    pub done: DoneWords,
    /// The words of a list of completions; another call leaves [`UNTOUCHED`] in them.
    pub many: ManyWords,
}

/// What answers hold before a call, to see that a refused one does not write there.
pub const UNTOUCHED: u64 = 0xA5A5_5A5A_C3C3_3C3C;

/// The buffers that one program is lent, and what its last call was lent and left.
pub struct World {
    pub(crate) rings: Vec<u8>,
    pub(crate) grants: Vec<u8>,
    /// Whether anybody is told of the calls: only then what they are lent is kept.
    told: bool,
    /// The rings as the last call was lent them.
    lent: Vec<u8>,
    /// The grants as the last call was lent them, when of another length than due.
    pub(crate) odd_grants: Vec<u8>,
    /// The rings as the last call left them, when of another length than due.
    pub(crate) odd_left: Vec<u8>,
    /// The node sheet as the last open left it.
    pub(crate) sheet: Vec<u8>,
    /// The words of the entries as the last list left them.
    pub(crate) entries: Vec<u64>,
}

impl Default for World {
    fn default() -> World {
        World {
            rings: vec![0; RINGS_BYTES],
            grants: vec![0; GRANTS_BYTES],
            told: true,
            lent: Vec::new(),
            odd_grants: Vec::new(),
            odd_left: Vec::new(),
            sheet: Vec::new(),
            entries: Vec::new(),
        }
    }
}

impl World {
    /// Buffers of zeros.
    pub fn new() -> World {
        World::default()
    }

    /// Buffers for the programs of a list. The checker is told of the first one's calls alone.
    pub(crate) fn of_programs() -> impl Iterator<Item = World> {
        let untold = || World {
            told: false,
            ..World::default()
        };
        iter::once(World::new()).chain(iter::repeat_with(untold))
    }

    /// The rings as they are now.
    pub fn rings(&self) -> &[u8] {
        &self.rings
    }

    /// The grants as they are now.
    pub fn grants(&self) -> &[u8] {
        &self.grants
    }

    /// Writes what the step says, then makes its call.
    pub fn run(&mut self, core: &mut dyn Core, step: &Step) -> Outcome {
        for write in &step.writes {
            let buffer = match write.buffer {
                Buffer::Rings => &mut self.rings,
                Buffer::Grants => &mut self.grants,
            };
            buffer[write.at..write.at + write.bytes.len()].copy_from_slice(&write.bytes);
        }
        self.call(core, &step.call)
    }

    fn call(&mut self, core: &mut dyn Core, call: &Call) -> Outcome {
        let mut outcome = Outcome {
            code: 0,
            turned: [UNTOUCHED; TURN_WORDS],
            done: [UNTOUCHED; DONE_WORDS],
            many: [UNTOUCHED; MANY_WORDS],
        };
        outcome.code = match *call {
            Call::Open { port, ref sheet } => {
                self.sheet.clone_from(sheet);
                core.open(port, &self.sheet)
            }
            Call::Close { port } => core.close(port),
            Call::Turn {
                rings_bytes,
                grants_bytes,
            } => {
                self.lend_grants(grants_bytes);
                let (rings, grants) = self.lend(rings_bytes, grants_bytes);
                core.turn(rings, grants, &mut outcome.turned)
            }
            Call::Complete { rings_bytes, named } => {
                let (rings, _) = self.lend(rings_bytes, GRANTS_BYTES);
                core.complete(rings, named, &mut outcome.done)
            }
            Call::CompleteMany {
                rings_bytes,
                port,
                ref entries,
            } => {
                let mut lent = std::mem::take(&mut self.entries);
                lent.clone_from(entries);
                let (rings, _) = self.lend(rings_bytes, GRANTS_BYTES);
                let list = List {
                    port,
                    entries: &lent,
                };
                let code = core.complete_many(rings, list, &mut outcome.many);
                self.entries = lent;
                code
            }
        };
        outcome
    }

    fn lend_grants(&mut self, bytes: usize) {
        if bytes != GRANTS_BYTES {
            copy_of_length(&mut self.odd_grants, &self.grants, bytes);
        }
    }

    /// Notes what is lent. Rings of the due length are lent themselves, others as a copy.
    fn lend(&mut self, rings_bytes: usize, grants_bytes: usize) -> (&mut [u8], &[u8]) {
        if self.told || rings_bytes != RINGS_BYTES {
            copy_of_length(&mut self.lent, &self.rings, rings_bytes);
        }
        let grants = if grants_bytes == GRANTS_BYTES {
            &self.grants
        } else {
            &self.odd_grants
        };
        if rings_bytes == RINGS_BYTES {
            (&mut self.rings, grants)
        } else {
            self.odd_left.clone_from(&self.lent);
            (&mut self.odd_left, grants)
        }
    }

    /// The last call as the checker of demand 3 is told of it.
    pub fn event<'a>(&'a self, call: &'a Call, outcome: &'a Outcome) -> Event<'a> {
        let code = outcome.code;
        match *call {
            Call::Open { port, ref sheet } => Event::Open { port, sheet, code },
            Call::Close { port } => Event::Close { port, code },
            Call::Turn {
                rings_bytes,
                grants_bytes,
            } => Event::Turn {
                lent: &self.lent,
                left: self.left(rings_bytes),
                grants: if grants_bytes == GRANTS_BYTES {
                    &self.grants
                } else {
                    &self.odd_grants
                },
                code,
                answer: &outcome.turned,
            },
            Call::Complete { rings_bytes, named } => Event::Complete {
                lent: &self.lent,
                left: self.left(rings_bytes),
                port: named.port,
                tag: named.tag,
                serial: named.serial,
                result: named.result,
                code,
                answer: &outcome.done,
            },
            Call::CompleteMany {
                rings_bytes,
                port,
                ref entries,
            } => Event::CompleteMany {
                lent: &self.lent,
                left: self.left(rings_bytes),
                port,
                entries,
                code,
                answer: &outcome.many,
            },
        }
    }

    fn left(&self, rings_bytes: usize) -> &[u8] {
        if rings_bytes == RINGS_BYTES {
            &self.rings
        } else {
            &self.odd_left
        }
    }
}

pub(crate) fn copy_of_length(copy: &mut Vec<u8>, original: &[u8], bytes: usize) {
    copy.clear();
    copy.extend_from_slice(&original[..bytes.min(original.len())]);
    copy.resize(bytes, 0);
}

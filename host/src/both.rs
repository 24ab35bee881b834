//! The second program and the archive side by side: every call is made of both and must answer
//! alike, so a test written for the one holds for the other.

use crate::Records;
use generate::{done_words, for_second, many_words, turn_words, Core, Ring, UNTOUCHED};
use kernelharp::layout::PORTS;
use kernelharp::words::{DONE_WORDS, MANY_WORDS, TURN_WORDS};
use kernelharp::{Completion, Memory, Turn};
use second::{Done, DoneMany, Plan, Refusal, Turned};

/// The calls of [`second::Backend`], made of both programs. Each answer is handed over to a record.
#[derive(Clone, Debug, PartialEq, Eq)]
pub struct Both {
    second: second::Backend,
    archive: Memory,
    /// The ring of each port's last opening.
    rings: [Ring; PORTS],
    /// What their hosts have counted.
    pub records: Records,
}

/// The code and words due from the archive where the second program gave this answer.
pub(crate) fn due<T, const WORDS: usize>(
    answer: &Result<T, Refusal>,
    words: impl FnOnce(&T) -> [u64; WORDS],
) -> (u32, [u64; WORDS]) {
    match answer {
        Ok(answer) => (0, words(answer)),
        Err(refusal) => (*refusal as u32, [UNTOUCHED; WORDS]),
    }
}

impl Default for Both {
    fn default() -> Both {
        Both::new()
    }
}

impl Both {
    /// Two empty backends.
    pub fn new() -> Both {
        Both {
            second: second::Backend::new(),
            archive: Memory::new().expect("an archive of this package"),
            rings: [Ring::default(); PORTS],
            records: Records::default(),
        }
    }

    /// The ring that a port was opened with last.
    pub fn ring(&self, port: usize) -> Ring {
        self.rings[port]
    }

    /// Has a port that was just opened pass over requests, each taken and answered.
    pub fn skip(&mut self, port: usize, requests: u32) {
        self.second.skip(port, requests);
        Core::skip(&mut self.archive, port, requests);
    }

    /// Opens a port.
    pub fn open(&mut self, port: u32, sheet: &[u8]) -> Result<(), Refusal> {
        let answer = self.second.open(port, sheet);
        let code = self.archive.open(port, sheet);
        assert_eq!((code, []), due(&answer, |()| []));
        if answer.is_ok() {
            self.rings[port as usize] = Ring::of_sheet(sheet);
        }
        answer
    }

    /// Closes a port.
    pub fn close(&mut self, port: u32) -> Result<(), Refusal> {
        let answer = self.second.close(port);
        assert_eq!((self.archive.close(port), []), due(&answer, |()| []));
        answer
    }

    /// Takes a turn.
    pub fn turn(&mut self, rings: &mut [u8], grants: &[u8]) -> Result<Turned, Refusal> {
        let (mut copy, mut words) = (rings.to_vec(), [UNTOUCHED; TURN_WORDS]);
        let answer = self.second.turn(rings, grants);
        let code = self.archive.turn(&mut copy, grants, &mut words);
        assert_eq!((code, words), due(&answer, turn_words));
        assert!(copy == rings, "the turn left other ring bytes");
        self.records.turn(&answer, code, &words);
        if let Ok(turned) = &answer {
            check_turn(turned, &Turn::from_words(&words).expect("a turn's words"));
        }
        answer
    }

    /// Completes a request.
    pub fn complete(&mut self, rings: &mut [u8], named: Completion) -> Result<Done, Refusal> {
        let (mut copy, mut words) = (rings.to_vec(), [UNTOUCHED; DONE_WORDS]);
        let answer = self.second.complete(rings, for_second(named));
        let code = self.archive.complete(&mut copy, named, &mut words);
        assert_eq!((code, words), due(&answer, done_words));
        assert!(copy == rings, "the completion left other ring bytes");
        self.records.completion(&answer, code, &words);
        if let Ok(done) = &answer {
            let typed = kernelharp::Done::from_words(&words).expect("a completion's words");
            let parts = (typed.port.number(), typed.status as i32, typed.notify);
            assert_eq!(parts, (done.port, done.status as i32, done.notify));
        }
        answer
    }

    /// Completes a list of requests, by the words of its entries.
    pub fn complete_many(
        &mut self,
        rings: &mut [u8],
        port: u32,
        entries: &[u64],
    ) -> Result<DoneMany, Refusal> {
        let (mut copy, mut words) = (rings.to_vec(), [UNTOUCHED; MANY_WORDS]);
        let answer = self.second.complete_many(rings, port, entries);
        let archive = &mut self.archive;
        let code = archive.complete_many(&mut copy, port, entries, &mut words);
        assert_eq!((code, words), due(&answer, many_words));
        assert!(copy == rings, "the list left other ring bytes");
        self.records.many(&answer, code, &words);
        if let Ok(done) = &answer {
            let typed = kernelharp::DoneMany::from_words(&words).expect("a list's words");
            assert_eq!(
                (typed.port.number(), typed.notify),
                (done.port, done.notify)
            );
            let statuses = typed.statuses().iter().map(|&status| status as i32);
            assert!(statuses.eq(done.statuses.iter().map(|&status| status as i32)));
        }
        answer
    }
}

/// The wrapper's reading of an answer against the second program's answer.
fn check_turn(turned: &Turned, turn: &Turn) {
    match (turned, turn) {
        (Turned::Idle, Turn::Idle) => {}
        (Turned::Overrun { port }, Turn::Overrun(typed)) => assert_eq!(typed.number(), *port),
        (
            &Turned::Answered {
                port,
                reason,
                status,
                notify,
            },
            &Turn::Answered {
                port: typed,
                reason: typed_reason,
                status: typed_status,
                notify: typed_notify,
            },
        ) => {
            let numbers = (typed.number(), typed_reason as u32, typed_status as i32);
            assert_eq!(numbers, (port, reason as u32, status as i32));
            assert_eq!(typed_notify, notify);
        }
        (Turned::Started(plan), Turn::Started(typed)) => check_plan(plan, typed),
        _ => panic!("{turned:?} was read as {turn:?}"),
    }
}

fn check_plan(plan: &Plan, typed: &kernelharp::Plan) {
    let names = Completion::of(typed.name, 0);
    let (port, tag, serial) = (plan.port, plan.tag, plan.serial);
    assert_eq!((names.port, names.tag, names.serial), (port, tag, serial));
    assert_eq!(typed.operation as u32, plan.operation as u32);
    let work = (typed.start, typed.count, typed.secure);
    assert_eq!(work, (plan.start, plan.count, plan.secure));
    let extents = typed.extents().iter().map(|extent| second::Extent {
        frame: extent.frame,
        first_sector: extent.first_sector,
        length: u64::from(extent.length),
        disk_sector: extent.disk_sector,
    });
    assert_eq!(extents.collect::<Vec<_>>(), plan.extents);
}

//! The two programs, each called as a host calls it.

use crate::load::{Lent, Load};
use generate::{for_second, Core};
use kernelharp::layout::PORTS;
use kernelharp::words::{done, kind, turn, DoneWords, TurnWords, DONE_WORDS, TURN_WORDS};
use kernelharp::{Completion, Memory, Meter};
use second::{Backend, Plan, Status, Turned};

/// What a call gives that was done.
pub const DONE: u32 = 0;
/// A status without its sign.
pub const OKAY: u64 = Status::Okay as u64;

/// The calls that are measured.
pub trait Program {
    fn open(&mut self, port: u32, sheet: &[u8]) -> bool;
    /// Starts the next request; gives what completes it well.
    fn turn(&mut self, lent: &mut Lent) -> Completion;
    /// Whether the guest is to be notified.
    fn complete(&mut self, lent: &mut Lent, named: Completion) -> bool;
}

/// What completes a started request well, from the words of its answer.
fn named_in(words: &[u64]) -> Completion {
    Completion {
        port: words[turn::PORT] as u32,
        tag: words[turn::TAG] as u32,
        serial: words[turn::SERIAL] as u32,
        result: words[turn::COUNT] as i32,
    }
}

/// The archive's calls: the answers are words that the host lends again and again.
pub struct Archive {
    memory: Memory,
    turn: TurnWords,
    done: DoneWords,
}

impl Archive {
    pub fn new() -> Archive {
        Archive {
            memory: Memory::new().expect("an archive of this package"),
            turn: [0; TURN_WORDS],
            done: [0; DONE_WORDS],
        }
    }

    pub fn memory_mut(&mut self) -> &mut Memory {
        &mut self.memory
    }
}

impl Program for Archive {
    fn open(&mut self, port: u32, sheet: &[u8]) -> bool {
        self.memory.open(port, sheet) == DONE
    }

    fn turn(&mut self, lent: &mut Lent) -> Completion {
        let (rings, grants) = lent.lend();
        let code = self.memory.turn(rings, grants, &mut self.turn);
        let came = (code, self.turn[turn::KIND]);
        assert_eq!(came, (DONE, kind::STARTED), "a full ring's request starts");
        named_in(&self.turn)
    }

    fn complete(&mut self, lent: &mut Lent, named: Completion) -> bool {
        let code = self.memory.complete(lent.lend().0, named, &mut self.done);
        let came = (code, self.done[done::STATUS]);
        assert_eq!(came, (DONE, OKAY), "a whole read is okay");
        self.done[done::NOTIFY] == 1
    }
}

/// The archive's calls with a meter to each port, raised by every answer.
pub struct Metered {
    archive: Archive,
    meters: [Meter; PORTS],
}

impl Metered {
    pub fn new() -> Metered {
        Metered {
            archive: Archive::new(),
            meters: [Meter::default(); PORTS],
        }
    }
}

impl Program for Metered {
    fn open(&mut self, port: u32, sheet: &[u8]) -> bool {
        self.archive.open(port, sheet)
    }

    fn turn(&mut self, lent: &mut Lent) -> Completion {
        let named = self.archive.turn(lent);
        self.meters[named.port as usize].turn(DONE, &self.archive.turn);
        named
    }

    fn complete(&mut self, lent: &mut Lent, named: Completion) -> bool {
        let notify = self.archive.complete(lent, named);
        self.meters[named.port as usize].completion(DONE, &self.archive.done);
        notify
    }
}

/// The second program by its own calls: the answers are its own types, and a plan is dropped once
/// its names are known.
pub struct Second(Backend);

impl Second {
    pub fn new() -> Second {
        Second(Backend::new())
    }
}

impl Program for Second {
    fn open(&mut self, port: u32, sheet: &[u8]) -> bool {
        self.0.open(port, sheet).is_ok()
    }

    fn turn(&mut self, lent: &mut Lent) -> Completion {
        let (rings, grants) = lent.lend();
        match self.0.turn(rings, grants) {
            Ok(Turned::Started(plan)) => {
                let named = Completion {
                    port: plan.port,
                    tag: plan.tag,
                    serial: plan.serial,
                    result: plan.count as i32,
                };
                drop_plan(plan);
                named
            }
            other => panic!("a full ring's request starts: {other:?}"),
        }
    }

    fn complete(&mut self, lent: &mut Lent, named: Completion) -> bool {
        let done = self.0.complete(lent.lend().0, for_second(named));
        let done = done.expect("a busy tag");
        assert_eq!(done.status, Status::Okay, "a whole read is okay");
        done.notify
    }
}

/// A function of its own, so that its instructions can be counted with the turn's.
#[inline(never)]
fn drop_plan(plan: Plan) {
    drop(plan);
}

/// A program with its buffers, and what its last round came to.
pub struct Bench<P> {
    program: P,
    lent: Lent,
    named: Vec<Completion>,
    notified: u32,
}

impl<P: Program> Bench<P> {
    pub fn new(mut program: P, load: Load) -> Bench<P> {
        for port in 0..load.ports {
            let opened = program.open(port as u32, &load.sheet(port));
            assert!(opened, "port {port} opens");
        }
        let none = Completion {
            port: 0,
            tag: 0,
            serial: 0,
            result: 0,
        };
        Bench {
            program,
            lent: Lent::new(load),
            named: vec![none; load.requests()],
            notified: 0,
        }
    }

    pub fn refill(&mut self) {
        self.lent.refill();
    }

    /// How many requests a round has.
    pub fn requests(&self) -> usize {
        self.named.len()
    }

    /// Starts every request.
    pub fn turns(&mut self) {
        for named in &mut self.named {
            *named = self.program.turn(&mut self.lent);
        }
    }

    /// Completes every request, in the order of the starts.
    pub fn completions(&mut self) {
        self.notified = 0;
        for named in &self.named {
            let notify = self.program.complete(&mut self.lent, *named);
            self.notified += u32::from(notify);
        }
    }

    /// Whether both programs' last rounds had the same starts, notifications and ring bytes.
    pub fn agrees<Q>(&self, other: &Bench<Q>) -> bool {
        self.named == other.named
            && self.notified == other.notified
            && self.lent.same_rings(&other.lent)
    }
}

/// One round by the words of the C interface, every word of every answer compared.
pub fn check_answers(load: Load) {
    let mut memory = Memory::new().expect("an archive of this package");
    let mut backend = Backend::new();
    let programs: [&mut dyn Core; 2] = [&mut memory, &mut backend];
    let [archive, second] = programs.map(|program| answers(program, load));
    assert!(archive == second, "both programs give the same answers");
}

/// The words of a round's turns, then of its completions.
fn answers(program: &mut dyn Core, load: Load) -> Vec<u64> {
    let (mut lent, mut words) = (Lent::new(load), Vec::new());
    lent.refill();
    for port in 0..load.ports {
        assert_eq!(program.open(port as u32, &load.sheet(port)), DONE);
    }
    let (mut turn, mut done) = ([0; TURN_WORDS], [0; DONE_WORDS]);
    for _ in 0..load.requests() {
        let (rings, grants) = lent.lend();
        assert_eq!(program.turn(rings, grants, &mut turn), DONE);
        words.extend(turn);
    }
    for at in (0..words.len()).step_by(TURN_WORDS) {
        let named = named_in(&words[at..]);
        assert_eq!(program.complete(lent.lend().0, named, &mut done), DONE);
        words.extend(done);
    }
    words
}

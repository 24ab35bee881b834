//! Both halves together: a guest and a backend on one page, passed from the one to the other, while the
//! backend's other ports have guests that write anything. Nobody else writes the guest's page.

mod generator;

use crate::census::{end_of, flag_of};
use crate::guest::{compare_guests, GuestProgram};
use crate::requests::DISCARD;
use crate::run::{at_fault, compare, run_list, Failure, Program};
use crate::tally::Tally;
use crate::{Core, GuestCall, GuestCore, GuestOutcome, Outcome, Step, World};
use generator::HalvesGenerator;
use history::{Event, HalvesEvent, HalvesHistory, History};
use kernelharp::layout::{ring, ring_mut, Abi, Pages, PAGE_BYTES, PAGE_SLOTS};
use kernelharp::words::{collect, done, kind, many, request, turn, TurnWords};

/// One pair of programs.
pub struct Halves<'a> {
    /// The backend.
    pub backend: &'a mut dyn Core,
    /// The guest of one of its ports.
    pub guest: &'a mut dyn GuestCore,
}

/// What a run came to.
#[derive(Debug, Default)]
pub struct HalvesReport {
    tally: Tally,
}

impl HalvesReport {
    /// Nothing counted yet.
    pub fn new() -> HalvesReport {
        HalvesReport::default()
    }

    /// Adds another run's counts.
    pub fn add(&mut self, other: &HalvesReport) {
        self.tally.add(&other.tally);
    }

    /// How often each class occurred.
    pub fn tally(&self) -> &Tally {
        &self.tally
    }

    /// The classes that should occur in a long run and did not.
    pub fn missing(&self) -> Vec<String> {
        self.tally.missing(classes())
    }
}

/// One call of either half; before a backend's call the other ports' guests write.
#[derive(Clone, Debug)]
enum HalvesStep {
    Guest(GuestCall),
    Backend(Step),
}

/// What a call gave.
enum HalvesOutcome {
    Guest(GuestOutcome),
    Backend(Box<Outcome>),
}

/// A list under way: the programs, and what is known of the first pair's history.
struct Run<'a> {
    port: usize,
    backends: Vec<Program<'a>>,
    guests: Vec<GuestProgram<'a>>,
    history: History,
    halves: HalvesHistory,
    tally: Tally,
}

impl Run<'_> {
    /// Makes a step's call of every pair and checks it. Gives the first pair's outcome.
    fn step(&mut self, step: &HalvesStep) -> Result<HalvesOutcome, String> {
        match step {
            HalvesStep::Guest(call) => Ok(HalvesOutcome::Guest(self.guest_step(call)?)),
            HalvesStep::Backend(step) => {
                let outcome = self.backend_step(step)?;
                Ok(HalvesOutcome::Backend(Box::new(outcome)))
            }
        }
    }

    fn guest_step(&mut self, call: &GuestCall) -> Result<GuestOutcome, String> {
        let (port, mut outcomes) = (self.port, Vec::new());
        for (index, (guest, backend)) in self.guests.iter_mut().zip(&mut self.backends).enumerate()
        {
            let page = &mut ring_mut(&mut backend.world.rings, port)[..PAGE_BYTES];
            let outcome = guest.call(page, call);
            outcomes.push(outcome.map_err(|fault| format!("guest {index}: {fault}"))?);
        }
        let first = &outcomes[0];
        let rings = self.backends[0].world.rings();
        for (index, other) in self.backends.iter().enumerate().skip(1) {
            let other = (&outcomes[index], other.world.rings());
            compare_guests((first, rings), other)
                .map_err(|fault| format!("guests 0 and {index} differ: {fault}"))?;
        }
        let (lent, left) = self.guests[0].lent_and_left(&ring(rings, port)[..PAGE_BYTES]);
        let code = first.code;
        let event = match call {
            GuestCall::Put { request, .. } => HalvesEvent::Put {
                lent,
                left,
                request,
                code,
            },
            GuestCall::Collect { .. } => HalvesEvent::Collect {
                lent,
                left,
                code,
                answer: &first.collected,
            },
        };
        note_guest(&mut self.tally, &self.halves, call, first);
        self.halves.check(&event)?;
        note_full(&mut self.tally, &self.halves);
        Ok(outcomes.swap_remove(0))
    }

    fn backend_step(&mut self, step: &Step) -> Result<Outcome, String> {
        let backends = &mut self.backends;
        let mut outcomes: Vec<Outcome> = backends.iter_mut().map(|it| it.run(step)).collect();
        compare(&step.call, backends, &outcomes)?;
        let event = backends[0].world.event(&step.call, &outcomes[0]);
        note_backend(&mut self.tally, &self.halves, self.port, &event);
        self.halves.check(&HalvesEvent::Backend(event))?;
        self.history.check(&event)?;
        note_full(&mut self.tally, &self.halves);
        Ok(outcomes.swap_remove(0))
    }
}

/// Runs a list of `calls` random calls of both halves through every pair at once. After each call all
/// must have given the same code and words and left the same rings; demand 3 must hold of the first
/// backend's history, and of the first pair's calls what is claimed of both halves. The guest's port is
/// the seed modulo 8.
pub fn run_halves(pairs: Vec<Halves>, seed: u64, calls: u64) -> Result<HalvesReport, Failure> {
    let mut generator = HalvesGenerator::new(seed);
    let port = generator.port();
    let pairs = pairs.into_iter().zip(World::of_programs());
    let (backends, guests) = pairs
        .map(|(pair, world)| {
            let backend = Program::new(pair.backend, world);
            (backend, GuestProgram::new(pair.guest))
        })
        .unzip();
    let mut run = Run {
        port,
        backends,
        guests,
        history: History::new(),
        halves: HalvesHistory::new(port),
        tally: Tally::default(),
    };
    run_list(seed, calls, || {
        let step = generator.next_step(&run.backends[0].world);
        let outcome = run.step(&step).map_err(|fault| at_fault(&step, fault))?;
        generator.observe(&step, &outcome);
        Ok(())
    })?;
    Ok(HalvesReport { tally: run.tally })
}

/// What a long run should show.
fn classes() -> Vec<String> {
    let mut classes: Vec<String> = CLASSES.iter().map(|&class| class.into()).collect();
    for operation in [0, 1, 2, 3, 5] {
        classes.push(format!("put, operation {operation}"));
        classes.push(format!("started, operation {operation}"));
        let statuses = ["0", "ffff", "fffe"];
        classes.extend(statuses.map(|status| collected_class(operation, status)));
    }
    for reason in [22, 24, 27, 28, 29] {
        classes.push(format!("answered {reason}"));
    }
    // A guest sets no other bit of the flag.
    let discards = [(false, 0), (false, 1), (true, 1)];
    classes.extend(discards.map(|(secure_mark, flag)| discard_class(secure_mark, flag)));
    for code in [1, 31, 32, 33] {
        classes.push(format!("put refused {code:02}"));
    }
    classes
}

const CLASSES: &[&str] = &[
    "32 outstanding, all answered",
    "32 outstanding, all in flight",
    "32 outstanding, all waiting",
    "32 outstanding, some of each",
    "another port served while a request waits",
    "collect refused 01",
    "collected after the port is closed",
    "completed, notify no",
    "completed, notify yes",
    "idle with requests in flight",
    "list completed, 32 entries",
    "list completed, notify no",
    "list completed, notify yes",
    "nothing to collect",
    "nothing to collect, requests in flight",
    "put after the port is closed",
    "put before the port is open",
    "put, notify no",
    "put, notify yes",
    "taken beyond request 1000",
    "turn refused 01",
];

fn collected_class(operation: u64, status: &str) -> String {
    format!("collected, operation {operation}, status {status}")
}

fn discard_class(secure_mark: bool, flag: u8) -> String {
    let (end, flag) = (end_of(0, secure_mark), flag_of(flag));
    format!("{end}, operation {DISCARD}, {flag}")
}

fn note_guest(tally: &mut Tally, halves: &HalvesHistory, call: &GuestCall, outcome: &GuestOutcome) {
    let code = outcome.code;
    match call {
        GuestCall::Put { .. } if code != 0 => tally.tick(&format!("put refused {code:02}")),
        GuestCall::Put { request, .. } => {
            tally.tick(&format!("put, operation {}", request[request::OPERATION]));
            let class = ["put, notify no", "put, notify yes"];
            tally.tick(class[usize::from(outcome.put[0] == 1)]);
            let (open, closed) = (halves.is_open(), halves.is_closed());
            tally.tick_if(!open && !closed, "put before the port is open");
            tally.tick_if(closed, "put after the port is closed");
        }
        GuestCall::Collect { .. } if code != 0 => tally.tick(&format!("collect refused {code:02}")),
        GuestCall::Collect { .. } if outcome.collected[collect::FOUND] == 0 => {
            let [_, in_flight, _] = halves.outstanding();
            tally.tick("nothing to collect");
            tally.tick_if(in_flight > 0, "nothing to collect, requests in flight");
        }
        GuestCall::Collect { .. } => {
            tally.tick_if(halves.is_closed(), "collected after the port is closed");
            let words = &outcome.collected;
            let status = format!("{:x}", words[collect::STATUS]);
            tally.tick(&collected_class(words[collect::OPERATION], &status));
        }
    }
}

fn note_backend(tally: &mut Tally, halves: &HalvesHistory, port: usize, event: &Event) {
    match *event {
        Event::Turn { code, .. } if code != 0 => tally.tick(&format!("turn refused {code:02}")),
        Event::Turn { lent, answer, .. } => {
            let slot = &ring(lent, port)[Abi::Bits64.slot_at(Pages::One, halves.taken())..];
            note_turn(tally, halves, port, slot, answer);
        }
        Event::Complete {
            port: named,
            code: 0,
            answer,
            ..
        } if named as usize == port => {
            let class = ["completed, notify no", "completed, notify yes"];
            tally.tick(class[usize::from(answer[done::NOTIFY] == 1)]);
        }
        Event::CompleteMany {
            port: named,
            code: 0,
            answer,
            ..
        } if named as usize == port && answer[many::COUNT] > 1 => {
            let class = ["list completed, notify no", "list completed, notify yes"];
            tally.tick(class[usize::from(answer[many::NOTIFY] == 1)]);
            let all = answer[many::COUNT] == PAGE_SLOTS as u64;
            tally.tick_if(all, "list completed, 32 entries");
        }
        _ => {}
    }
}

/// Counts a turn, with the slot that the port's next request is in.
fn note_turn(
    tally: &mut Tally,
    halves: &HalvesHistory,
    port: usize,
    slot: &[u8],
    answer: &TurnWords,
) {
    let [waiting, in_flight, _] = halves.outstanding();
    let ours = answer[turn::PORT] == port as u64;
    match answer[turn::KIND] {
        kind::IDLE => tally.tick_if(in_flight > 0, "idle with requests in flight"),
        _ if !ours => {
            let waits = halves.is_open() && waiting > 0;
            tally.tick_if(waits, "another port served while a request waits");
        }
        kind::STARTED => note_start(tally, slot[1], answer),
        kind::ANSWERED => tally.tick(&format!("answered {}", answer[turn::REASON])),
        _ => {}
    }
    tally.tick_if(ours && halves.taken() > 1000, "taken beyond request 1000");
}

fn note_start(tally: &mut Tally, flag: u8, answer: &TurnWords) {
    let operation = answer[turn::OPERATION];
    tally.tick(&format!("started, operation {operation}"));
    if operation == u64::from(DISCARD) {
        tally.tick(&discard_class(answer[turn::SECURE] == 1, flag));
    }
}

fn note_full(tally: &mut Tally, halves: &HalvesHistory) {
    let outstanding = halves.outstanding();
    if outstanding.iter().sum::<usize>() < PAGE_SLOTS {
        return;
    }
    let [waiting, in_flight, answered] = outstanding;
    tally.tick_if(waiting == PAGE_SLOTS, "32 outstanding, all waiting");
    tally.tick_if(in_flight == PAGE_SLOTS, "32 outstanding, all in flight");
    tally.tick_if(answered == PAGE_SLOTS, "32 outstanding, all answered");
    let each = waiting > 0 && in_flight > 0 && answered > 0;
    tally.tick_if(each, "32 outstanding, some of each");
}

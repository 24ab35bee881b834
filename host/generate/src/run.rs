//! Running one list through several programs, and comparing them.

use crate::meters::{Billing, Records};
use crate::skips::Skips;
use crate::{Call, Census, Core, Generator, Outcome, Step, World, UNTOUCHED};
use history::{Event, History};
use second::Refusal;
use std::fmt;

/// Where a run stopped, and why.
#[derive(Clone, Debug)]
pub struct Failure {
    /// The seed of the list.
    pub seed: u64,
    /// The number of the step, from 0.
    pub number: u64,
    /// The call.
    pub call: String,
    /// What was wrong.
    pub fault: String,
}

impl fmt::Display for Failure {
    fn fmt(&self, f: &mut fmt::Formatter) -> fmt::Result {
        let Failure { seed, number, .. } = self;
        write!(f, "seed {seed}, step {number}: {}", self.fault)?;
        write!(f, "\n  {}", self.call)
    }
}

/// What a run came to.
#[derive(Debug, Default)]
pub struct Report {
    /// What occurred, and how often.
    pub census: Census,
    /// The most turns in a row that a port with something to serve was passed over.
    pub longest_wait: u32,
}

/// One program with its buffers, its host's records, and its memory as the last call left it.
pub(crate) struct Program<'a> {
    core: &'a mut dyn Core,
    pub(crate) world: World,
    records: Records,
    memory: Vec<u64>,
}

impl<'a> Program<'a> {
    pub(crate) fn new(core: &'a mut dyn Core, world: World) -> Program<'a> {
        let memory = core.memory().to_vec();
        Program {
            core,
            world,
            records: Records::new(),
            memory,
        }
    }

    pub(crate) fn run(&mut self, step: &Step) -> Outcome {
        self.world.run(self.core, step)
    }

    fn skip(&mut self, port: usize, requests: u32) {
        self.core.skip(port, requests);
        self.memory.copy_from_slice(self.core.memory());
    }

    /// A refused call leaves the memory (rule 14.6).
    fn check_memory(&mut self, code: u32) -> Result<(), String> {
        let now = self.core.memory();
        if code != 0 {
            return same_words("after a refusal memory word", &self.memory, now);
        }
        self.memory.copy_from_slice(now);
        Ok(())
    }
}

/// A list under way: the programs, and what is known of the first one's history.
struct Run<'a> {
    programs: Vec<Program<'a>>,
    billing: Billing,
    skips: Skips,
    history: History,
    census: Census,
}

impl Run<'_> {
    /// Makes a step's call of every program and checks it. Gives the first program's outcome.
    fn step(&mut self, step: &Step) -> Result<Outcome, String> {
        let (programs, call) = (&mut self.programs, &step.call);
        let rings = programs[0].world.rings();
        self.census.note_writes(&self.history, rings, &step.writes);
        let mut outcomes: Vec<Outcome> = programs.iter_mut().map(|it| it.run(step)).collect();
        compare(call, programs, &outcomes)?;
        let event = programs[0].world.event(call, &outcomes[0]);
        self.census.note(&self.history, &event);
        self.history.check(&event)?;
        self.hand_over(call, &outcomes)?;
        self.zero()?;
        self.try_words(call, &outcomes[0])?;
        Ok(outcomes.swap_remove(0))
    }

    /// Has a port that was just opened pass over requests, or not. Gives how many.
    fn skip(&mut self, port: usize) -> Result<u32, String> {
        let Some(requests) = self.skips.requests() else {
            return Ok(0);
        };
        for program in &mut self.programs {
            program.skip(port, requests);
        }
        let event = Event::Skipped { port, requests };
        self.census.note(&self.history, &event);
        self.history.check(&event)?;
        Ok(requests)
    }

    /// Rule 15.6: the answer goes to a record, and each record is what the history says.
    fn hand_over(&mut self, call: &Call, outcomes: &[Outcome]) -> Result<(), String> {
        let port = self.billing.record(call, &outcomes[0]);
        let before = self.programs[0].records.of(port);
        for (program, outcome) in self.programs.iter_mut().zip(outcomes) {
            let records = &mut program.records;
            records.hand_over(program.core, port, call, outcome);
        }
        let records = &self.programs[0].records;
        for (index, program) in self.programs.iter().enumerate().skip(1) {
            if *records != program.records {
                let fault = records.difference(&program.records);
                return Err(format!("programs 0 and {index} differ: {fault}"));
            }
        }
        self.history.check_records(&records.all())?;
        let (answer, change) = ((call, &outcomes[0]), (&before, &records.of(port)));
        self.census
            .note_hand_over(&self.history, answer, port, change);
        Ok(())
    }

    /// Now and then the host zeroes a record.
    fn zero(&mut self) -> Result<(), String> {
        let Some(port) = self.billing.zeroing() else {
            return Ok(());
        };
        for program in &mut self.programs {
            program.records.zero(port);
        }
        let event = Event::Zeroed { port };
        self.census.note(&self.history, &event);
        self.history.check(&event)
    }

    /// Now and then any words to a record that stands anywhere.
    fn try_words(&mut self, call: &Call, outcome: &Outcome) -> Result<(), String> {
        let Some(trial) = self.billing.trial(call, outcome) else {
            return Ok(());
        };
        let left = trial.run(self.programs[0].core)?;
        for (index, program) in self.programs.iter().enumerate().skip(1) {
            let other = trial.run(program.core)?;
            if left != other {
                return Err(format!(
                    "programs 0 and {index} differ: {left:?} and {other:?} of {trial:?}"
                ));
            }
        }
        self.census.note_trial(&trial, &left);
        Ok(())
    }
}

/// Runs a list of `calls` random calls through every program at once. After each call all must
/// have given the same code, the same words and the same rings, grants, sheet and entries; a refused call
/// must have left memory and answer; and demand 3 must hold of the first program's history. All
/// must have raised the same records by the answers, the first one's as its history says. Half of the
/// ports that are opened begin at indices other than 0, and the history counts on from there.
pub fn run(cores: &mut [&mut dyn Core], seed: u64, calls: u64) -> Result<Report, Failure> {
    let mut generator = Generator::new(seed);
    let programs = cores.iter_mut().zip(World::of_programs());
    let programs = programs.map(|(core, world)| Program::new(*core, world));
    let mut run = Run {
        programs: programs.collect(),
        billing: Billing::new(seed),
        skips: Skips::new(seed),
        history: History::new(),
        census: Census::new(),
    };
    run_list(seed, calls, || {
        let step = generator.next_step(&run.programs[0].world);
        let fault = |fault| at_fault(&step.call, fault);
        let outcome = run.step(&step).map_err(fault)?;
        generator.observe(&step.call, &outcome);
        if let (Call::Open { port, .. }, 0) = (&step.call, outcome.code) {
            let port = *port as usize;
            generator.skip(port, run.skip(port).map_err(fault)?);
        }
        Ok(())
    })?;
    Ok(Report {
        census: run.census,
        longest_wait: run.history.longest_wait(),
    })
}

/// A call, and what was wrong with it.
pub(crate) type Fault = (String, String);

/// The fault of a call.
pub(crate) fn at_fault(call: &impl fmt::Debug, fault: String) -> Fault {
    (format!("{call:?}"), fault)
}

/// Makes one step after another, up to the first that is at fault.
pub(crate) fn run_list(
    seed: u64,
    calls: u64,
    mut step: impl FnMut() -> Result<(), Fault>,
) -> Result<(), Failure> {
    for number in 0..calls {
        step().map_err(|(call, fault)| Failure {
            seed,
            number,
            call,
            fault,
        })?;
    }
    Ok(())
}

/// What each program's call left as it was, and the first one's call against every other one's.
pub(crate) fn compare(
    call: &Call,
    programs: &mut [Program],
    outcomes: &[Outcome],
) -> Result<(), String> {
    for (index, (program, outcome)) in programs.iter_mut().zip(outcomes).enumerate() {
        program
            .check_memory(outcome.code)
            .and_then(|()| answer_kept(call, outcome))
            .map_err(|fault| format!("program {index}: {fault}"))?;
    }
    let (first, others) = programs.split_at(1);
    for (index, (program, outcome)) in others.iter().zip(&outcomes[1..]).enumerate() {
        let one = (&first[0].world, &outcomes[0]);
        compare_one(call, one, (&program.world, outcome))
            .map_err(|fault| format!("programs 0 and {} differ: {fault}", index + 1))?;
    }
    Ok(())
}

fn compare_one(
    call: &Call,
    (world, outcome): (&World, &Outcome),
    (other_world, other): (&World, &Outcome),
) -> Result<(), String> {
    if outcome.code != other.code {
        return Err(format!("code {} and {}", outcome.code, other.code));
    }
    same_words("turn word", &outcome.turned, &other.turned)?;
    same_words("done word", &outcome.done, &other.done)?;
    same_words("word of a list", &outcome.many, &other.many)?;
    same_words("rings byte", &world.rings, &other_world.rings)?;
    same_words("grants byte", &world.grants, &other_world.grants)?;
    if outcome.code == Refusal::WrongLength as u32 {
        let (odd, other) = (&world.odd_left, &other_world.odd_left);
        same_words("odd rings byte", odd, other)?;
        let (odd, other) = (&world.odd_grants, &other_world.odd_grants);
        same_words("odd grants byte", odd, other)?;
    }
    for world in [world, other_world] {
        match call {
            Call::Open { sheet, .. } => same_words("sheet byte", sheet, &world.sheet)?,
            Call::CompleteMany { entries, .. } => {
                same_words("word of the entries", entries, &world.entries)?;
            }
            _ => {}
        }
    }
    Ok(())
}

pub(crate) fn same_words<T: PartialEq + fmt::LowerHex>(
    what: &str,
    one: &[T],
    other: &[T],
) -> Result<(), String> {
    if one == other {
        return Ok(());
    }
    match one.iter().zip(other).position(|(a, b)| a != b) {
        Some(at) => Err(format!("{what} {at}: {:x} and {:x}", one[at], other[at])),
        None => Err(format!("{what}s: {} and {}", one.len(), other.len())),
    }
}

/// A refused call leaves its answer's words (rule 14.6).
fn answer_kept(call: &Call, outcome: &Outcome) -> Result<(), String> {
    let done = outcome.code == 0;
    let turned_kept = done && matches!(call, Call::Turn { .. })
        || outcome.turned.iter().all(|&word| word == UNTOUCHED);
    let done_kept = done && matches!(call, Call::Complete { .. })
        || outcome.done.iter().all(|&word| word == UNTOUCHED);
    let many_kept = done && matches!(call, Call::CompleteMany { .. })
        || outcome.many.iter().all(|&word| word == UNTOUCHED);
    if turned_kept && done_kept && many_kept {
        Ok(())
    } else {
        Err("a refused call wrote into its answer".into())
    }
}

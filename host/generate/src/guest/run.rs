//! Running one guest's list through several programs, and comparing them.

use super::{GuestCall, GuestCensus, GuestCore, GuestGenerator, GuestStep};
use crate::run::{at_fault, run_list, same_words, Failure};
use crate::world::copy_of_length;
use crate::UNTOUCHED;
use kernelharp::layout::{Abi, Pages, HEADER_BYTES, PAGE_BYTES, REQ_PROD, RSP_EVENT, SLOT_BYTES};
use kernelharp::words::{collect, CollectWords, PutWords, COLLECT_WORDS, PUT_WORDS};
use std::hint::black_box;
use std::ops::Range;

/// What a call gave: its code, and the words of a put or a collect.
#[derive(Clone, Debug, PartialEq, Eq)]
pub struct GuestOutcome {
    /// 0 or the refusal.
    pub code: u32,
    /// A put's words; another call leaves [`UNTOUCHED`] in them.
    pub put: PutWords,
    /// A collect's words; another call leaves [`UNTOUCHED`] in them.
    pub collected: CollectWords,
}

/// One program, with what its last call was lent.
pub(crate) struct GuestProgram<'a> {
    guest: &'a mut dyn GuestCore,
    /// The page as the last call was lent it, of whatever length.
    lent: Vec<u8>,
    /// The same as the call left it, when of another length than due.
    odd_left: Vec<u8>,
    memory: Vec<u64>,
}

impl<'a> GuestProgram<'a> {
    pub fn new(guest: &'a mut dyn GuestCore) -> GuestProgram<'a> {
        GuestProgram {
            guest,
            lent: Vec::new(),
            odd_left: Vec::new(),
            memory: Vec::new(),
        }
    }

    /// Makes a call on a page, and checks that it left what it has to leave.
    pub fn call(&mut self, page: &mut [u8], call: &GuestCall) -> Result<GuestOutcome, String> {
        let page_bytes = call.page_bytes();
        copy_of_length(&mut self.lent, page, page_bytes);
        self.memory = self.guest.memory().to_vec();
        if page_bytes == page.len() {
            let outcome = make_call(self.guest, page, call)?;
            self.check_left(page, &outcome)?;
            return Ok(outcome);
        }
        let mut odd = self.lent.clone();
        let outcome = make_call(self.guest, &mut odd, call)?;
        self.check_left(&odd, &outcome)?;
        self.odd_left = odd;
        Ok(outcome)
    }

    /// The page as the last call was lent it, and as it left it.
    pub fn lent_and_left<'b>(&'b self, page: &'b [u8]) -> (&'b [u8], &'b [u8]) {
        if self.lent.len() == page.len() {
            (&self.lent, page)
        } else {
            (&self.lent, &self.odd_left)
        }
    }

    /// What a call may write: none of the page when refused or with a response collected, one slot and
    /// req_prod when it put, rsp_event when there was nothing. Guest memory stays but where something
    /// was put or collected.
    fn check_left(&self, page: &[u8], outcome: &GuestOutcome) -> Result<(), String> {
        let (refused, was_put) = (outcome.code != 0, outcome.put != [UNTOUCHED; PUT_WORDS]);
        let nothing = outcome.collected == [0; COLLECT_WORDS];
        if refused && (was_put || outcome.collected != [UNTOUCHED; COLLECT_WORDS]) {
            return Err("a refused call wrote into its answer".into());
        }
        if refused || nothing {
            same_words("guest word", &self.memory, self.guest.memory())?;
        }
        let mut due = self.lent.clone();
        let mut may_write = |part: Range<usize>| due[part.clone()].copy_from_slice(&page[part]);
        if was_put {
            may_write(REQ_PROD..REQ_PROD + 4);
            may_write(written_slot(&self.lent, page));
        }
        if nothing {
            may_write(RSP_EVENT..RSP_EVENT + 4);
        }
        same_words("page byte that stays", &due, page)
    }
}

/// The first slot that was changed; which one it has to be is not for this check to say.
fn written_slot(lent: &[u8], left: &[u8]) -> Range<usize> {
    let changed = (HEADER_BYTES..lent.len()).find(|&at| lent[at] != left[at]);
    let slot = changed.map_or(0, |at| (at - HEADER_BYTES) / SLOT_BYTES);
    let begin = Abi::Bits64.slot_at(Pages::One, slot as u32);
    begin..begin + SLOT_BYTES
}

fn make_call(
    guest: &mut dyn GuestCore,
    page: &mut [u8],
    call: &GuestCall,
) -> Result<GuestOutcome, String> {
    let mut outcome = GuestOutcome {
        code: 0,
        put: [UNTOUCHED; PUT_WORDS],
        collected: [UNTOUCHED; COLLECT_WORDS],
    };
    outcome.code = match call {
        GuestCall::Put { request, .. } => {
            let lent = request.clone();
            let code = guest.put(page, &lent, &mut outcome.put);
            // What is lent to be read counts as unchanged; this makes the compiler look.
            same_words("request word", &**request, &**black_box(&lent))?;
            code
        }
        GuestCall::Collect { .. } => guest.collect(page, &mut outcome.collected),
    };
    let found = outcome.collected[collect::FOUND];
    if outcome.code == 0 && page.len() != PAGE_BYTES {
        return Err("a call was done on a page of another length".into());
    }
    match (outcome.code, call) {
        (0, GuestCall::Put { .. }) if outcome.put[0] > 1 => Err("notify is neither 0 nor 1".into()),
        (0, GuestCall::Collect { .. }) if found > 1 => Err("found is neither 0 nor 1".into()),
        _ => Ok(outcome),
    }
}

/// A call of one program against that of another, with the pages that they left.
pub(crate) fn compare_guests(
    (outcome, page): (&GuestOutcome, &[u8]),
    (other, other_page): (&GuestOutcome, &[u8]),
) -> Result<(), String> {
    if outcome.code != other.code {
        return Err(format!("code {} and {}", outcome.code, other.code));
    }
    same_words("put word", &outcome.put, &other.put)?;
    same_words("collect word", &outcome.collected, &other.collected)?;
    same_words("page byte", page, other_page)
}

/// The programs, each with a page of its own.
struct Run<'a> {
    programs: Vec<(GuestProgram<'a>, Vec<u8>)>,
    census: GuestCensus,
}

impl Run<'_> {
    /// Makes a step's call of every program and checks it. Gives the first program's outcome.
    fn step(&mut self, step: &GuestStep) -> Result<GuestOutcome, String> {
        let mut outcomes = Vec::new();
        for (index, (program, page)) in self.programs.iter_mut().enumerate() {
            for write in &step.writes {
                page[write.at..][..write.bytes.len()].copy_from_slice(&write.bytes);
            }
            let outcome = program.call(page, &step.call);
            outcomes.push(outcome.map_err(|fault| format!("program {index}: {fault}"))?);
        }
        let first = (&outcomes[0], &self.programs[0].1[..]);
        for (index, (_, page)) in self.programs.iter().enumerate().skip(1) {
            compare_guests(first, (&outcomes[index], page))
                .map_err(|fault| format!("programs 0 and {index} differ: {fault}"))?;
        }
        let (lent, left) = self.programs[0].0.lent_and_left(first.1);
        self.census.note(&step.call, first.0, lent, left);
        Ok(outcomes.swap_remove(0))
    }
}

/// Runs a list of `calls` random puts and collects through every program at once. After each call all
/// must have given the same code and words and left the same page; and each must have left alone what
/// the call has no business with.
pub fn run_guests(
    guests: &mut [&mut dyn GuestCore],
    seed: u64,
    calls: u64,
) -> Result<GuestCensus, Failure> {
    let mut generator = GuestGenerator::new(seed);
    let programs = guests.iter_mut().map(|guest| GuestProgram::new(*guest));
    let mut run = Run {
        programs: programs.map(|it| (it, vec![0; PAGE_BYTES])).collect(),
        census: GuestCensus::new(),
    };
    run_list(seed, calls, || {
        let step = generator.next_step();
        let outcome = run
            .step(&step)
            .map_err(|fault| at_fault(&step.call, fault))?;
        generator.observe(&step.call, &outcome);
        Ok(())
    })?;
    Ok(run.census)
}

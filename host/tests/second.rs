//! Long random runs: the second program alone with the checker of demand 3 and the census, and the
//! comparison of two programs.

use generate::{run, Core, Generator, List, Ring, Step, World};
use kernelharp::layout::{read_u32, ring, ring_mut, write_u32, Abi, PORTS, RSP_PROD};
use kernelharp::words::{done, kind, turn, DoneWords, ManyWords, TurnWords};
use kernelharp::{Completion, Meter};
use second::{Backend, Refusal};
use tests::Twin;

const SEED: u64 = 0x6B65_726E_656C;

#[test]
fn random_calls_keep_demand_3() {
    let (seed, calls) = (SEED, 1_000_000);
    println!("seed {seed}, {calls} calls");
    let begun = std::time::Instant::now();
    let report = run(&mut [&mut Backend::new()], seed, calls).unwrap_or_else(|at| panic!("{at}"));
    println!("{}", report.census);
    println!("longest wait: {} turns", report.longest_wait);
    println!("{:?}", begun.elapsed());
    let missing = report.census.missing();
    assert!(missing.is_empty(), "did not occur: {missing:#?}");
    // With eight ports busy at times, somebody waited for all the others.
    assert_eq!(report.longest_wait, 7);
}

#[test]
fn other_seeds_keep_demand_3() {
    for seed in 1..=5 {
        println!("seed {seed}");
        run(&mut [&mut Backend::new()], seed, 4_000).unwrap_or_else(|at| panic!("{at}"));
    }
}

#[test]
fn two_second_programs_agree() {
    let (mut one, mut other) = (Backend::new(), Backend::new());
    run(&mut [&mut one, &mut other], SEED, 5_000).unwrap_or_else(|at| panic!("{at}"));
    assert_eq!(one, other);
}

/// What is behind a ring of one page, and in the share of a closed port, has no influence.
#[test]
fn a_second_program_and_its_twin_agree() {
    for seed in 1..=20 {
        let (mut one, mut twin) = (Backend::new(), Twin::new(Backend::new()));
        run(&mut [&mut one, &mut twin], seed, 1_000).unwrap_or_else(|at| panic!("{at}"));
        assert_eq!(one, twin.core, "seed {seed}");
    }
}

/// The steps that a seed gives, led by a program of their own.
fn list(seed: u64) -> Vec<Step> {
    let (mut generator, mut backend, mut world) =
        (Generator::new(seed), Backend::new(), World::new());
    let steps = (0..2_000).map(|_| {
        let step = generator.next_step(&world);
        let outcome = world.run(&mut backend, &step);
        generator.observe(&step.call, &outcome);
        step
    });
    steps.collect()
}

#[test]
fn a_list_is_the_same_again() {
    assert_eq!(list(SEED), list(SEED));
}

#[test]
fn refused_calls_leave_the_backend() {
    let (mut generator, mut backend, mut world) =
        (Generator::new(SEED), Backend::new(), World::new());
    let mut refused = 0;
    for _ in 0..10_000 {
        let step = generator.next_step(&world);
        let before = backend.clone();
        let outcome = world.run(&mut backend, &step);
        if outcome.code != 0 {
            assert_eq!(before, backend);
            refused += 1;
        }
        generator.observe(&step.call, &outcome);
    }
    assert!(refused > 500, "only {refused} refused calls");
}

/// The shapes of wrong programs that a wrapper around the second program can take.
#[derive(Clone, Copy, Debug)]
enum Flaw {
    /// Guest bytes stay in the response's padding.
    Padding,
    /// A response has padding in a layout that has none.
    NoPadding,
    /// Every port is a 64-bit guest's.
    Layout,
    /// A port opened again keeps its layout.
    LayoutKept,
    /// rsp_prod is taken from the page.
    RspProd,
    /// A count is invented.
    Count,
    /// A discard is secure by its flag alone.
    Secure,
    /// Notify is always yes.
    Notify,
    /// A refused call touches its answer.
    Answer,
    /// A refused close writes into its memory.
    Memory,
    /// A closed port is closed once more without a word.
    Close,
    /// A sheet of a wrong shape is refused with another number.
    Sheet,
    /// An overrun counts as a request taken.
    MeterOverrun,
    /// An idle turn counts as a request taken.
    MeterIdle,
    /// A refused call counts, by the words of the call before.
    MeterRefused,
    /// The status -2 counts as -1.
    MeterStatus,
    /// Each answer counts twice.
    MeterTwice,
    /// Of the kind and the status, 32 bits are looked at.
    MeterNarrow,
    /// The requests taken go on from 2^64 - 1 to 0.
    MeterWrap,
}

/// The flaws of the counters that a history shows.
const METER_FLAWS: [Flaw; 5] = [
    Flaw::MeterOverrun,
    Flaw::MeterIdle,
    Flaw::MeterRefused,
    Flaw::MeterStatus,
    Flaw::MeterTwice,
];

struct Flawed {
    backend: Backend,
    flaw: Flaw,
    words: [u64; 1],
    /// The ring that each port was opened with.
    rings: [Option<Ring>; PORTS],
}

impl Flawed {
    fn new(flaw: Flaw) -> Flawed {
        Flawed {
            backend: Backend::new(),
            flaw,
            words: [0],
            rings: [None; PORTS],
        }
    }

    /// The layout that the flaw puts in the place of the one asked for.
    fn other_layout(&self, port: u32) -> Option<Abi> {
        match self.flaw {
            Flaw::Layout => Some(Abi::Bits64),
            Flaw::LayoutKept => self.rings.get(port as usize)?.map(|ring| ring.abi),
            _ => None,
        }
    }

    /// The four bytes behind the status of the response given last, as the flaw has them.
    fn spoil_padding(&self, lent: &[u8], rings: &mut [u8], port: usize) {
        let kind = self.rings[port].unwrap_or_default();
        let index = read_u32(ring(rings, port), RSP_PROD).wrapping_sub(1);
        let at = kind.slot_at(index) + 12;
        let bytes = match (self.flaw, kind.abi) {
            (Flaw::Padding, Abi::Bits64) => read_u32(ring(lent, port), at),
            (Flaw::NoPadding, Abi::Bits32) => 0,
            _ => return,
        };
        write_u32(ring_mut(rings, port), at, bytes);
    }

    /// What the flaw makes of the words that both kinds of answers have.
    fn misread(&self, returned: &mut u32, status: &mut u64) {
        match self.flaw {
            Flaw::MeterRefused => *returned = 0,
            Flaw::MeterStatus if *status == 2 => *status = 1,
            Flaw::MeterNarrow => *status = u64::from(*status as u32),
            _ => {}
        }
    }

    /// Raises a record, in the flaw's way.
    fn raise(&self, meter: &mut Meter, raise: impl Fn(&mut Meter)) {
        let full = meter.taken == u64::MAX;
        match self.flaw {
            Flaw::MeterTwice => {
                raise(meter);
                raise(meter);
            }
            Flaw::MeterWrap if full => {
                meter.taken = 0;
                raise(meter);
                meter.taken = meter.taken.wrapping_sub(1);
            }
            _ => raise(meter),
        }
    }
}

/// A sheet with another layout's text in the place of its own, where it has one.
fn with_layout(sheet: &[u8], abi: Abi) -> Vec<u8> {
    let mut sheet = sheet.to_vec();
    let texts = [Abi::Bits64, Abi::Bits32].map(Abi::protocol);
    let is_text = |bytes: &[u8]| texts.iter().any(|text| text.as_bytes() == bytes);
    if let Some(at) = sheet.windows(texts[0].len()).position(is_text) {
        sheet[at..][..texts[0].len()].copy_from_slice(abi.protocol().as_bytes());
    }
    sheet
}

impl Core for Flawed {
    fn open(&mut self, port: u32, sheet: &[u8]) -> u32 {
        let sheet = match self.other_layout(port) {
            Some(abi) => with_layout(sheet, abi),
            None => sheet.to_vec(),
        };
        let code = Core::open(&mut self.backend, port, &sheet);
        if code == 0 {
            self.rings[port as usize] = Some(Ring::of_sheet(&sheet));
        }
        match self.flaw {
            Flaw::Sheet if code == Refusal::SheetShape as u32 => Refusal::SheetText as u32,
            _ => code,
        }
    }

    fn close(&mut self, port: u32) -> u32 {
        let code = Core::close(&mut self.backend, port);
        if code == Refusal::IsClosed as u32 {
            match self.flaw {
                Flaw::Close => return 0,
                Flaw::Memory => self.words[0] += 1,
                _ => {}
            }
        }
        code
    }

    fn memory(&self) -> &[u64] {
        &self.words
    }

    fn skip(&mut self, port: usize, requests: u32) {
        self.backend.skip(port, requests);
    }

    fn turn(&mut self, rings: &mut [u8], grants: &[u8], answer: &mut TurnWords) -> u32 {
        let lent = rings.to_vec();
        let code = Core::turn(&mut self.backend, rings, grants, answer);
        if code != 0 {
            if matches!(self.flaw, Flaw::Answer) {
                answer[turn::KIND] = kind::IDLE;
            }
            return code;
        }
        let port = answer[turn::PORT] as usize;
        match (answer[turn::KIND], self.flaw) {
            (kind::ANSWERED, Flaw::Padding | Flaw::NoPadding) => {
                self.spoil_padding(&lent, rings, port);
            }
            (kind::ANSWERED, Flaw::RspProd) => {
                let next = read_u32(ring(&lent, port), RSP_PROD).wrapping_add(1);
                write_u32(ring_mut(rings, port), RSP_PROD, next);
            }
            (kind::STARTED, Flaw::Count) if answer[turn::EXTENT_COUNT] == 11 => {
                answer[turn::COUNT] += 1;
            }
            (kind::STARTED, Flaw::Secure) if answer[turn::OPERATION] == 5 => {
                let kind = self.rings[port].unwrap_or_default();
                let flag = ring(&lent, port)[kind.slot_at(answer[turn::SERIAL] as u32) + 1];
                answer[turn::SECURE] = u64::from(flag % 2);
            }
            _ => {}
        }
        code
    }

    fn complete(&mut self, rings: &mut [u8], named: Completion, answer: &mut DoneWords) -> u32 {
        let code = Core::complete(&mut self.backend, rings, named, answer);
        if matches!(self.flaw, Flaw::Notify) && code == 0 {
            answer[done::NOTIFY] = 1;
        }
        code
    }

    fn complete_many(&mut self, rings: &mut [u8], list: List, answer: &mut ManyWords) -> u32 {
        Core::complete_many(&mut self.backend, rings, list, answer)
    }

    fn meter_turn(&self, meter: &mut Meter, returned: u32, answer: &TurnWords) {
        let (mut returned, mut words) = (returned, *answer);
        self.misread(&mut returned, &mut words[turn::STATUS]);
        let kind = &mut words[turn::KIND];
        match (self.flaw, *kind) {
            (Flaw::MeterIdle, kind::IDLE) | (Flaw::MeterOverrun, kind::OVERRUN) => {
                *kind = kind::STARTED;
            }
            (Flaw::MeterNarrow, word) => *kind = u64::from(word as u32),
            _ => {}
        }
        self.raise(meter, |meter| {
            self.backend.meter_turn(meter, returned, &words)
        });
    }

    fn meter_completion(&self, meter: &mut Meter, returned: u32, answer: &DoneWords) {
        let (mut returned, mut words) = (returned, *answer);
        self.misread(&mut returned, &mut words[done::STATUS]);
        self.raise(meter, |meter| {
            self.backend.meter_completion(meter, returned, &words)
        });
    }

    fn meter_many(&self, meter: &mut Meter, returned: u32, answer: &ManyWords) {
        self.backend.meter_many(meter, returned, answer);
    }
}

#[test]
fn flawed_programs_are_found() {
    let flaws = [
        Flaw::Padding,
        Flaw::NoPadding,
        Flaw::Layout,
        Flaw::LayoutKept,
        Flaw::RspProd,
        Flaw::Count,
        Flaw::Secure,
        Flaw::Notify,
        Flaw::Answer,
        Flaw::Memory,
        Flaw::Close,
        Flaw::Sheet,
        Flaw::MeterNarrow,
        Flaw::MeterWrap,
    ];
    for flaw in flaws.into_iter().chain(METER_FLAWS) {
        let mut flawed = Flawed::new(flaw);
        let failure = run(&mut [&mut Backend::new(), &mut flawed], SEED, 20_000)
            .expect_err("a flawed program agrees with the second");
        println!("{flaw:?}: {failure}");
    }
}

#[test]
fn flaws_against_demand_3_are_found_without_a_second_program() {
    let flaws = [
        Flaw::Layout,
        Flaw::LayoutKept,
        Flaw::Answer,
        Flaw::Memory,
        Flaw::Close,
        Flaw::Sheet,
    ];
    for flaw in flaws.into_iter().chain(METER_FLAWS) {
        let mut flawed = Flawed::new(flaw);
        let failure =
            run(&mut [&mut flawed], SEED, 20_000).expect_err("a flawed program keeps demand 3");
        println!("{flaw:?}: {failure}");
    }
}

//! Backend memory that calls alone would not lead to: indices at the wrap, and any words at all.

use generate::{Core, Random, Ring, UNTOUCHED};
use kernelharp::layout::{
    read_u32, write_u32, Abi, Pages, GRANTS_BYTES, HEADER_BYTES, PORTS, REQ_EVENT, REQ_PROD,
    RINGS_BYTES, RING_BYTES, RSP_PROD,
};
use kernelharp::words::{DONE_WORDS, MANY_WORDS, TURN_WORDS};
use kernelharp::{
    Completion, Done, DoneMany, Memory, Reason, Refusal, Serial, Status, Tag, Turn, MEMORY_WORDS,
};
use tests::usual_sheet_of;

const UNKNOWN: u8 = 9;
const FLUSH: u8 = 3;

#[derive(Clone)]
struct Bench {
    memory: Memory,
    rings: Vec<u8>,
    grants: Vec<u8>,
}

impl Bench {
    fn new() -> Bench {
        Bench {
            memory: Memory::new().expect("an archive of this package"),
            rings: vec![0; RINGS_BYTES],
            grants: vec![2; GRANTS_BYTES],
        }
    }

    fn turn(&mut self) -> Turn {
        let mut words = [UNTOUCHED; TURN_WORDS];
        let code = self.memory.turn(&mut self.rings, &self.grants, &mut words);
        assert_eq!(code, 0);
        Turn::from_words(&words).expect("a turn's words")
    }

    fn complete(&mut self, named: Completion) -> Result<Done, u32> {
        let mut words = [UNTOUCHED; DONE_WORDS];
        match self.memory.complete(&mut self.rings, named, &mut words) {
            0 => Ok(Done::from_words(&words).expect("a completion's words")),
            code => {
                assert_eq!(words, [UNTOUCHED; DONE_WORDS]);
                Err(code)
            }
        }
    }

    fn complete_many(&mut self, port: u32, entries: &[u64]) -> Result<DoneMany, u32> {
        let (mut words, rings) = ([UNTOUCHED; MANY_WORDS], &mut self.rings);
        match self.memory.complete_many(rings, port, entries, &mut words) {
            0 => Ok(DoneMany::from_words(&words).expect("a list's words")),
            code => {
                assert_eq!(words, [UNTOUCHED; MANY_WORDS]);
                Err(code)
            }
        }
    }

    /// Port 0 open with C = R = 2^32 - 1, which calls would take too long to reach. The two words
    /// that count along with answered requests hold them.
    fn at_the_wrap(ring: Ring) -> Bench {
        let mut bench = Bench::new();
        assert_eq!(bench.memory.open(0, &usual_sheet_of(ring)), 0);
        let mut words = Vec::new();
        for index in 0..100 {
            words.push(*bench.memory.words());
            bench.rings[ring.slot_at(index)] = UNKNOWN;
            write_u32(&mut bench.rings, REQ_PROD, index + 1);
            assert!(matches!(bench.turn(), Turn::Answered { .. }));
        }
        let counts = |at: &usize| {
            (0u64..)
                .zip(&words)
                .all(|(index, words)| words[*at] == index)
        };
        let counters: Vec<usize> = (0..MEMORY_WORDS).filter(counts).collect();
        assert_eq!(counters.len(), 2, "C and R");
        for at in counters {
            bench.memory.words_mut()[at] = u64::from(u32::MAX);
        }
        bench.rings.fill(0);
        bench
    }
}

/// The memory of a port that passed over requests is that of one that took and answered them.
#[test]
fn requests_passed_over() {
    for ring in Ring::ALL {
        for port in 0..PORTS {
            let (mut called, mut skipped) = (Bench::new(), Bench::new());
            for bench in [&mut called, &mut skipped] {
                assert_eq!(bench.memory.open(port as u32, &usual_sheet_of(ring)), 0);
            }
            for index in 0..70 {
                let share = &mut called.rings[RING_BYTES * port..][..RING_BYTES];
                share[ring.slot_at(index)] = UNKNOWN;
                write_u32(share, REQ_PROD, index + 1);
                assert!(matches!(called.turn(), Turn::Answered { .. }));
            }
            Core::skip(&mut skipped.memory, port, 70);
            let (last, words) = called.memory.words().split_last().unwrap();
            assert_eq!(*last, (port as u64 + 1) % 8, "the pointer");
            assert_eq!(skipped.memory.words()[..MEMORY_WORDS - 1], *words);
        }
    }
}

/// The word of port 0 that says how many pages its ring has: where it is, and what it is for one and for
/// two.
fn word_of_pages(abi: Abi) -> (usize, [u64; 2]) {
    let [one, two] = Pages::ALL.map(|pages| {
        let mut memory = Bench::new().memory;
        assert_eq!(memory.open(0, &usual_sheet_of(Ring::new(abi, pages))), 0);
        *memory.words()
    });
    let differ: Vec<usize> = (0..MEMORY_WORDS).filter(|&at| one[at] != two[at]).collect();
    assert_eq!(differ.len(), 1, "one word of the ring's pages");
    (differ[0], [one[differ[0]], two[differ[0]]])
}

/// A port of two pages with 41 requests started, one to each of its tags from 0 on.
fn started_beyond_one_page(abi: Abi) -> Bench {
    let (mut bench, ring) = (Bench::new(), Ring::new(abi, Pages::Two));
    assert_eq!(bench.memory.open(0, &usual_sheet_of(ring)), 0);
    for index in 0..41 {
        bench.rings[ring.slot_at(index)..][..2].copy_from_slice(&[FLUSH, 0]);
        write_u32(&mut bench.rings, REQ_PROD, index + 1);
        assert!(matches!(bench.turn(), Turn::Started(_)));
    }
    bench
}

/// Whether the port has no tags above 31: then 6 is given though their marks are set. The others complete.
fn has_tags_of_one_page(mut bench: Bench) -> bool {
    let mut refusal = |tag| {
        let named = Completion {
            port: 0,
            tag,
            serial: tag,
            result: 0,
        };
        bench.complete(named).err()
    };
    assert_eq!([0, 31].map(&mut refusal), [None; 2]);
    match [32, 40].map(&mut refusal) {
        [Some(6), Some(6)] => true,
        [None, None] => false,
        other => panic!("neither one page nor two: {other:?}"),
    }
}

/// Whether one request more is an overrun, marks beyond the ring being in flight too (rule 14.4).
fn has_line_of_one_page(mut bench: Bench) -> bool {
    write_u32(&mut bench.rings, REQ_PROD, 42);
    matches!(bench.turn(), Turn::Overrun(_))
}

/// With marks beyond a ring of one page, which calls never leave: whatever the word of its pages is, its
/// bit 5 says whether there is a second (rule 14.3), in all that the port does.
#[test]
fn marks_beyond_a_ring_of_one_page() {
    for abi in Abi::ALL {
        let (bench, (at, [one, two])) = (started_beyond_one_page(abi), word_of_pages(abi));
        for word in [one, two, 1, 2, 31, 33, 64, 1 << 32, u64::MAX] {
            let mut bench = bench.clone();
            bench.memory.words_mut()[at] = word;
            let one_page = has_tags_of_one_page(bench.clone());
            assert_eq!(one_page, word & 32 == 0, "{word:#x}");
            assert_eq!(has_line_of_one_page(bench), one_page, "{word:#x}");
        }
    }
}

#[test]
fn answered_at_the_wrap() {
    for ring in Ring::ALL {
        let mut bench = Bench::at_the_wrap(ring);
        bench.rings[ring.slot_at(u32::MAX)] = UNKNOWN;
        let Turn::Answered { reason, notify, .. } = bench.turn() else {
            panic!("an unknown operation is answered")
        };
        assert_eq!((reason, notify), (Reason::UnknownOperation, true));
        assert_eq!(read_u32(&bench.rings, RSP_PROD), 0);
        assert_eq!(bench.rings[ring.slot_at(u32::MAX) + 8], UNKNOWN);
        assert_eq!(bench.turn(), Turn::Idle);
        assert_eq!(read_u32(&bench.rings, REQ_EVENT), 1);
    }
}

#[test]
fn started_at_the_wrap() {
    for ring in Ring::ALL {
        let mut bench = Bench::at_the_wrap(ring);
        bench.rings[ring.slot_at(u32::MAX)] = FLUSH;
        let Turn::Started(plan) = bench.turn() else {
            panic!("a flush starts")
        };
        assert_eq!(plan.name.tag, Tag(0));
        assert_eq!(plan.name.serial, Serial(u32::MAX));
        // One in flight: req_prod may run one less than a ring ahead of C = 0, no further.
        write_u32(&mut bench.rings, REQ_PROD, ring.slots());
        assert!(matches!(bench.turn(), Turn::Overrun(_)));
        let done = bench.complete(Completion {
            port: 0,
            tag: 0,
            serial: u32::MAX,
            result: 0,
        });
        assert_eq!(done.map(|done| done.status), Ok(Status::Okay));
        assert_eq!(read_u32(&bench.rings, RSP_PROD), 0);
        assert_eq!(bench.rings[ring.slot_at(u32::MAX) + 8], FLUSH);
    }
}

#[test]
fn idle_and_overrun_at_the_wrap() {
    for ring in Ring::ALL {
        let slots = ring.slots();
        for (req_prod, idle) in [(u32::MAX, true), (slots - 1, false), (slots, false)] {
            let mut bench = Bench::at_the_wrap(ring);
            write_u32(&mut bench.rings, REQ_PROD, req_prod);
            write_u32(&mut bench.rings, REQ_EVENT, 77);
            let turn = bench.turn();
            assert_eq!(turn == Turn::Idle, idle);
            assert_eq!(matches!(turn, Turn::Overrun(_)), req_prod == slots);
            let event = if idle { 0 } else { 77 };
            assert_eq!(read_u32(&bench.rings, REQ_EVENT), event);
        }
    }
}

/// Words of all sizes: small ones are likely to be a state, a count or a mark.
fn any_word(random: &mut Random) -> u64 {
    let bits = random.pick(&[0, 1, 2, 5, 16, 32, 33, 64]);
    random.word().checked_shr(64 - bits).unwrap_or(0)
}

/// The ring bytes that an idle turn may have written, and no others.
fn is_event(at: usize) -> bool {
    (REQ_EVENT..REQ_EVENT + 4).contains(&(at % RING_BYTES))
}

/// Those that a response of a ring may have written, and no others.
fn is_response(ring: Ring, port: usize, at: usize) -> bool {
    let (in_ring, abi) = (at % RING_BYTES, ring.abi);
    let in_rsp_prod = (RSP_PROD..RSP_PROD + 4).contains(&in_ring);
    let in_slot = in_ring
        .checked_sub(HEADER_BYTES)
        .is_some_and(|at| at % abi.slot_bytes() < abi.response_bytes());
    let is_inside = at / RING_BYTES == port && in_ring < ring.pages.bytes();
    is_inside && (in_slot || in_rsp_prod)
}

/// Where two rings differ.
fn written(before: &[u8], after: &[u8]) -> Vec<usize> {
    let differ = |at: &usize| before[*at] != after[*at];
    (0..before.len()).filter(differ).collect()
}

/// A response is all in one ring, whichever the port's words of memory have.
fn check_response(before: &[u8], after: &[u8], port: usize) {
    let written = written(before, after);
    let of = |ring: &Ring| written.iter().all(|&at| is_response(*ring, port, at));
    assert!(
        Ring::ALL.iter().any(of),
        "ring bytes {written:?} were written"
    );
}

fn any_call(random: &mut Random, bench: &mut Bench) {
    let before = bench.rings.clone();
    let port = random.below(9) as u32;
    match random.index(10) {
        0 => check_code(
            bench
                .memory
                .open(port, &usual_sheet_of(random.pick(&Ring::ALL))),
        ),
        1 => check_code(bench.memory.close(port)),
        2..=4 => {
            let named = Completion {
                port,
                tag: random.below(66) as u32,
                serial: any_word(random) as u32,
                result: 8,
            };
            match bench.complete(named) {
                Ok(done) => check_response(&before, &bench.rings, done.port.index()),
                Err(code) => {
                    check_code(code);
                    assert!(before == bench.rings);
                }
            }
        }
        5 | 6 => {
            let length = random.pick(&[0, 3, 6, 30, 96, 192, 195, 4]);
            let entries: Vec<u64> = (0..length).map(|_| any_word(random)).collect();
            match bench.complete_many(port, &entries) {
                Ok(done) if entries.is_empty() => {
                    assert!(done.statuses().is_empty() && !done.notify);
                    assert!(before == bench.rings);
                }
                Ok(done) => check_response(&before, &bench.rings, done.port.index()),
                Err(code) => {
                    check_code(code);
                    assert!(before == bench.rings);
                }
            }
        }
        _ => match bench.turn() {
            Turn::Idle => assert!(written(&before, &bench.rings).into_iter().all(is_event)),
            Turn::Answered { port, .. } => check_response(&before, &bench.rings, port.index()),
            Turn::Started(_) | Turn::Overrun(_) => assert!(before == bench.rings),
            other => panic!("{other}"),
        },
    }
}

fn check_code(code: u32) {
    assert!(code == 0 || Refusal::from_number(code).is_some());
}

#[test]
fn any_words_are_a_backend() {
    let mut random = Random::new(8);
    for _ in 0..400 {
        let mut bench = Bench::new();
        let words = bench.memory.words_mut();
        words.fill_with(|| any_word(&mut random));
        random.fill(&mut bench.rings);
        for _ in 0..20 {
            any_call(&mut random, &mut bench);
        }
    }
}

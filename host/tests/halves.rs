//! Both halves on one page (section 16 of docs/RULES.md): what is claimed of them holds of the second
//! program's, and the checker of it says no to pairs in which either half is wrong.

use generate::{run_halves, Core, GuestCore, Halves, HalvesReport, List, Ring};
use history::{Event, HalvesEvent, HalvesHistory};
use kernelharp::layout::{
    read_u32, read_u64, ring_mut, write_u32, Abi, Pages, GRANTS_BYTES, PAGE_BYTES, REQ_EVENT,
    REQ_PROD, RESPONSE_BYTES, RINGS_BYTES, RSP_EVENT, RSP_PROD, SLOT_BYTES,
};
use kernelharp::words::{done, kind, many, request, turn, TURN_WORDS};
use kernelharp::words::{CollectWords, DoneWords, ManyWords, PutWords, RequestWords, TurnWords};
use kernelharp::{Completion, Meter};
use second::{Backend, Guest};
use tests::{faulty, usual_sheet_of, Ask};

/// The guest's port is 3, which is the seed modulo 8. Its disk has discards.
const SEED: u64 = 0x6861_6C76_6573 / 8 * 8 + 67;
const PORT: usize = 3;

fn slot_at(index: u32) -> usize {
    Abi::Bits64.slot_at(Pages::One, index)
}

#[test]
fn the_second_programs_halves() {
    let mut report = HalvesReport::new();
    for list in 0..16 {
        let pair = Halves {
            backend: &mut Backend::new(),
            guest: &mut Guest::new(),
        };
        let run = run_halves(vec![pair], SEED + list, 20_000);
        report.add(&run.unwrap_or_else(|at| panic!("{at}")));
    }
    let missing = report.missing();
    assert!(missing.is_empty(), "did not occur: {missing:#?}");
}

/// What a wrong guest does.
#[derive(Clone, Copy, Debug, PartialEq, Eq)]
enum GuestFlaw {
    None,
    /// Leaves a slot out now and then.
    SkipsSlot,
    /// Raises req_prod by two for one request.
    RaisesByTwo,
    /// The same, with room for one request only.
    RaisesByTwoAtTheEnd,
    /// Writes another id now and then.
    WrongId,
    /// Leaves a bit of the frame out.
    WrongFrame,
    /// Collects the last response first.
    LastFirst,
    /// Collects a response again.
    Again,
    /// Never ends a request.
    EndsNothing,
    /// Reads every status as okay.
    Okay,
    /// Sees only every other response.
    Shy,
    /// Has 33 requests outstanding.
    TooMany,
    /// Takes an id twice.
    SameId,
}

/// A guest written once more, with a flaw in it.
struct FlawedGuest {
    flaw: GuestFlaw,
    put: u32,
    collected: u32,
    outstanding: Vec<(u64, u8)>,
    calls: u32,
}

impl FlawedGuest {
    fn new(flaw: GuestFlaw) -> FlawedGuest {
        FlawedGuest {
            flaw,
            put: 0,
            collected: 0,
            outstanding: Vec::new(),
            calls: 0,
        }
    }

    /// Whether the flaw shows in this call.
    fn shows(&self, flaw: GuestFlaw) -> bool {
        self.flaw == flaw && self.calls % 8 == 7
    }

    /// A request's slot, as a fresh guest writes it.
    fn slot(&self, words: &RequestWords) -> Result<Vec<u8>, u32> {
        let mut page = [0; PAGE_BYTES];
        let put = Guest::new().put(&mut page, words);
        put.map_err(|refusal| refusal as u32)?;
        let mut slot = page[slot_at(0)..][..SLOT_BYTES].to_vec();
        if self.shows(GuestFlaw::WrongId) {
            slot[15] ^= 1;
        }
        if self.shows(GuestFlaw::WrongFrame) {
            slot[24] &= 0xFE;
        }
        Ok(slot)
    }

    fn refusal(&self, page: &[u8], id: u64) -> u32 {
        let most = if self.flaw == GuestFlaw::TooMany {
            33
        } else {
            32
        };
        let known = self.outstanding.iter().any(|&(known, _)| known == id);
        if page.len() != PAGE_BYTES {
            1
        } else if self.outstanding.len() == most {
            31
        } else if known && self.flaw != GuestFlaw::SameId {
            32
        } else {
            0
        }
    }

    /// Where the next response is looked for.
    fn next(&self, page: &[u8]) -> u32 {
        if self.flaw == GuestFlaw::LastFirst {
            read_u32(page, RSP_PROD).wrapping_sub(1)
        } else {
            self.collected
        }
    }
}

impl GuestCore for FlawedGuest {
    fn put(&mut self, page: &mut [u8], words: &RequestWords, answer: &mut PutWords) -> u32 {
        self.calls += 1;
        let refusal = self.refusal(page, words[request::ID]);
        if refusal != 0 {
            return refusal;
        }
        let slot = match self.slot(words) {
            Ok(slot) => slot,
            Err(refusal) => return refusal,
        };
        self.outstanding.push((words[request::ID], slot[0]));
        let at_the_end = self.outstanding.len() == 32;
        self.put += u32::from(self.shows(GuestFlaw::SkipsSlot));
        page[slot_at(self.put)..][..SLOT_BYTES].copy_from_slice(&slot);
        self.put += 1;
        let more = self.shows(GuestFlaw::RaisesByTwo)
            || at_the_end && self.flaw == GuestFlaw::RaisesByTwoAtTheEnd;
        write_u32(page, REQ_PROD, self.put + u32::from(more));
        answer[0] = u64::from(read_u32(page, REQ_EVENT) == self.put);
        0
    }

    fn collect(&mut self, page: &mut [u8], answer: &mut CollectWords) -> u32 {
        self.calls += 1;
        if page.len() != PAGE_BYTES {
            return 1;
        }
        let ahead = read_u32(page, RSP_PROD).wrapping_sub(self.collected);
        if ahead == 0 || self.shows(GuestFlaw::Shy) {
            write_u32(page, RSP_EVENT, self.collected + 1);
            *answer = [0; 4];
            return 0;
        }
        if ahead as usize > self.outstanding.len() {
            return 34;
        }
        let response = &page[slot_at(self.next(page))..][..RESPONSE_BYTES];
        let (id, operation) = (read_u64(response, 0), response[8]);
        let place = self
            .outstanding
            .iter()
            .position(|&it| it == (id, operation));
        let Some(place) = place else { return 35 };
        if self.flaw != GuestFlaw::EndsNothing && !self.shows(GuestFlaw::Again) {
            self.outstanding.remove(place);
        }
        self.collected += u32::from(!self.shows(GuestFlaw::Again));
        let status = u64::from(u16::from_le_bytes([response[10], response[11]]));
        let okay = self.flaw == GuestFlaw::Okay;
        *answer = [1, id, u64::from(operation), if okay { 0 } else { status }];
        0
    }
}

/// What a wrong backend does on the guest's port.
#[derive(Clone, Copy, Debug, PartialEq, Eq)]
enum BackendFlaw {
    None,
    /// Exchanges two responses.
    Swaps,
    /// Raises rsp_prod by two for one response.
    RaisesByTwo,
    /// Leaves rsp_prod as it was.
    RaisesNothing,
    /// Gives a response twice.
    Twice,
    /// Answers with another id.
    WrongId,
    /// Writes another status than it says.
    WrongStatus,
    /// Plans another sector.
    WrongStart,
    /// Plans another frame.
    WrongFrame,
    /// Plans discards the other way, secure or plain.
    WrongMark,
    /// Finds no work.
    Idle,
    /// Finds an overrun in a ring that is full.
    Overrun,
}

/// The second program with a flaw behind it.
struct FlawedBackend {
    flaw: BackendFlaw,
    backend: Backend,
}

impl FlawedBackend {
    fn new(flaw: BackendFlaw) -> FlawedBackend {
        FlawedBackend {
            flaw,
            backend: Backend::new(),
        }
    }

    /// What the flaw makes of the page after a response.
    fn spoil_response(&self, page: &mut [u8]) {
        let rsp_prod = read_u32(page, RSP_PROD);
        let last = slot_at(rsp_prod.wrapping_sub(1));
        let before = slot_at(rsp_prod.wrapping_sub(2));
        match self.flaw {
            BackendFlaw::Swaps if rsp_prod > 1 => {
                for at in 0..RESPONSE_BYTES {
                    page.swap(before + at, last + at);
                }
            }
            BackendFlaw::RaisesByTwo => write_u32(page, RSP_PROD, rsp_prod + 1),
            BackendFlaw::RaisesNothing => write_u32(page, RSP_PROD, rsp_prod - 1),
            BackendFlaw::Twice => {
                page.copy_within(last..last + RESPONSE_BYTES, slot_at(rsp_prod));
                write_u32(page, RSP_PROD, rsp_prod + 1);
            }
            BackendFlaw::WrongId => page[last + 7] ^= 0x80,
            BackendFlaw::WrongStatus => page[last + 11] ^= 0x80,
            _ => {}
        }
    }

    /// What the flaw makes of a turn of the guest's port.
    fn spoil_turn(&self, answer: &mut TurnWords) {
        match self.flaw {
            BackendFlaw::WrongStart => answer[turn::START] ^= 1,
            BackendFlaw::WrongFrame if answer[turn::EXTENT_COUNT] > 1 => {
                answer[turn::EXTENTS + 4] ^= 1;
            }
            BackendFlaw::WrongMark if answer[turn::OPERATION] == 5 => answer[turn::SECURE] ^= 1,
            BackendFlaw::Overrun => {
                *answer = [0; TURN_WORDS];
                answer[turn::KIND] = kind::OVERRUN;
                answer[turn::PORT] = PORT as u64;
            }
            _ => {}
        }
    }
}

impl Core for FlawedBackend {
    fn open(&mut self, port: u32, sheet: &[u8]) -> u32 {
        Core::open(&mut self.backend, port, sheet)
    }

    fn skip(&mut self, port: usize, requests: u32) {
        self.backend.skip(port, requests);
    }

    fn close(&mut self, port: u32) -> u32 {
        Core::close(&mut self.backend, port)
    }

    fn turn(&mut self, rings: &mut [u8], grants: &[u8], answer: &mut TurnWords) -> u32 {
        let code = Core::turn(&mut self.backend, rings, grants, answer);
        if code != 0 || answer[turn::PORT] != PORT as u64 {
            return code;
        }
        if self.flaw == BackendFlaw::Idle {
            *answer = [0; TURN_WORDS];
        }
        match answer[turn::KIND] {
            kind::ANSWERED => self.spoil_response(ring_mut(rings, PORT)),
            kind::STARTED => self.spoil_turn(answer),
            _ => {}
        }
        code
    }

    fn complete(&mut self, rings: &mut [u8], named: Completion, answer: &mut DoneWords) -> u32 {
        let code = Core::complete(&mut self.backend, rings, named, answer);
        if code == 0 && answer[done::PORT] == PORT as u64 {
            self.spoil_response(ring_mut(rings, PORT));
        }
        code
    }

    fn complete_many(&mut self, rings: &mut [u8], list: List, answer: &mut ManyWords) -> u32 {
        let code = Core::complete_many(&mut self.backend, rings, list, answer);
        if code == 0 && answer[many::PORT] == PORT as u64 && answer[many::COUNT] > 0 {
            self.spoil_response(ring_mut(rings, PORT));
        }
        code
    }

    fn meter_turn(&self, meter: &mut Meter, returned: u32, answer: &TurnWords) {
        self.backend.meter_turn(meter, returned, answer);
    }

    fn meter_completion(&self, meter: &mut Meter, returned: u32, answer: &DoneWords) {
        self.backend.meter_completion(meter, returned, answer);
    }

    fn meter_many(&self, meter: &mut Meter, returned: u32, answer: &ManyWords) {
        self.backend.meter_many(meter, returned, answer);
    }
}

/// Runs a pair, the checker alone beside it. Gives the fault that it saw.
fn run_pair(backend: BackendFlaw, guest: GuestFlaw) -> Result<(), String> {
    let pair = Halves {
        backend: &mut FlawedBackend::new(backend),
        guest: &mut FlawedGuest::new(guest),
    };
    let run = run_halves(vec![pair], SEED, 20_000);
    run.map(|_| ()).map_err(|failure| failure.fault)
}

#[test]
fn without_a_flaw() {
    assert_eq!(run_pair(BackendFlaw::None, GuestFlaw::None), Ok(()));
}

#[test]
fn flawed_guests_break_the_claim() {
    let flaws = [
        (GuestFlaw::SkipsSlot, "taken "),
        (GuestFlaw::RaisesByTwo, "taken "),
        (GuestFlaw::RaisesByTwoAtTheEnd, "an overrun"),
        (GuestFlaw::WrongId, "taken "),
        (GuestFlaw::WrongFrame, "taken "),
        (GuestFlaw::LastFirst, "collected "),
        (GuestFlaw::Again, "collected "),
        (GuestFlaw::EndsNothing, "putting gave 3"),
        (GuestFlaw::Okay, "collected "),
        (GuestFlaw::Shy, "collected [0, 0, 0, 0]"),
        (GuestFlaw::TooMany, "putting gave 0, due was 31"),
        (GuestFlaw::SameId, "putting gave 0, due was 32"),
    ];
    for (flaw, words) in flaws {
        println!("{flaw:?}");
        faulty(run_pair(BackendFlaw::None, flaw), words);
    }
}

#[test]
fn flawed_backends_break_the_claim() {
    let flaws = [
        (BackendFlaw::Swaps, "answered "),
        (BackendFlaw::RaisesByTwo, "collecting gave 3"),
        (BackendFlaw::RaisesNothing, "collected [0, 0, 0, 0]"),
        (BackendFlaw::Twice, "collecting gave 3"),
        (BackendFlaw::WrongId, "answered "),
        (BackendFlaw::WrongStatus, "answered "),
        (BackendFlaw::WrongStart, "planned "),
        (BackendFlaw::WrongFrame, "planned "),
        (BackendFlaw::WrongMark, "planned "),
        (BackendFlaw::Idle, "an idle turn"),
        (BackendFlaw::Overrun, "an overrun"),
    ];
    for (flaw, words) in flaws {
        println!("{flaw:?}");
        faulty(run_pair(flaw, GuestFlaw::None), words);
    }
}

/// An open, or a close, of a port.
fn opened(halves: &mut HalvesHistory, port: u32, ring: impl Into<Ring>) -> Result<(), String> {
    let sheet = &usual_sheet_of(ring);
    let code = 0;
    halves.check(&HalvesEvent::Backend(Event::Open { port, sheet, code }))
}

/// Of a port that is opened again, for a 32-bit guest or with two pages, nothing is claimed, and the
/// checker says so.
#[test]
fn runs_of_another_kind() {
    let mut halves = HalvesHistory::new(PORT);
    let words = "a 64-bit one with one page that is opened once";
    for ring in &Ring::ALL[1..] {
        faulty(opened(&mut halves, PORT as u32, *ring), words);
    }
    opened(&mut halves, 0, Abi::Bits32).unwrap();
    opened(&mut halves, PORT as u32, Abi::Bits64).unwrap();
    faulty(opened(&mut halves, PORT as u32, Abi::Bits64), words);
    let close = |port| HalvesEvent::Backend(Event::Close { port, code: 0 });
    halves.check(&close(0)).unwrap();
    halves.check(&close(PORT as u32)).unwrap();
    faulty(opened(&mut halves, PORT as u32, Abi::Bits64), words);
}

#[test]
fn somebody_else_writes_the_page() {
    let (mut halves, mut lent) = (HalvesHistory::new(PORT), vec![0; PAGE_BYTES]);
    let mut left = lent.clone();
    let request = &Ask::usual_read().words();
    Guest::new().put(&mut left, request).unwrap();
    let code = 0;
    let put = HalvesEvent::Put {
        lent: &lent,
        left: &left,
        request,
        code,
    };
    halves.check(&put).unwrap();
    lent.clone_from(&left);
    lent[4095] = 1;
    let collect = HalvesEvent::Collect {
        lent: &lent,
        left: &lent,
        code,
        answer: &[0; 4],
    };
    faulty(halves.check(&collect), "not as the last call left it");
    let (mut rings, grants) = (vec![0; RINGS_BYTES], [0; GRANTS_BYTES]);
    ring_mut(&mut rings, PORT)[..PAGE_BYTES].copy_from_slice(&lent);
    let turn = HalvesEvent::Backend(Event::Turn {
        lent: &rings,
        left: &rings,
        grants: &grants,
        code,
        answer: &[0; TURN_WORDS],
    });
    faulty(halves.check(&turn), "not as the last call left it");
}

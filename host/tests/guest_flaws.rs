//! The guest's half of the second program alone, and wrong guests that the comparison finds.

use generate::{run_guests, GuestCore};
use kernelharp::layout::{
    read_u32, write_u32, Abi, Pages, PAGE_BYTES, REQ_EVENT, REQ_PROD, RSP_EVENT, RSP_PROD,
    SLOT_BYTES,
};
use kernelharp::words::{collect, request, segment, CollectWords, PutWords, RequestWords};
use second::Guest;

const SEED: u64 = 0x6775_6573_7473;

/// The shapes of wrong guests that a wrapper around the second program can take.
#[derive(Clone, Copy, Debug)]
enum Flaw {
    /// The new req_prod is made of the page's.
    ReqProdOfPage,
    /// Bytes of the slot that the request does not use stay.
    OldBytes,
    /// A flush has a start.
    StartOfFlush,
    /// An empty barrier has a start.
    StartOfBarrier,
    /// All bits of a discard's flag go to the slot.
    FlagBits,
    /// The operation is cut to its byte before it is judged.
    CutOperation,
    /// The number of segments is cut to its byte before it is judged.
    CutCount,
    /// A frame is cut to its field.
    CutFrame,
    /// Segments that do not count are judged.
    AllSegments,
    /// A put notifies whenever req_event is not ahead.
    NotifyLate,
    /// A bad request is refused before an id that is outstanding.
    Order,
    /// A refused put writes its answer.
    Answer,
    /// rsp_event becomes the index itself.
    EventEarly,
    /// A collect that finds a response writes rsp_event too.
    EventAlways,
    /// A status that is none of the three counts as an error.
    Status,
    /// A response is refused for its padding.
    Padding,
    /// A response that fits no request is collected, as one of zeros.
    NeverUnfit,
    /// rsp_prod behind is taken for nothing.
    BehindIsNothing,
    /// A collect with nothing leaves other words in guest memory.
    Memory,
}

struct Flawed {
    guest: Guest,
    flaw: Flaw,
    words: [u64; 1],
    collected: u32,
}

impl Flawed {
    /// The request as the flaw reads it.
    fn misread(&self, words: &RequestWords) -> RequestWords {
        let mut words = *words;
        let (operation, count) = (words[request::OPERATION], words[request::SEGMENT_COUNT]);
        let segments = words[request::SEGMENTS..].chunks_exact_mut(segment::WORDS);
        match self.flaw {
            Flaw::CutOperation => words[request::OPERATION] &= 0xFF,
            Flaw::CutCount => words[request::SEGMENT_COUNT] &= 0xFF,
            Flaw::CutFrame => segments.for_each(|it| it[segment::FRAME] &= 0xFFFF_FFFF),
            Flaw::AllSegments if operation < 2 => {
                let mut behind = segments.skip(count.min(11) as usize);
                let unsound = behind.any(|it| it[segment::LAST] > 7);
                words[request::OPERATION] |= u64::from(unsound) << 2;
            }
            _ => {}
        }
        words
    }

    /// What the flaw makes of the slot that was written.
    fn spoil_slot(&self, lent: &[u8], page: &mut [u8], words: &RequestWords) {
        let at = Abi::Bits64.slot_at(Pages::One, read_u32(page, REQ_PROD).wrapping_sub(1));
        let slot = &mut page[at..at + SLOT_BYTES];
        let start = words[request::START].to_le_bytes();
        match (self.flaw, words[request::OPERATION]) {
            (Flaw::OldBytes, _) => slot[2..8].copy_from_slice(&lent[at + 2..at + 8]),
            (Flaw::StartOfFlush, 3) => slot[16..24].copy_from_slice(&start),
            (Flaw::StartOfBarrier, 2) => slot[16..24].copy_from_slice(&start),
            (Flaw::FlagBits, 5) => slot[1] = words[request::FLAG] as u8,
            (Flaw::ReqProdOfPage, _) => {
                let next = read_u32(lent, REQ_PROD).wrapping_add(1);
                write_u32(page, REQ_PROD, next);
            }
            _ => {}
        }
    }

    /// What the flaw sees of a page.
    fn misread_page(&self, page: &mut [u8]) -> bool {
        let ahead = read_u32(page, RSP_PROD).wrapping_sub(self.collected);
        let response = &page[Abi::Bits64.slot_at(Pages::One, self.collected)..][..16];
        match self.flaw {
            Flaw::BehindIsNothing if ahead >= 1 << 31 => {
                write_u32(page, RSP_PROD, self.collected);
                false
            }
            Flaw::Padding => ahead != 0 && response[12..].iter().any(|&byte| byte != 0),
            _ => false,
        }
    }
}

impl GuestCore for Flawed {
    fn put(&mut self, page: &mut [u8], words: &RequestWords, answer: &mut PutWords) -> u32 {
        let (lent, words) = (page.to_vec(), self.misread(words));
        let code = GuestCore::put(&mut self.guest, page, &words, answer);
        match (code, self.flaw) {
            (0, Flaw::NotifyLate) => {
                let off = read_u32(page, REQ_PROD).wrapping_sub(read_u32(page, REQ_EVENT));
                answer[0] = u64::from(off < 32);
            }
            (0, _) => self.spoil_slot(&lent, page, &words),
            (32, Flaw::Order) => {
                let bad = words[request::OPERATION] > 5;
                return if bad { 33 } else { code };
            }
            (_, Flaw::Answer) => answer[0] = 0,
            _ => {}
        }
        code
    }

    fn collect(&mut self, page: &mut [u8], answer: &mut CollectWords) -> u32 {
        if page.len() != PAGE_BYTES {
            return GuestCore::collect(&mut self.guest, page, answer);
        }
        let mut seen = page.to_vec();
        let refused = self.misread_page(&mut seen);
        if refused {
            return 35;
        }
        let code = GuestCore::collect(&mut self.guest, &mut seen, answer);
        page[RSP_EVENT..RSP_EVENT + 4].copy_from_slice(&seen[RSP_EVENT..RSP_EVENT + 4]);
        let (found, next) = (answer[collect::FOUND], self.collected.wrapping_add(1));
        match (code, self.flaw) {
            (0, Flaw::EventEarly) if found == 0 => write_u32(page, RSP_EVENT, self.collected),
            (0, Flaw::EventAlways) => write_u32(page, RSP_EVENT, next),
            (0, Flaw::Status) if ![0, 0xFFFE].contains(&answer[collect::STATUS]) => {
                answer[collect::STATUS] = 0xFFFF;
            }
            (0, Flaw::Memory) if found == 0 => self.words[0] += 1,
            (35, Flaw::NeverUnfit) => *answer = [1, 0, 0, 0],
            _ => {}
        }
        if code == 0 && found == 1 {
            self.collected = next;
        }
        match (code, self.flaw) {
            (35, Flaw::NeverUnfit) => 0,
            _ => code,
        }
    }

    fn memory(&self) -> &[u64] {
        &self.words
    }
}

#[test]
fn flawed_guests_are_found() {
    let flaws = [
        Flaw::ReqProdOfPage,
        Flaw::OldBytes,
        Flaw::StartOfFlush,
        Flaw::StartOfBarrier,
        Flaw::FlagBits,
        Flaw::CutOperation,
        Flaw::CutCount,
        Flaw::CutFrame,
        Flaw::AllSegments,
        Flaw::NotifyLate,
        Flaw::Order,
        Flaw::Answer,
        Flaw::EventEarly,
        Flaw::EventAlways,
        Flaw::Status,
        Flaw::Padding,
        Flaw::NeverUnfit,
        Flaw::BehindIsNothing,
        Flaw::Memory,
    ];
    for flaw in flaws {
        let mut flawed = Flawed {
            guest: Guest::new(),
            flaw,
            words: [0],
            collected: 0,
        };
        let failure = run_guests(&mut [&mut Guest::new(), &mut flawed], SEED, 20_000)
            .expect_err("a flawed guest agrees with the second program's");
        println!("{flaw:?}: {failure}");
    }
}

#[test]
fn the_second_programs_guest_alone() {
    let census = run_guests(&mut [&mut Guest::new()], SEED, 200_000);
    let missing = census.unwrap_or_else(|at| panic!("{at}")).missing();
    assert!(missing.is_empty(), "did not occur: {missing:#?}");
}

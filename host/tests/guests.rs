//! The guest's half (section 16 of docs/RULES.md): pages computed by hand, each refusal by its number on
//! both sides of its line, any words as guest memory.

use generate::{run_guests, GuestCore, Random, UNTOUCHED};
use kernelharp::layout::{
    read_u32, write_u32, Abi, Pages, PAGE_BYTES, REQ_EVENT, REQ_PROD, RSP_EVENT, RSP_PROD,
    SLOT_BYTES,
};
use kernelharp::words::{request, segment, CollectWords, PutWords, RequestWords};
use kernelharp::words::{COLLECT_WORDS, PUT_WORDS};
use kernelharp::GuestMemory;
use second::{Collected, Guest};
use tests::{bytes, Ask, Guests};

/// A page of one byte all over; its rsp_prod is 0.
fn page_of(byte: u8) -> Vec<u8> {
    let mut page = vec![byte; PAGE_BYTES];
    write_u32(&mut page, RSP_PROD, 0);
    page
}

fn slot_at(index: u32) -> usize {
    Abi::Bits64.slot_at(Pages::One, index)
}

/// A flush.
fn flush(id: u64) -> RequestWords {
    let mut ask = Ask::of(3, 0, 0, 0, 0);
    ask.id = id;
    ask.words()
}

/// The usual read, with another word in one place.
fn read_with(at: usize, word: u64) -> RequestWords {
    let mut words = Ask::usual_read().words();
    words[at] = word;
    words
}

/// The place of a word of a request's segment.
fn segment_at(number: usize, word: usize) -> usize {
    request::SEGMENTS + segment::WORDS * number + word
}

/// Writes a response as a backend would, and rsp_prod behind it.
fn respond(page: &mut [u8], index: u32, response: &str) {
    let response = bytes(response);
    page[slot_at(index)..][..response.len()].copy_from_slice(&response);
    write_u32(page, RSP_PROD, index + 1);
}

/// A request with eleven segments: frame i + 0x100, sectors i % 8 to 7.
fn eleven(operation: u8) -> Ask {
    let mut ask = Ask::of(operation, 11, 1 << 32, 0, 7);
    for (segment, number) in ask.segments.iter_mut().zip(0..) {
        *segment = (0x100 + u32::from(number), number % 8, 7);
    }
    ask
}

/// The bytes of the id that an [`Ask`] has.
const ID: &str = "88 77 66 55 44 33 22 11";

/// Requests, and what is in the slot that each has to become: the first two bytes, the id, and all that
/// follows it.
fn slots() -> Vec<(RequestWords, [&'static str; 3])> {
    let mut write = Ask::of(1, 3, u64::MAX, 0, 7);
    write.segments = vec![(u32::MAX, 0, 7), (0, 7, 7), (0x0403_0201, 2, 4)];
    let mut barrier = Ask::of(2, 0, 0x0102_0304_0506_0708, 0, 0);
    barrier.id = 0xF1E2_D3C4_B5A6_9788;
    let flush = Ask::of(3, 0, 0x0102_0304_0506_0708, 0, 0);
    let discard = Ask::discard(0xFF, 0x0102_0304_0506_0708, 1);
    let mut any_flag = Ask::discard(0, 7, u64::MAX).words();
    any_flag[request::FLAG] = 0xFFFF_FFFF_FFFF_FFFE;
    let read = "D0 07 00*6 05 00 00 00 00 07 00 00 00*80";
    let written =
        "FF*8 FF FF FF FF 00 07 00 00 00 00 00 00 07 07 00 00 01 02 03 04 02 04 00 00 00*64";
    let segments = "00 00 00 00 01 00 00 00
         00 01 00 00 00 07 00 00 01 01 00 00 01 07 00 00 02 01 00 00 02 07 00 00
         03 01 00 00 03 07 00 00 04 01 00 00 04 07 00 00 05 01 00 00 05 07 00 00
         06 01 00 00 06 07 00 00 07 01 00 00 07 07 00 00 08 01 00 00 00 07 00 00
         09 01 00 00 01 07 00 00 0A 01 00 00 02 07 00 00";
    let discarded = "08 07 06 05 04 03 02 01 01 00*7 00*80";
    vec![
        (Ask::usual_read().words(), ["00 01", ID, read]),
        (write.words(), ["01 03", ID, written]),
        (eleven(2).words(), ["02 0B", ID, segments]),
        (
            barrier.words(),
            ["02 00", "88 97 A6 B5 C4 D3 E2 F1", "00*96"],
        ),
        (flush.words(), ["03 00", ID, "00*96"]),
        (discard.words(), ["05 01", ID, discarded]),
        (any_flag, ["05 00", ID, "07 00*7 FF*8 00*80"]),
    ]
}

#[test]
fn slots_byte_by_byte() {
    for (words, [begin, id, rest]) in slots() {
        let slot = format!("{begin} 00*6 {id} {rest}");
        for (req_event, notify) in [("01 00 00 00", true), ("00*4", false), ("02 00*3", false)] {
            let (mut guests, mut page) = (Guests::new(), page_of(0xEE));
            page[REQ_EVENT..REQ_EVENT + 4].copy_from_slice(&bytes(req_event));
            assert_eq!(guests.put(&mut page, &words), Ok(notify));
            let due = format!("01 00*3 {req_event} 00*4 EE*52 {slot} EE*3920");
            assert_eq!(page, bytes(&due));
        }
    }
}

/// The last three are no backend's of ours: neither the status nor the padding is judged.
#[test]
fn a_response_byte_by_byte() {
    let rests = [
        ("00 00 00 00*4", 0),
        ("00 FF FF 00*4", 0xFFFF),
        ("00 FE FF 00*4", 0xFFFE),
        ("AA 34 12 BB*4", 0x1234),
        ("00 00 80 00*4", 0x8000),
        ("00 01 00 00*3 01", 1),
    ];
    for (rest, status) in rests {
        let (mut guests, mut page) = (Guests::new(), page_of(0xEE));
        guests.put(&mut page, &Ask::usual_read().words()).unwrap();
        respond(&mut page, 0, &format!("{ID} 00 {rest}"));
        let before = page.clone();
        let response = Collected {
            id: 0x1122_3344_5566_7788,
            operation: 0,
            status,
        };
        assert_eq!(guests.collect(&mut page), Ok(Some(response)));
        assert_eq!(page, before);
        assert_eq!(guests.collect(&mut page), Ok(None));
        let mut due = before;
        due[RSP_EVENT..RSP_EVENT + 4].copy_from_slice(&bytes("02 00 00 00"));
        assert_eq!(page, due);
    }
}

#[test]
fn nothing_to_collect() {
    let (mut guests, mut page) = (Guests::new(), page_of(0xEE));
    let fresh = guests.clone();
    for _ in 0..2 {
        assert_eq!(guests.collect(&mut page), Ok(None));
        assert_eq!(page, bytes("EE*8 00*4 01 00*3 EE*4080"));
        assert_eq!(guests, fresh);
    }
}

/// Three rounds of the ring: every slot in its turn, and the guest's indices in the header.
#[test]
fn the_ring_goes_round() {
    let (mut guests, mut page) = (Guests::new(), page_of(0xEE));
    for index in 0..96 {
        page[REQ_PROD] = 0x77;
        let id = u64::from(index) + 0x0100_0000;
        let notify = read_u32(&page, REQ_EVENT) == index + 1;
        assert_eq!(guests.put(&mut page, &flush(id)), Ok(notify));
        let head = format!("03 00*7 {index:02X} 00 00 01 00*4");
        assert_eq!(page[slot_at(index)..][..16], bytes(&head));
        assert_eq!(read_u32(&page, REQ_PROD), index + 1);
        respond(
            &mut page,
            index,
            &format!("{index:02X} 00 00 01 00*4 03 00*7"),
        );
        let collected = guests.collect(&mut page).unwrap().unwrap();
        assert_eq!((collected.id, collected.status), (id, 0));
        assert_eq!(guests.collect(&mut page), Ok(None));
        assert_eq!(read_u32(&page, RSP_EVENT), index + 2);
    }
}

#[test]
fn a_page_of_another_length() {
    for length in [0, 1, 64, 3648, 4095, 4097, 8192] {
        let (mut guests, mut page) = (Guests::new(), vec![0xEE; length]);
        assert_eq!(guests.refused_put(&mut page, &flush(1)), 1);
        assert_eq!(guests.refused_collect(&mut page), 1);
    }
}

#[test]
fn thirty_two_outstanding() {
    let (mut guests, mut page) = (Guests::new(), page_of(0));
    for id in 0..32 {
        guests.put(&mut page, &flush(id)).unwrap();
    }
    // Whatever else is wrong with it.
    for words in [flush(32), flush(7), read_with(request::OPERATION, 4)] {
        assert_eq!(guests.refused_put(&mut page, &words), 31);
    }
    let mut short = page[..4095].to_vec();
    assert_eq!(guests.refused_put(&mut short, &flush(7)), 1);
    // One that ends makes room for one, in the slot of the first.
    respond(&mut page, 0, "1F 00*7 03 00*7");
    assert_eq!(guests.collect(&mut page).unwrap().unwrap().id, 31);
    guests.put(&mut page, &flush(31)).unwrap();
    assert_eq!(page[slot_at(0)..][..16], bytes("03 00*7 1F 00*7"));
    assert_eq!(guests.refused_put(&mut page, &flush(99)), 31);
}

/// All 32 end, in an order of their own, and each is known until then.
#[test]
fn ended_in_any_order() {
    let (mut guests, mut page) = (Guests::new(), page_of(0));
    for id in 0..32 {
        guests.put(&mut page, &flush(id)).unwrap();
    }
    for index in 0..32 {
        let id = 13 * index % 32;
        respond(&mut page, index, &format!("{id:02X} 00*7 03 00*7"));
        assert_eq!(guests.collect(&mut page).unwrap().unwrap().id, id.into());
        for later in index + 1..32 {
            let known = flush(u64::from(13 * later % 32));
            assert_eq!(guests.refused_put(&mut page, &known), 32);
        }
    }
    for id in 0..32 {
        guests.put(&mut page, &flush(id)).unwrap();
    }
}

#[test]
fn an_id_that_is_outstanding() {
    let (mut guests, mut page) = (Guests::new(), page_of(0));
    guests.put(&mut page, &flush(1 << 63)).unwrap();
    guests.put(&mut page, &flush(0)).unwrap();
    let mut other = Ask::usual_read();
    other.id = 1 << 63;
    let mut unsound = flush(0);
    unsound[request::SEGMENT_COUNT] = 1;
    let mut unknown = flush(0);
    unknown[request::OPERATION] = 6;
    for words in [flush(0), flush(1 << 63), other.words(), unsound, unknown] {
        assert_eq!(guests.refused_put(&mut page, &words), 32);
    }
    respond(&mut page, 0, "00*7 80 03 00*7");
    guests.collect(&mut page).unwrap();
    guests.put(&mut page, &other.words()).unwrap();
    assert_eq!(guests.refused_put(&mut page, &flush(1 << 63)), 32);
}

/// Requests that break one thing.
fn bad_requests() -> Vec<RequestWords> {
    let mut twelfth = eleven(0).words();
    twelfth[request::SEGMENT_COUNT] = 12;
    let mut bad_eleventh = eleven(1).words();
    bad_eleventh[segment_at(10, segment::LAST)] = 8;
    let mut empty = Ask::discard(1, 0, 1).words();
    empty[request::SECTORS] = 0;
    let nothing = Ask::of(1, 0, 0, 0, 0).words();
    let mut bad = vec![twelfth, bad_eleventh, empty, nothing];
    for operation in [4, 6, 7, 255, 256, 257, 1 << 32, u64::MAX] {
        bad.push(read_with(request::OPERATION, operation));
    }
    for count in [0, 12, 255, 256, 257, (1 << 32) + 1, u64::MAX] {
        bad.push(read_with(request::SEGMENT_COUNT, count));
    }
    for number in [8, 255, 256 + 7, (1 << 32) + 7, u64::MAX] {
        bad.push(read_with(segment_at(0, segment::LAST), number));
        bad.push(read_with(segment_at(0, segment::FIRST), number));
    }
    for number in [1 << 32, (1 << 32) + 5, u64::MAX] {
        bad.push(read_with(segment_at(0, segment::FRAME), number));
    }
    for count in [1, 255, 256, 1 << 32] {
        let mut words = flush(1);
        words[request::SEGMENT_COUNT] = count;
        bad.push(words);
    }
    bad
}

#[test]
fn requests_that_no_backend_would_start() {
    for words in bad_requests() {
        let (mut guests, mut page) = (Guests::new(), page_of(0xEE));
        assert_eq!(guests.refused_put(&mut page, &words), 33, "{words:x?}");
    }
    let good = [
        eleven(0).words(),
        read_with(segment_at(0, segment::FRAME), u64::from(u32::MAX)),
        read_with(segment_at(0, segment::LAST), 0),
        read_with(segment_at(0, segment::FIRST), 7),
        Ask::discard(1, u64::MAX, u64::MAX).words(),
    ];
    for words in good {
        assert!(Guests::new().put(&mut page_of(0xEE), &words).is_ok());
    }
}

#[test]
fn rsp_prod_on_both_sides_of_the_line() {
    let (mut guests, mut page) = (Guests::new(), page_of(0));
    for id in 0..3 {
        guests.put(&mut page, &flush(id)).unwrap();
    }
    respond(&mut page, 0, "01 00*7 03 00*7");
    for rsp_prod in [4, 5, 32, 33, 1 << 31, u32::MAX] {
        write_u32(&mut page, RSP_PROD, rsp_prod);
        assert_eq!(guests.refused_collect(&mut page), 34, "{rsp_prod}");
        // The response is not looked at before that.
        let mut other = page.clone();
        other[slot_at(0) + 8] = 1;
        assert_eq!(guests.refused_collect(&mut other), 34, "{rsp_prod}");
    }
    for rsp_prod in [1, 2, u32::MAX] {
        write_u32(&mut page, RSP_PROD, rsp_prod);
        assert_eq!(Guests::new().refused_collect(&mut page), 34, "{rsp_prod}");
    }
    for rsp_prod in 1..=3 {
        write_u32(&mut page, RSP_PROD, rsp_prod);
        assert_eq!(guests.clone().collect(&mut page).unwrap().unwrap().id, 1);
    }
}

#[test]
fn a_response_that_fits_no_request() {
    let (mut guests, mut page) = (Guests::new(), page_of(0));
    guests.put(&mut page, &flush(0)).unwrap();
    guests.put(&mut page, &Ask::usual_read().words()).unwrap();
    let id = "88 77 66 55 44 33 22 11";
    let strangers = [
        format!("{id} 03 00*7"),
        format!("{id} 80 00*7"),
        "00*8 00 00*7".into(),
        "01 00*7 03 00*7".into(),
        "00*7 80 03 00*7".into(),
    ];
    for stranger in strangers {
        respond(&mut page, 0, &stranger);
        assert_eq!(guests.refused_collect(&mut page), 35, "{stranger}");
    }
    respond(&mut page, 0, "00*8 03 00*7");
    guests.collect(&mut page).unwrap();
    // A second response to a request that has ended.
    respond(&mut page, 1, "00*8 03 00*7");
    assert_eq!(guests.refused_collect(&mut page), 35);
    respond(&mut page, 1, &format!("{id} 00*8"));
    assert!(guests.collect(&mut page).is_ok());
}

/// Any words are a guest: each call ends with a number that it may give, and keeps to its bytes.
#[test]
fn any_words_are_a_guest() {
    let mut random = Random::new(16);
    for _ in 0..4000 {
        let mut guest = GuestMemory::new().expect("an archive of this package");
        let bits = random.pick(&[1, 5, 6, 32, 33, 64]);
        guest.words_mut().fill_with(|| random.word() >> (64 - bits));
        let mut page = vec![0; PAGE_BYTES];
        random.fill(&mut page);
        for id in 0..8 {
            let before = (page.clone(), guest.clone());
            let (mut put, mut collected) = ([UNTOUCHED; PUT_WORDS], [UNTOUCHED; COLLECT_WORDS]);
            let (code, refusals) = if random.chance(50) {
                (guest.put(&mut page, &flush(id), &mut put), [31, 32])
            } else {
                (guest.collect(&mut page, &mut collected), [34, 35])
            };
            let answered = put[0] != UNTOUCHED || collected[0] != UNTOUCHED;
            assert_eq!(code == 0, answered);
            if code != 0 {
                assert!(refusals.contains(&code), "refused with {code}");
                assert!(before == (page.clone(), guest.clone()));
            }
            check_written(&before.0, &page);
        }
    }
}

/// What was written is one slot and req_prod, or rsp_event.
fn check_written(before: &[u8], after: &[u8]) {
    let written: Vec<usize> = (0..PAGE_BYTES)
        .filter(|&at| before[at] != after[at])
        .collect();
    let slot = slot_at(read_u32(after, REQ_PROD).wrapping_sub(1));
    let by_put = |at: &usize| *at < 4 || (slot..slot + SLOT_BYTES).contains(at);
    let by_collect = |at: &usize| (RSP_EVENT..RSP_EVENT + 4).contains(at);
    let kept = written.iter().all(by_put) || written.iter().all(by_collect);
    assert!(kept, "page bytes {written:?} were written");
}

/// Guest memory is all that a guest is: saved and put back, it goes on as it was.
#[test]
fn saved_and_put_back() {
    let (mut guest, mut page) = (GuestMemory::new().unwrap(), page_of(0));
    let mut answer = [UNTOUCHED; COLLECT_WORDS];
    for id in 0..20 {
        assert_eq!(guest.put(&mut page, &flush(id), &mut [0]), 0);
    }
    let (saved, kept) = (*guest.words(), page.clone());
    respond(&mut page, 0, "05 00*7 03 00*7");
    assert_eq!(guest.collect(&mut page, &mut answer), 0);
    let mut other = GuestMemory::new().unwrap();
    *other.words_mut() = saved;
    let mut page = kept;
    assert_eq!(other.put(&mut page, &flush(5), &mut [0]), 32);
    assert_eq!(other.put(&mut page, &flush(20), &mut [0]), 0);
    assert_eq!(read_u32(&page, REQ_PROD), 21);
}

/// The archive with both indices `by` ahead, which is a multiple of 32: it sees the page's header so far
/// ahead too. To whoever lends it pages it is a fresh guest; its own indices pass 2^32 meanwhile.
struct Ahead {
    archive: GuestMemory,
    by: u32,
}

impl Ahead {
    fn new(by: u32) -> Ahead {
        let mut archive = GuestMemory::new().expect("an archive of this package");
        archive.words_mut()[..2].fill(u64::from(by));
        Ahead { archive, by }
    }

    /// Makes a call on a page whose four indices are ahead.
    fn call<T>(
        &mut self,
        page: &mut [u8],
        call: impl FnOnce(&mut GuestMemory, &mut [u8]) -> T,
    ) -> T {
        raise_header(page, self.by);
        let answer = call(&mut self.archive, page);
        raise_header(page, self.by.wrapping_neg());
        answer
    }
}

/// Adds to each index that the page has room for.
fn raise_header(page: &mut [u8], by: u32) {
    for at in [REQ_PROD, REQ_EVENT, RSP_PROD, RSP_EVENT] {
        if at + 4 <= page.len() {
            let index = read_u32(page, at).wrapping_add(by);
            write_u32(page, at, index);
        }
    }
}

impl GuestCore for Ahead {
    fn put(&mut self, page: &mut [u8], request: &RequestWords, answer: &mut PutWords) -> u32 {
        self.call(page, |archive, page| archive.put(page, request, answer))
    }

    fn collect(&mut self, page: &mut [u8], answer: &mut CollectWords) -> u32 {
        self.call(page, |archive, page| archive.collect(page, answer))
    }

    fn memory(&self) -> &[u64] {
        self.archive.words()
    }
}

/// Over 2^32 the archive goes on as the second program does from 0: with the wrap at once, after one
/// round of the ring, and after some.
#[test]
fn indices_pass_their_end() {
    for (rounds, seed) in [(0, 1), (1, 2), (1, 3), (2, 4), (9, 5), (9, 6)] {
        let mut ahead = Ahead::new(0_u32.wrapping_sub(32 * rounds));
        let census = run_guests(&mut [&mut ahead, &mut Guest::new()], seed, 4000);
        census.unwrap_or_else(|at| panic!("{rounds} rounds before the end: {at}"));
        let words = ahead.archive.words();
        assert!(words[0] < 4000 && words[1] < 4000 && words[0] - words[1] == words[2]);
    }
}

/// An index is its word modulo 2^32, and what a call writes is below that.
#[test]
fn the_upper_half_of_an_index_does_not_count() {
    let at_the_end = |high: u64| {
        let mut guest = GuestMemory::new().expect("an archive of this package");
        guest.words_mut()[..2].fill(high << 32 | u64::from(u32::MAX));
        guest
    };
    let due = over_the_end(at_the_end(0));
    for high in [1, 1 << 31, u64::from(u32::MAX)] {
        assert!(over_the_end(at_the_end(high)) == due);
    }
}

/// From both indices 2^32 - 1: nothing, a put, its response, nothing. Gives the memory and page left.
fn over_the_end(mut guest: GuestMemory) -> (GuestMemory, Vec<u8>) {
    let (mut page, mut notify) = (page_of(0xEE), [UNTOUCHED; PUT_WORDS]);
    let mut answer = [UNTOUCHED; COLLECT_WORDS];
    write_u32(&mut page, RSP_PROD, u32::MAX);
    assert_eq!(guest.collect(&mut page, &mut answer), 0);
    assert_eq!((answer, read_u32(&page, RSP_EVENT)), ([0; 4], 0));
    write_u32(&mut page, REQ_EVENT, 0);
    assert_eq!(guest.put(&mut page, &flush(1), &mut notify), 0);
    assert_eq!((notify, read_u32(&page, REQ_PROD)), ([1], 0));
    let slot = slot_at(31);
    assert_eq!(page[slot..][..16], bytes("03 00*7 01 00*7"));
    page[slot..][..16].copy_from_slice(&bytes("01 00*7 03 00*7"));
    for rsp_prod in [1, u32::MAX - 1] {
        write_u32(&mut page, RSP_PROD, rsp_prod);
        assert_eq!(guest.collect(&mut page, &mut answer), 34, "{rsp_prod}");
    }
    write_u32(&mut page, RSP_PROD, 0);
    assert_eq!(guest.collect(&mut page, &mut answer), 0);
    assert_eq!(answer, [1, 1, 3, 0]);
    assert_eq!(guest.collect(&mut page, &mut answer), 0);
    assert_eq!((answer, read_u32(&page, RSP_EVENT)), ([0; 4], 1));
    (guest, page)
}

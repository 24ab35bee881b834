//! Plain memory stands in for a guest's ring; the guest's part is played between the calls, or
//! between a call's copying in and out.

use super::looks::tests::{after_the_index, meanwhile};
use super::{LiveBackend, Mapping, NotOpened, SharedRing, PAGE_WORDS};
use crate::answers::{Plan, Turn};
use crate::ffi::{Entry, Meter};
use crate::layout::{
    read_u32, write_u32, Abi, Pages, PAGE_BYTES, REQ_EVENT, REQ_PROD, RING_BYTES, RING_PAGES,
    RSP_EVENT, RSP_PROD,
};
use crate::names::{Name, Port, Serial, Tag};
use crate::sheet::Sheet;
use crate::terms::{Operation, Reason, Refusal, Status};
use std::ops::Range;
use std::sync::atomic::{AtomicU32, Ordering};

const PATTERN: u8 = 0xA5;
const FLUSH: u8 = 3;
const UNKNOWN: u8 = 9;

/// Runs each of the tests named with rings of both layouts and both sizes.
macro_rules! with_every_ring {
    ($($test:ident)*) => {
        $(
            mod $test {
                use crate::layout::{Abi, Pages};

                #[test]
                fn bits64_one_page() {
                    super::$test(Abi::Bits64, Pages::One);
                }

                #[test]
                fn bits32_one_page() {
                    super::$test(Abi::Bits32, Pages::One);
                }

                #[test]
                fn bits64_two_pages() {
                    super::$test(Abi::Bits64, Pages::Two);
                }

                #[test]
                fn bits32_two_pages() {
                    super::$test(Abi::Bits32, Pages::Two);
                }
            }
        )*
    };
}

with_every_ring! {
    the_next_request_and_two_indices_are_copied_in
    req_prod_is_loaded_once
    a_request_published_after_the_load_is_served_whole
    a_waiting_request_is_not_copied_again
    a_req_prod_moved_back_takes_its_requests_back
    an_overrun_drawn_back_leaves_nothing_copied
    an_overrun_drawn_back_serves_the_ring_as_it_is
    no_request_is_copied_beyond_the_ring
    every_request_of_a_full_ring_is_copied
    a_response_leaves_what_the_guest_wrote_meanwhile
    rsp_event_is_looked_at_again
    req_prod_is_looked_at_again
    responses_of_a_list_go_out_together
    rsp_event_is_looked_at_again_after_a_list
    an_empty_list_leaves_the_ring
    an_idle_turn_writes_req_event_alone
    turns_and_completions_through_a_live_ring
    lists_through_a_live_ring
    a_broken_port_is_neither_read_nor_armed_but_completes
    a_port_left_out_is_neither_read_nor_armed_but_completes
    opening_lets_in_and_broken_stays_broken
    every_slot_comes_round
    a_port_is_metered_across_openings
    nothing_of_another_ring_stays
    a_port_opened_anew_has_the_ring_of_its_new_sheet
}

type Page = [AtomicU32; PAGE_WORDS];

/// A guest with its ring.
struct Guest {
    /// Two pages, apart in memory and in the other order.
    memory: &'static [Page; 3],
    abi: Abi,
    pages: Pages,
}

impl Guest {
    /// A ring of the pattern with all indices 0.
    fn new(abi: Abi, pages: Pages) -> Guest {
        let pattern = || AtomicU32::new(u32::from_ne_bytes([PATTERN; 4]));
        let page = || std::array::from_fn(|_| pattern());
        let guest = Guest {
            memory: Box::leak(Box::new([page(), page(), page()])),
            abi,
            pages,
        };
        guest.zero_indices();
        guest
    }

    fn zero_indices(&self) {
        for at in [REQ_PROD, REQ_EVENT, RSP_PROD, RSP_EVENT] {
            self.set(at, 0);
        }
    }

    /// The same memory in the hands of a guest of the other layout and size.
    fn other(&self) -> Guest {
        let abi = match self.abi {
            Abi::Bits64 => Abi::Bits32,
            Abi::Bits32 => Abi::Bits64,
        };
        let pages = match self.pages {
            Pages::One => Pages::Two,
            Pages::Two => Pages::One,
        };
        Guest {
            abi,
            pages,
            ..*self
        }
    }

    fn page(&self, number: usize) -> &'static Page {
        &self.memory[2 - 2 * number]
    }

    /// The ring as a host has it mapped.
    fn share(&self) -> SharedRing {
        let map = |number| Mapping::of_atomics(self.page(number));
        match self.pages {
            Pages::One => SharedRing::one_page(map(0), self.abi),
            Pages::Two => SharedRing::two_pages([map(0), map(1)], self.abi),
        }
    }

    /// The same with both pages mapped, whatever is used of them.
    fn share_all(&self) -> SharedRing {
        let pages = Pages::Two;
        Guest { pages, ..*self }.share()
    }

    /// The ring and its private one, as they are when the port was opened.
    fn opened(&self) -> (SharedRing, [u8; RING_BYTES]) {
        let (mut shared, mut private) = (self.share(), [PATTERN; RING_BYTES]);
        shared.restart(self.abi, self.pages, &mut private);
        (shared, private)
    }

    /// Mode w, flush offered, 2,008 sectors of 512 bytes.
    fn sheet(&self) -> Vec<u8> {
        let sheet = Sheet {
            writable: true,
            flush: true,
            sector_size: 512,
            sectors: 2008,
            abi: self.abi,
            pages: self.pages,
            ..Sheet::default()
        };
        sheet.bytes()
    }

    fn slot_at(&self, index: u32) -> usize {
        self.abi.slot_at(self.pages, index)
    }

    /// The bytes of an index's slot within the ring.
    fn slot(&self, index: u32) -> Range<usize> {
        let at = self.slot_at(index);
        at..at + self.abi.slot_bytes()
    }

    /// Those that a response has.
    fn response(&self, index: u32) -> Range<usize> {
        let at = self.slot_at(index);
        at..at + self.abi.response_bytes()
    }

    /// A word of the ring, whichever page it is in.
    fn word(&self, at: usize) -> &'static AtomicU32 {
        &self.page(at / PAGE_BYTES)[at % PAGE_BYTES / 4]
    }

    /// Writes whole words, from a multiple of four on.
    fn write(&self, at: usize, bytes: &[u8]) {
        for (at, bytes) in (at..).step_by(4).zip(bytes.chunks_exact(4)) {
            let bytes = bytes.try_into().expect("four bytes");
            self.word(at)
                .store(u32::from_ne_bytes(bytes), Ordering::Relaxed);
        }
    }

    fn set(&self, at: usize, value: u32) {
        self.write(at, &value.to_le_bytes());
    }

    fn get(&self, at: usize) -> u32 {
        read_u32(&self.bytes(), at)
    }

    /// Both pages in the order of the ring.
    fn bytes(&self) -> Vec<u8> {
        let words = (0..RING_PAGES).flat_map(|number| self.page(number));
        words
            .flat_map(|word| word.load(Ordering::Relaxed).to_ne_bytes())
            .collect()
    }

    /// Puts a request of no segments at an index.
    fn put(&self, index: u32, operation: u8) {
        let mut slot = vec![0; self.abi.slot_bytes()];
        slot[0] = operation;
        slot[self.abi.id_at()] = index as u8;
        self.write(self.slot_at(index), &slot);
    }

    /// Puts a request and publishes it.
    fn post(&self, index: u32, operation: u8) {
        self.put(index, operation);
        self.set(REQ_PROD, index.wrapping_add(1));
    }

    /// The bytes that differ from earlier ones.
    fn changed(&self, before: &[u8]) -> Vec<usize> {
        let now = self.bytes();
        (0..RING_BYTES)
            .filter(|&at| now[at] != before[at])
            .collect()
    }
}

fn port(number: u32) -> Port {
    Port::try_from(number).unwrap()
}

/// A backend with port 2 open over a guest's ring.
fn opened(abi: Abi, pages: Pages) -> (LiveBackend, Guest) {
    let (mut backend, guest) = (LiveBackend::new().unwrap(), Guest::new(abi, pages));
    let ring = guest.share();
    backend.open(port(2), &guest.sheet(), ring).unwrap();
    (backend, guest)
}

/// The operations of the requests in a private ring, from index 0 on.
fn operations<const COUNT: usize>(guest: &Guest, private: &[u8; RING_BYTES]) -> [u8; COUNT] {
    std::array::from_fn(|index| private[guest.slot_at(index as u32)])
}

fn started(turn: Turn) -> Plan {
    match turn {
        Turn::Started(plan) => plan,
        other => panic!("nothing was started: {other}"),
    }
}

/// The guest publishes after the first look.
fn req_prod_is_looked_at_again(abi: Abi, pages: Pages) {
    let (mut backend, guest) = opened(abi, pages);
    guest.put(0, FLUSH);
    meanwhile(move || guest.set(REQ_PROD, 1));
    assert_eq!(started(backend.turn()).name.port, port(2));
}

/// However many wait.
fn the_next_request_and_two_indices_are_copied_in(abi: Abi, pages: Pages) {
    let guest = Guest::new(abi, pages);
    let (mut shared, mut private) = guest.opened();
    let mut due = private;
    guest.set(REQ_PROD, pages.slots());
    guest.set(REQ_EVENT, 55);
    guest.set(RSP_PROD, 66);
    guest.set(RSP_EVENT, 77);
    write_u32(&mut due, REQ_PROD, pages.slots());
    write_u32(&mut due, RSP_EVENT, 77);
    for index in 0..2 {
        let slot = vec![7 + index as u8; abi.slot_bytes()];
        guest.write(guest.slot_at(index), &slot);
        due[guest.slot(index)].copy_from_slice(&slot);
        shared.copy_in(&mut private);
        assert_eq!(private, due);
        shared.took_request();
    }
}

/// What the guest writes between the load of req_prod and that of the request changes neither the index
/// that the call is given, nor whether a request goes with it.
fn req_prod_is_loaded_once(abi: Abi, pages: Pages) {
    let beyond = pages.slots() + 1;
    for (loaded, later) in [(0, 1), (1, 0), (1, 2), (1, beyond), (beyond, 1)] {
        let guest = Guest::new(abi, pages);
        let (mut shared, mut private) = guest.opened();
        guest.put(0, FLUSH);
        guest.set(REQ_PROD, loaded);
        let (req_prod, slot_at) = (guest.word(REQ_PROD), guest.slot_at(0));
        after_the_index(move || req_prod.store(later.to_le(), Ordering::Relaxed));
        shared.copy_in(&mut private);
        assert_eq!(guest.get(REQ_PROD), later, "the guest was let in");
        assert_eq!(read_u32(&private, REQ_PROD), loaded);
        let due = if loaded == 1 { FLUSH } else { 0 };
        assert_eq!(private[slot_at], due, "{loaded}, then {later}");
    }
}

/// The same by a turn: a request that is published so is served in the second look, whole.
fn a_request_published_after_the_load_is_served_whole(abi: Abi, pages: Pages) {
    let (mut backend, guest) = opened(abi, pages);
    guest.put(0, FLUSH);
    let req_prod = guest.word(REQ_PROD);
    after_the_index(|| req_prod.store(1u32.to_le(), Ordering::Relaxed));
    assert_eq!(started(backend.turn()).operation, Operation::Flush);
}

/// A request can be rewritten until it is copied.
fn a_waiting_request_is_not_copied_again(abi: Abi, pages: Pages) {
    let guest = Guest::new(abi, pages);
    let (mut shared, mut private) = guest.opened();
    guest.post(0, 1);
    guest.post(1, 1);
    shared.copy_in(&mut private);
    guest.put(0, 2);
    guest.put(1, 2);
    guest.post(2, 2);
    shared.copy_in(&mut private);
    assert_eq!(operations(&guest, &private), [1, 0, 0]);
    shared.took_request();
    shared.copy_in(&mut private);
    assert_eq!(operations(&guest, &private), [1, 2, 0]);
}

/// Behind the next request; with fewer that wait behind that one it stays as it is.
fn a_req_prod_moved_back_takes_its_requests_back(abi: Abi, pages: Pages) {
    for (back, due) in [(2, 1), (1, 1), (0, 2)] {
        let guest = Guest::new(abi, pages);
        let (mut shared, mut private) = guest.opened();
        guest.put(0, 1);
        guest.set(REQ_PROD, 3);
        shared.copy_in(&mut private);
        guest.set(REQ_PROD, back);
        shared.copy_in(&mut private);
        guest.post(0, 2);
        shared.copy_in(&mut private);
        assert_eq!(operations(&guest, &private), [due], "{back}");
    }
}

/// With so many in flight, a req_prod so far beyond the room there is.
const BEYOND: [(u32, u32); 5] = [(0, 1), (0, 8), (3, 1), (3, 3), (3, 8)];

/// What waits when req_prod was beyond the ring and has come back is what the ring holds then, not
/// what it held before.
fn an_overrun_drawn_back_leaves_nothing_copied(abi: Abi, pages: Pages) {
    for (in_flight, beyond) in BEYOND {
        let guest = Guest::new(abi, pages);
        let (mut shared, mut private) = guest.opened();
        (0..in_flight).for_each(|_| shared.took_request());
        guest.post(in_flight, 1);
        shared.copy_in(&mut private);
        guest.set(REQ_PROD, pages.slots() + beyond);
        shared.copy_in(&mut private);
        guest.post(in_flight, 2);
        shared.copy_in(&mut private);
        let copied = private[guest.slot_at(in_flight)];
        assert_eq!(copied, 2, "{in_flight} in flight, {beyond} beyond");
    }
}

/// The same by turns: while port 2 is beyond the ring, port 1 is served, a guest of the other layout and
/// size, and while its request is copied, port 0.
fn an_overrun_drawn_back_serves_the_ring_as_it_is(abi: Abi, pages: Pages) {
    for (in_flight, beyond) in BEYOND {
        let (mut backend, guest) = opened(abi, pages);
        let Guest { abi, pages, .. } = guest.other();
        let others = [0, 1].map(|number| {
            let other = Guest::new(abi, pages);
            let ring = other.share();
            backend.open(port(number), &other.sheet(), ring).unwrap();
            other
        });
        for index in 0..in_flight {
            guest.post(index, FLUSH);
            assert_eq!(started(backend.turn()).name.port, port(2));
        }
        guest.post(in_flight, FLUSH);
        for (number, other) in (0..).zip(&others) {
            other.post(0, FLUSH);
            assert_eq!(started(backend.turn()).name.port, port(number));
            guest.set(REQ_PROD, guest.pages.slots() + beyond);
        }
        // Copied as a flush two turns ago; drawn back, it is something else.
        guest.post(in_flight, UNKNOWN);
        let Turn::Answered {
            port: at, reason, ..
        } = backend.turn()
        else {
            panic!("an unknown operation is answered: {in_flight}, {beyond}");
        };
        assert_eq!((at, reason), (port(2), Reason::UnknownOperation));
    }
}

fn no_request_is_copied_beyond_the_ring(abi: Abi, pages: Pages) {
    let slots = pages.slots();
    for (req_prod, copied) in [(slots, true), (slots + 1, false), (u32::MAX, false)] {
        let guest = Guest::new(abi, pages);
        let (mut shared, mut private) = guest.opened();
        guest.set(REQ_PROD, req_prod);
        shared.copy_in(&mut private);
        let (slot, behind) = private[guest.slot_at(0)..].split_at(abi.slot_bytes());
        let due = if copied { PATTERN } else { 0 };
        assert!(slot.iter().all(|&byte| byte == due), "{req_prod}");
        assert!(behind.iter().all(|&byte| byte == 0), "{req_prod}");
    }
}

/// Every byte of every slot, that of both pages too; the bytes are counted through, so that none can
/// stand for another.
fn every_request_of_a_full_ring_is_copied(abi: Abi, pages: Pages) {
    let guest = Guest::new(abi, pages);
    let (mut shared, mut private) = guest.opened();
    let mut due = private;
    guest.set(REQ_PROD, pages.slots());
    write_u32(&mut due, REQ_PROD, pages.slots());
    for slot in 0..pages.slots() {
        let bytes: Vec<u8> = (0..abi.slot_bytes())
            .map(|at| (at as u8).wrapping_add(7u8.wrapping_mul(slot as u8)))
            .collect();
        guest.write(guest.slot_at(slot), &bytes);
        due[guest.slot(slot)].copy_from_slice(&bytes);
        shared.copy_in(&mut private);
        assert_eq!(private, due);
        shared.took_request();
    }
}

fn a_response_leaves_what_the_guest_wrote_meanwhile(abi: Abi, pages: Pages) {
    let guest = Guest::new(abi, pages);
    let (mut shared, mut private) = guest.opened();
    guest.post(0, UNKNOWN);
    shared.copy_in(&mut private);
    // The call's part: the response in slot 0, and rsp_prod.
    shared.took_request();
    private[guest.response(0)].fill(0xEE);
    write_u32(&mut private, RSP_PROD, 1);
    // The guest's part, after the copying in.
    guest.post(1, FLUSH);
    guest.write(guest.response(0).end, &[0x11; 96]);
    guest.set(REQ_EVENT, 99);
    let mut due = guest.bytes();
    due[guest.response(0)].fill(0xEE);
    write_u32(&mut due, RSP_PROD, 1);
    assert!(!shared.copy_response_out(&private, false));
    assert_eq!(guest.bytes(), due);
}

/// Of a private ring whose bytes are all others than the guest's, a response's bytes go out.
#[test]
fn responses_by_the_numbers_of_the_rules() {
    for (abi, pages, slot_bytes, response_bytes, slots) in [
        (Abi::Bits64, Pages::One, 112, 16, 32),
        (Abi::Bits32, Pages::One, 108, 12, 32),
        (Abi::Bits64, Pages::Two, 112, 16, 64),
        (Abi::Bits32, Pages::Two, 108, 12, 64),
    ] {
        let guest = Guest::new(abi, pages);
        let (mut shared, private) = (guest.opened().0, [0xEE; RING_BYTES]);
        for index in 0..2 * slots {
            let slot = 64 + slot_bytes * (index % slots);
            guest.write(RSP_PROD, &[PATTERN; 4]);
            guest.write(slot, &vec![PATTERN; slot_bytes]);
            let before = guest.bytes();
            let _ = shared.copy_response_out(&private, false);
            let response = slot..slot + response_bytes;
            let due: Vec<usize> = (RSP_PROD..RSP_PROD + 4).chain(response).collect();
            assert_eq!(guest.changed(&before), due, "{abi}, {pages}, {index}");
        }
    }
}

fn rsp_event_is_looked_at_again(abi: Abi, pages: Pages) {
    for (event, said, due) in [
        (0, false, false),
        (1, false, true),
        (2, false, false),
        (2, true, true),
        (u32::MAX, false, false),
    ] {
        let guest = Guest::new(abi, pages);
        let (mut shared, private) = guest.opened();
        // The guest goes to sleep after the call has looked.
        guest.set(RSP_EVENT, event);
        let told = shared.copy_response_out(&private, said);
        assert_eq!(told, due, "rsp_event {event}, the call said {said}");
    }
}

/// Of every length, from every slot on: the responses' bytes and rsp_prod, around the ring's end too.
fn responses_of_a_list_go_out_together(abi: Abi, pages: Pages) {
    let guest = Guest::new(abi, pages);
    let (mut shared, private) = (guest.opened().0, [0xEE; RING_BYTES]);
    let mut first = 0;
    for responses in (1..=pages.slots()).chain([3, pages.slots()]) {
        guest.write(0, &[PATTERN; RING_BYTES]);
        let before = guest.bytes();
        let _ = shared.copy_responses_out(responses, &private, false);
        let listed = (first..first + responses).flat_map(|index| guest.response(index));
        let mut due: Vec<usize> = (RSP_PROD..RSP_PROD + 4).chain(listed).collect();
        due.sort_unstable();
        assert_eq!(guest.changed(&before), due, "{responses} from {first}");
        first += responses;
    }
}

/// Once for all: an index from behind the old one up to the new one asks for it.
fn rsp_event_is_looked_at_again_after_a_list(abi: Abi, pages: Pages) {
    for (event, said, due) in [
        (4, false, false),
        (5, false, true),
        (7, false, true),
        (9, false, true),
        (10, false, false),
        (10, true, true),
        (u32::MAX, false, false),
    ] {
        let guest = Guest::new(abi, pages);
        let (mut shared, private) = guest.opened();
        let _ = shared.copy_responses_out(4, &private, false);
        guest.set(RSP_EVENT, event);
        let told = shared.copy_responses_out(5, &private, said);
        assert_eq!(told, due, "rsp_event {event}, the call said {said}");
    }
}

fn an_empty_list_leaves_the_ring(abi: Abi, pages: Pages) {
    let (mut backend, guest) = opened(abi, pages);
    guest.post(0, FLUSH);
    let plan = started(backend.turn());
    // Neither rsp_prod, which a guest may have spoilt, nor a notice for the responses before.
    for (rsp_prod, rsp_event) in [(77, 0), (0, 1), (u32::MAX, u32::MAX)] {
        guest.set(RSP_PROD, rsp_prod);
        guest.set(RSP_EVENT, rsp_event);
        let before = guest.bytes();
        let done = backend.complete_many(port(2), &[]).unwrap();
        assert_eq!((done.statuses(), done.notify), (&[][..], false));
        assert_eq!(guest.changed(&before), [0; 0]);
    }
    backend.complete(plan.name, 0).map(drop).unwrap();
    assert_eq!(guest.get(RSP_PROD), 1);
}

fn an_idle_turn_writes_req_event_alone(abi: Abi, pages: Pages) {
    let (mut backend, guest) = opened(abi, pages);
    guest.set(REQ_EVENT, 0x0202_0202);
    let before = guest.bytes();
    assert_eq!(backend.turn(), Turn::Idle);
    assert_eq!(guest.get(REQ_EVENT), 1);
    assert_eq!(guest.changed(&before), [4, 5, 6, 7]);
}

fn turns_and_completions_through_a_live_ring(abi: Abi, pages: Pages) {
    let (mut backend, guest) = opened(abi, pages);
    guest.post(0, UNKNOWN);
    guest.post(1, FLUSH);
    guest.set(RSP_EVENT, 2);
    let answered = Turn::Answered {
        port: port(2),
        reason: Reason::UnknownOperation,
        status: Status::NotSupported,
        notify: false,
    };
    assert_eq!(backend.turn(), answered);
    assert_eq!(guest.get(RSP_PROD), 1);
    let before = guest.bytes();
    let plan = started(backend.turn());
    assert_eq!(
        guest.changed(&before),
        [0; 0],
        "a start changes no byte of the ring"
    );
    let result = plan.expected_result();
    let stale = Name {
        serial: Serial(7),
        ..plan.name
    };
    assert_eq!(backend.complete(stale, result), Err(Refusal::NotBusy));
    let done = backend.complete(plan.name, result).unwrap();
    assert_eq!((done.status, done.notify), (Status::Okay, true));
    assert_eq!(guest.get(RSP_PROD), 2);
    assert_eq!(guest.bytes()[guest.response(1)], {
        let mut response = vec![0; abi.response_bytes()];
        (response[0], response[8]) = (1, FLUSH);
        response
    });
    assert_eq!(backend.turn(), Turn::Idle);
    assert_eq!(guest.get(REQ_EVENT), 3);
}

/// As many as the ring has, in lists of growing lengths, last started first.
fn lists_through_a_live_ring(abi: Abi, pages: Pages) {
    let (mut backend, guest) = opened(abi, pages);
    (0..pages.slots()).for_each(|index| guest.post(index, FLUSH));
    let starts = (0..pages.slots()).map(|_| started(backend.turn()));
    let mut ended: Vec<Entry> = starts.map(|plan| Entry::of(plan.name, -5)).collect();
    let mut answered = 0;
    for length in [1, 2, 5, 24].into_iter().chain([32]) {
        let list = ended.split_off(ended.len().saturating_sub(length));
        if list.is_empty() {
            break;
        }
        let list: Vec<Entry> = list.into_iter().rev().collect();
        let last = answered + list.len() as u32;
        guest.set(RSP_EVENT, last);
        let before = guest.bytes();
        let twice = [&list[..], &list[..1]].concat();
        let refused = backend.complete_many(port(2), &twice);
        assert_eq!(refused, Err(Refusal::NotBusy));
        assert_eq!(guest.changed(&before), [0; 0], "a refused list");
        let done = backend.complete_many(port(2), &list).unwrap();
        assert!(done.notify, "the last response is asked for");
        assert_eq!(done.statuses(), vec![Status::Error; list.len()]);
        assert_eq!(guest.get(RSP_PROD), last);
        for index in answered..last {
            let id = (pages.slots() - 1 - index) as u8;
            let response = &guest.bytes()[guest.response(index)];
            assert_eq!((response[0], response[8]), (id, FLUSH));
        }
        answered = last;
    }
    assert_eq!(answered, pages.slots());
    let fault = backend.complete_many(port(1), &[]);
    assert_eq!(fault, Err(Refusal::IsClosed));
}

fn a_broken_port_is_neither_read_nor_armed_but_completes(abi: Abi, pages: Pages) {
    let (mut backend, guest) = opened(abi, pages);
    guest.post(0, FLUSH);
    let plan = started(backend.turn());
    guest.set(REQ_PROD, pages.slots() + 1);
    assert_eq!(backend.turn(), Turn::Overrun(port(2)));
    let before = guest.bytes();
    assert_eq!(backend.turn(), Turn::Idle);
    assert_eq!(guest.changed(&before), [0; 0]);
    assert_eq!(backend.close(port(2)).unwrap_err(), Refusal::InFlight);
    let done = backend.complete(plan.name, -5);
    assert_eq!(done.unwrap().status, Status::Error);
    assert_eq!(guest.get(RSP_PROD), 1);
    let ring = backend.close(port(2)).unwrap();
    // Opened anew over the same ring, all counts start from 0.
    guest.set(RSP_PROD, 0);
    guest.post(0, FLUSH);
    backend.open(port(2), &guest.sheet(), ring).unwrap();
    assert_eq!(started(backend.turn()).name.serial, Serial(0));
}

fn a_port_left_out_is_neither_read_nor_armed_but_completes(abi: Abi, pages: Pages) {
    let (mut backend, guest) = opened(abi, pages);
    let other = Guest::new(abi, pages);
    backend
        .open(port(3), &other.sheet(), other.share())
        .unwrap();
    guest.post(0, FLUSH);
    guest.post(1, FLUSH);
    let plan = started(backend.turn());
    other.post(0, FLUSH);
    assert_eq!(started(backend.turn()).name.port, port(3));
    assert!(backend.leave_out(port(2), true));
    assert_eq!(backend.turn(), Turn::Idle);
    // Nor is an overrun found.
    guest.set(REQ_PROD, pages.slots() + 1);
    guest.set(RSP_EVENT, 1);
    let before = guest.bytes();
    assert_eq!(backend.turn(), Turn::Idle);
    assert_eq!(guest.changed(&before), [0; 0]);
    assert_eq!(backend.close(port(2)).unwrap_err(), Refusal::InFlight);
    assert!(backend.complete(plan.name, 0).unwrap().notify);
    assert_eq!(guest.get(RSP_PROD), 1);
    // Copied as a flush while port 3 was served, and something else when it is let in.
    guest.post(1, UNKNOWN);
    assert_eq!(backend.turn(), Turn::Idle);
    assert!(backend.leave_out(port(2), false));
    assert!(matches!(backend.turn(), Turn::Answered { .. }));
    assert_eq!(guest.get(REQ_EVENT), 0);
    assert_eq!(backend.turn(), Turn::Idle);
    assert_eq!(guest.get(REQ_EVENT), 3);
}

fn opening_lets_in_and_broken_stays_broken(abi: Abi, pages: Pages) {
    let (mut backend, guest) = opened(abi, pages);
    assert!(backend.leave_out(port(2), true));
    let ring = backend.close(port(2)).unwrap();
    assert!(!backend.leave_out(port(2), true));
    guest.post(0, FLUSH);
    backend.open(port(2), &guest.sheet(), ring).unwrap();
    let plan = started(backend.turn());
    guest.set(REQ_PROD, pages.slots() + 1);
    assert_eq!(backend.turn(), Turn::Overrun(port(2)));
    guest.post(1, FLUSH);
    guest.set(REQ_EVENT, 99);
    let before = guest.bytes();
    for out in [true, false] {
        assert!(backend.leave_out(port(2), out));
        assert_eq!(backend.turn(), Turn::Idle);
        assert_eq!(guest.changed(&before), [0; 0]);
    }
    backend.complete(plan.name, 0).map(drop).unwrap();
    assert_eq!(guest.get(RSP_PROD), 1);
    backend.close(port(2)).map(drop).unwrap();
    assert!(!backend.leave_out(port(2), false));
}

#[test]
fn a_closed_port_has_no_ring() {
    let mut backend = LiveBackend::new().unwrap();
    assert_eq!(backend.close(port(0)).unwrap_err(), Refusal::IsClosed);
    let name = Name {
        port: port(0),
        tag: Tag(0),
        serial: Serial(0),
    };
    assert_eq!(backend.complete(name, 0), Err(Refusal::IsClosed));
    assert_eq!(backend.turn(), Turn::Idle);
}

fn every_slot_comes_round(abi: Abi, pages: Pages) {
    let (mut backend, guest) = opened(abi, pages);
    for index in 0..3 * pages.slots() + 4 {
        guest.set(RSP_EVENT, index + 1);
        guest.post(index, FLUSH);
        let plan = started(backend.turn());
        assert_eq!(plan.name.serial, Serial(index));
        let done = backend.complete(plan.name, 0);
        assert!(done.unwrap().notify);
        assert_eq!(guest.get(RSP_PROD), index + 1);
        assert_eq!(guest.bytes()[guest.slot_at(index)], index as u8);
    }
}

/// As many requests in flight as the ring has slots, each with its tag; the next is one too many.
#[test]
fn a_ring_full_of_started_requests() {
    for (abi, pages) in [(Abi::Bits64, Pages::Two), (Abi::Bits32, Pages::Two)] {
        let (mut backend, guest) = opened(abi, pages);
        (0..64).for_each(|index| guest.post(index, FLUSH));
        let plans: Vec<Plan> = (0..64).map(|_| started(backend.turn())).collect();
        assert!((0..)
            .zip(&plans)
            .all(|(tag, plan)| plan.name.tag == Tag(tag)));
        assert_eq!(backend.turn(), Turn::Idle);
        for (index, plan) in (0..).zip(plans.iter().rev()) {
            assert_eq!(backend.complete(plan.name, 0).unwrap().status, Status::Okay);
            assert_eq!(guest.bytes()[guest.slot_at(index)], 63 - index as u8);
        }
        guest.set(REQ_PROD, 64 + 65);
        assert_eq!(backend.turn(), Turn::Overrun(port(2)));
    }
}

fn a_port_is_metered_across_openings(abi: Abi, pages: Pages) {
    let (mut backend, mut guest) = opened(abi, pages);
    guest.post(0, UNKNOWN);
    let _ = backend.turn();
    guest.post(1, FLUSH);
    let plan = started(backend.turn());
    guest.set(REQ_PROD, pages.slots() + 8);
    assert_eq!(backend.turn(), Turn::Overrun(port(2)));
    assert_eq!(backend.meter(port(2)), Meter::of([2, 0, 0, 1]));
    // Idle, so that it takes two looks; and a completion that is doubled.
    assert_eq!(backend.turn(), Turn::Idle);
    backend.complete(plan.name, 0).map(drop).unwrap();
    let doubled = backend.complete(plan.name, 0);
    assert_eq!(doubled, Err(Refusal::NotBusy));
    backend.close(port(2)).map(drop).unwrap();
    guest = guest.other();
    guest.set(RSP_PROD, 0);
    guest.post(0, FLUSH);
    let ring = guest.share();
    backend.open(port(2), &guest.sheet(), ring).unwrap();
    let plan = started(backend.turn());
    assert_eq!(backend.take_meter(port(2)), Meter::of([3, 1, 0, 1]));
    backend.complete(plan.name, -5).map(drop).unwrap();
    assert_eq!(backend.take_meter(port(2)), Meter::of([0, 0, 1, 0]));
    assert_eq!(backend.meter(port(2)), Meter::default());
}

/// Requests copied, taken and answered in a ring of one kind leave nothing for a port opened over the same
/// pages with the other layout and size.
fn nothing_of_another_ring_stays(abi: Abi, pages: Pages) {
    let guest = Guest::new(abi, pages);
    let earlier = guest.other();
    let (mut shared, mut private) = (earlier.share_all(), [PATTERN; RING_BYTES]);
    shared.restart(earlier.abi, earlier.pages, &mut private);
    for index in 0..3 {
        earlier.post(index, 1);
    }
    shared.copy_in(&mut private);
    shared.took_request();
    let _ = shared.copy_response_out(&private, false);
    shared.overran();

    shared.restart(abi, pages, &mut private);
    assert_eq!(private, [0; RING_BYTES]);
    guest.post(0, 2);
    shared.copy_in(&mut private);
    let slot = guest.slot(0);
    assert_eq!(private[slot.clone()], guest.bytes()[slot.clone()]);
    assert_eq!(private[slot.end..], [0; RING_BYTES][slot.end..]);

    private.fill(0xEE);
    let mut due = guest.bytes();
    due[guest.response(0)].fill(0xEE);
    due[RSP_PROD..RSP_PROD + 4].fill(0xEE);
    let _ = shared.copy_response_out(&private, false);
    assert_eq!(guest.bytes(), due);
}

/// The same by calls: the guest connects again over its pages, with the other layout and size.
fn a_port_opened_anew_has_the_ring_of_its_new_sheet(abi: Abi, pages: Pages) {
    let (mut backend, guest) = (LiveBackend::new().unwrap(), Guest::new(abi, pages));
    let ring = guest.share_all();
    backend.open(port(2), &guest.sheet(), ring).unwrap();
    for index in 0..3 {
        guest.post(index, FLUSH);
        let plan = started(backend.turn());
        backend.complete(plan.name, 0).map(drop).unwrap();
    }
    let ring = backend.close(port(2)).unwrap();
    let guest = guest.other();
    guest.set(RSP_PROD, 0);
    let requests = guest.pages.slots();
    for index in 0..requests {
        guest.post(index, FLUSH);
    }
    backend.open(port(2), &guest.sheet(), ring).unwrap();
    for index in 0..requests {
        let plan = started(backend.turn());
        assert_eq!(plan.name.serial, Serial(index));
        let mut due = guest.bytes();
        due[guest.response(index)].fill(0);
        due[guest.response(index).start] = index as u8;
        due[guest.response(index).start + 8] = FLUSH;
        write_u32(&mut due, RSP_PROD, index + 1);
        backend.complete(plan.name, 0).map(drop).unwrap();
        assert_eq!(guest.bytes(), due);
    }
    assert_eq!(backend.turn(), Turn::Idle);
}

/// A port opened for one page over two: whatever is in the second, nothing of it comes in, and nothing
/// goes out there.
#[test]
fn one_page_of_two_leaves_the_second_alone() {
    for abi in Abi::ALL {
        let guest = Guest::new(abi, Pages::One);
        let mut backend = LiveBackend::new().unwrap();
        backend
            .open(port(2), &guest.sheet(), guest.share_all())
            .unwrap();
        for index in 0..70 {
            guest.write(PAGE_BYTES, &[index as u8; PAGE_BYTES]);
            guest.post(index, FLUSH);
            let plan = started(backend.turn());
            backend.complete(plan.name, 0).map(drop).unwrap();
            assert_eq!(backend.turn(), Turn::Idle);
            assert_eq!(guest.bytes()[PAGE_BYTES..], [index as u8; PAGE_BYTES]);
        }
        let (mut shared, mut private) = (guest.share_all(), [PATTERN; RING_BYTES]);
        shared.restart(abi, Pages::One, &mut private);
        guest.set(REQ_PROD, 32);
        shared.copy_in(&mut private);
        assert_eq!(private[PAGE_BYTES..], [0; PAGE_BYTES]);
    }
}

/// Told before anything has happened, also before a refusal; the port is closed as it was.
#[test]
fn a_ring_with_fewer_pages_than_the_sheet_says() {
    for abi in Abi::ALL {
        let (mut backend, guest) = (LiveBackend::new().unwrap(), Guest::new(abi, Pages::Two));
        let one_page = Guest {
            pages: Pages::One,
            ..guest
        };
        let before = guest.bytes();
        let told = backend.open(port(2), &guest.sheet(), one_page.share());
        assert_eq!(told, Err(NotOpened::TooFewPages));
        assert_eq!(backend.close(port(2)).unwrap_err(), Refusal::IsClosed);
        assert_eq!(guest.changed(&before), [0; 0]);
        assert_eq!(backend.turn(), Turn::Idle);
        let ring = guest.share();
        backend.open(port(2), &guest.sheet(), ring).unwrap();
        let told = backend.open(port(2), &guest.sheet(), one_page.share());
        assert_eq!(told, Err(NotOpened::TooFewPages));
        guest.post(0, FLUSH);
        assert_eq!(started(backend.turn()).name.serial, Serial(0));
        let told = backend.open(port(2), &guest.sheet(), guest.share());
        let fault: Box<dyn std::error::Error> = Box::new(told.unwrap_err());
        assert_eq!(fault.to_string(), "refusal 3: port not closed");
    }
    let told = NotOpened::TooFewPages.to_string();
    assert_eq!(told, "a ring of two pages, of which one is mapped");
}

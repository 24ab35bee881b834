//! Which port a turn serves and what an idle one writes, overruns, tags, notifications (sections 4 to 6),
//! with rings of both layouts and both sizes.

use generate::{done_words, turn_words, Ring};
use kernelharp::layout::{
    read_u32, Abi, Pages, PAGE_BYTES, REQ_EVENT, REQ_PROD, RING_BYTES, RSP_EVENT, RSP_PROD,
};
use kernelharp::words::{done, kind, turn, TURN_WORDS};
use second::{Reason, Status, Turned};
use tests::{usual_sheet_of, Ask, Bench};

fn notified(ring: Ring, event: u32, notify: bool) {
    let mut bench = Bench::open(&usual_sheet_of(ring));
    bench.set_u32(0, RSP_EVENT, event);
    // What stands in rsp_prod says nothing.
    bench.set_u32(0, RSP_PROD, 500);
    bench.serve(&Ask::usual_read()).unwrap();
    let mut other = bench.clone();
    let done = bench.complete(0, 0, 0, 8).unwrap();
    assert_eq!(done.notify, notify);
    assert_eq!(done_words(&done)[done::NOTIFY], u64::from(notify));
    assert_eq!(read_u32(bench.ring(0), RSP_PROD), 1);
    other.post(0, &Ask::of(0, 0, 0, 0, 0));
    let answered = Turned::Answered {
        port: 0,
        reason: Reason::WrongAmount,
        status: Status::Error,
        notify,
    };
    assert_eq!(other.turn(), answered);
}

#[test]
fn notify_exactly_at_rsp_event() {
    for ring in Ring::ALL {
        for (event, notify) in [(0, false), (1, true), (2, false), (u32::MAX, false)] {
            notified(ring, event, notify);
        }
    }
}

#[test]
fn turns_go_round() {
    let mut bench = Bench::new();
    for (port, ring) in [(1, Ring::ALL[0]), (3, Ring::ALL[3]), (6, Ring::ALL[2])] {
        bench.backend.open(port, &usual_sheet_of(ring)).unwrap();
        for _ in 0..3 {
            bench.post(port as usize, &Ask::usual_read());
        }
    }
    let mut ports = Vec::new();
    for _ in 0..9 {
        ports.push(turn_words(&bench.turn())[turn::PORT]);
        // Neither opens nor completions move the pointer.
        let _ = bench.backend.open(0, &usual_sheet_of(Abi::Bits32));
    }
    assert_eq!(ports, [1, 3, 6, 1, 3, 6, 1, 3, 6]);
    assert_eq!(bench.turn(), Turned::Idle);
}

#[test]
fn idle_arms_open_ports_only() {
    let mut bench = Bench::new();
    for (port, ring) in [(0, Ring::ALL[0]), (2, Ring::ALL[3]), (5, Ring::ALL[1])] {
        bench.backend.open(port, &usual_sheet_of(ring)).unwrap();
    }
    bench.post(2, &Ask::usual_read());
    bench.turn();
    bench.set_req_prod(5, 33);
    assert_eq!(bench.turn(), Turned::Overrun { port: 5 });
    let mut due = bench.rings.clone();
    assert_eq!(bench.turn(), Turned::Idle);
    due[REQ_EVENT] = 1;
    due[2 * RING_BYTES + REQ_EVENT] = 2;
    assert_eq!(bench.rings, due);
    let words = turn_words(&Turned::Overrun { port: 5 });
    assert_eq!((words[turn::KIND], words[turn::PORT]), (kind::OVERRUN, 5));
    assert_eq!(turn_words(&Turned::Idle), [0; TURN_WORDS]);
}

fn overrun_line(ring: Ring, in_flight: u32) {
    let slots = ring.slots();
    let mut bench = Bench::open(&usual_sheet_of(ring));
    for _ in 0..in_flight {
        bench.serve(&Ask::usual_read()).unwrap();
    }
    let mut full = bench.clone();
    full.set_req_prod(0, slots);
    match full.turn() {
        Turned::Idle => assert_eq!(in_flight, slots),
        Turned::Overrun { .. } => panic!("as many as slots are no overrun"),
        _ => assert!(in_flight < slots),
    }
    bench.set_req_prod(0, slots + 1);
    let lent = bench.rings.clone();
    assert_eq!(bench.turn(), Turned::Overrun { port: 0 });
    assert_eq!(bench.rings, lent);
    // Served no more.
    assert_eq!(bench.turn(), Turned::Idle);
    assert_eq!(bench.rings, lent);
}

#[test]
fn overrun_line_with_requests_in_flight() {
    for ring in Ring::ALL {
        for in_flight in 0..=ring.slots() {
            overrun_line(ring, in_flight);
        }
    }
}

#[test]
fn lowest_free_tag() {
    for ring in Ring::ALL {
        let mut bench = Bench::open(&usual_sheet_of(ring));
        let slots = ring.slots();
        for tag in 0..slots {
            let plan = bench.serve(&Ask::usual_read()).unwrap();
            assert_eq!((plan.tag, plan.serial), (tag, tag));
        }
        let last = slots - 1;
        for tag in [20, 3, last] {
            bench.complete(0, tag, tag, 8).unwrap();
        }
        for (tag, serial) in [(3, slots), (20, slots + 1), (last, slots + 2)] {
            let plan = bench.serve(&Ask::usual_read()).unwrap();
            assert_eq!((plan.tag, plan.serial), (tag, serial));
        }
    }
}

/// Each slot of a ring in turn, twice around: taken from its own place, answered in it, with every
/// byte that the response does not have as it was.
#[test]
fn slots_of_each_layout() {
    for ring in Ring::ALL {
        let mut bench = Bench::open(&usual_sheet_of(ring));
        bench.rings.fill(0xDD);
        for index in 0..2 * ring.slots() {
            let mut ask = Ask::of(9, 0, 0, 0, 0);
            ask.id = 0xF0E0_D0C0_B0A0_9000 + u64::from(index);
            bench.post(0, &ask);
            let mut due = bench.rings.clone();
            let response = [&ask.id.to_le_bytes()[..], &[9, 0, 0xFE, 0xFF], &[0; 4]].concat();
            let response = &response[..ring.abi.response_bytes()];
            due[ring.slot_at(index)..][..response.len()].copy_from_slice(response);
            due[RSP_PROD..][..4].copy_from_slice(&(index + 1).to_le_bytes());
            assert!(matches!(bench.turn(), Turned::Answered { .. }));
            assert_eq!(bench.rings, due, "{ring}, index {index}");
        }
    }
}

/// A port that is opened again begins at index 0, and nothing of its ring before counts.
#[test]
fn reopened_with_another_ring() {
    for (ring, other) in Ring::ALL
        .map(|ring| Ring::ALL.map(|other| (ring, other)))
        .concat()
    {
        let mut bench = Bench::open(&usual_sheet_of(ring));
        for serial in 0..ring.slots() + 3 {
            bench.serve(&Ask::usual_read()).unwrap();
            bench.complete(0, 0, serial, 8).unwrap();
        }
        bench.backend.close(0).unwrap();
        bench.backend.open(0, &usual_sheet_of(other)).unwrap();
        bench.set_req_prod(0, 0);
        let mut fresh = Bench::open(&usual_sheet_of(other));
        for start in 0..u64::from(other.slots()) + 1 {
            let ask = Ask::of(1, 11, start, 0, 7);
            let plan = bench.serve(&ask).unwrap();
            assert_eq!(Ok(&plan), fresh.serve(&ask).as_ref());
            let done = bench.complete(0, plan.tag, plan.serial, 88).unwrap();
            fresh.complete(0, plan.tag, plan.serial, 88).unwrap();
            assert_eq!(done.status, Status::Okay);
        }
        for index in 0..other.slots() {
            assert_eq!(bench.slot(0, index), fresh.slot(0, index));
        }
    }
}

/// The second half of a one-page port's share may hold anything: the same comes of every call, and it
/// stays.
#[test]
fn behind_a_ring_of_one_page() {
    for ring in Abi::ALL.map(Ring::from) {
        let mut zeros = Bench::open(&usual_sheet_of(ring));
        let mut other = zeros.clone();
        other.rings[PAGE_BYTES..RING_BYTES].fill(0xA5);
        for round in 0..70 {
            for bench in [&mut zeros, &mut other] {
                bench.post(0, &Ask::usual_read());
                bench.post(0, &Ask::of(9, 0, 0, 0, 0));
            }
            for _ in 0..3 {
                assert_eq!(zeros.turn(), other.turn());
            }
            let done = zeros.complete(0, 0, 2 * round, 8);
            assert_eq!(done, other.complete(0, 0, 2 * round, 8));
            assert_eq!(zeros.rings[..PAGE_BYTES], other.rings[..PAGE_BYTES]);
            assert_eq!(zeros.rings[RING_BYTES..], other.rings[RING_BYTES..]);
            assert_eq!(zeros.rings[PAGE_BYTES..RING_BYTES], [0; PAGE_BYTES]);
            assert_eq!(other.rings[PAGE_BYTES..RING_BYTES], [0xA5; PAGE_BYTES]);
        }
    }
}

/// A request of a 32-bit guest that begins in the first page and ends in the second.
#[test]
fn a_request_in_both_pages() {
    let ring = Ring::new(Abi::Bits32, Pages::Two);
    let mut bench = Bench::open_at(&usual_sheet_of(ring), 37);
    let ask = Ask::of(1, 11, 88, 0, 7);
    bench.post(0, &ask);
    assert_eq!(bench.rings[4060..4168], ask.bytes(Abi::Bits32));
    let plan = bench.serve_next().unwrap();
    assert_eq!((plan.serial, plan.count, plan.extents.len()), (37, 88, 11));
    assert!(plan.extents.iter().all(|extent| extent.length == 8));
}

/// From just below 2^32 a whole ring is started and completed: serials, slots, rsp_prod and req_event go
/// on from 2^32 - 1 to 0.
#[test]
fn rings_around_the_wrap() {
    for ring in Ring::ALL {
        for before in [1, 2, 31, ring.slots() - 1] {
            let first = 0u32.wrapping_sub(before);
            let mut bench = Bench::open_at(&usual_sheet_of(ring), first);
            for number in 0..ring.slots() {
                bench.post(0, &Ask::usual_read());
                let plan = bench.serve_next().unwrap();
                let due = (number, first.wrapping_add(number));
                assert_eq!((plan.tag, plan.serial), due, "{ring}");
            }
            assert_eq!(bench.turn(), Turned::Idle);
            let next = first.wrapping_add(ring.slots());
            assert_eq!(read_u32(&bench.rings, REQ_EVENT), next.wrapping_add(1));
            let mut beyond = bench.clone();
            beyond.set_u32(0, REQ_PROD, next.wrapping_add(1));
            assert_eq!(beyond.turn(), Turned::Overrun { port: 0 });
            for number in 0..ring.slots() {
                let after = first.wrapping_add(number).wrapping_add(1);
                bench.set_u32(0, RSP_EVENT, after);
                let done = bench.complete(0, number, first.wrapping_add(number), 8);
                assert!(done.unwrap().notify);
                assert_eq!(read_u32(&bench.rings, RSP_PROD), after);
            }
        }
    }
}

//! The lost wake-up from the guest's side: why docs/GUEST.md asks for a look at req_event after
//! req_prod is out, and for a second collect before the guest sleeps. The guest is the library's, and
//! so is the host, which keeps the rules of docs/HOST.md.
//!
//! First in lockstep, in every order that the steps can have, then running freely.

use frontend::{EventChannel, GuestRing};
use generate::Random;
use kernelharp::layout::{Pages, PAGE_BYTES};
use kernelharp::live::{LiveBackend, LiveGuest, OwnPage, SharedRing};
use kernelharp::{Abi, Backend, Guest, Plan, Port, Request, Segment, Turn};
use std::sync::atomic::{fence, Ordering};
use std::thread;
use std::time::{Duration, Instant};
use tests::usual_sheet_of;
use tests::wakeup::{lost, orders, Bells, Lockstep, Side, Word, BOUND};

/// What the host may read and write, and what it may not.
const GRANTED: Segment = frame(0);
const NOT_GRANTED: Segment = frame(1);

const fn frame(frame: u32) -> Segment {
    Segment {
        frame,
        first: 0,
        last: 0,
    }
}

/// A read of one sector, which starts where its frame is granted.
fn read(id: u64, segment: &Segment) -> Request<'_> {
    Request::Read {
        id,
        start: 0,
        segments: std::slice::from_ref(segment),
    }
}

/// A guest by the parts of the rules, so that the host can be let in between any two.
struct Parts {
    guest: Guest,
    own: OwnPage,
    private: Box<[u8; PAGE_BYTES]>,
}

/// The host likewise.
struct HostParts {
    backend: Backend,
    ring: SharedRing,
    port: Port,
}

impl HostParts {
    fn start(&mut self) -> Plan {
        self.ring.copy_in(self.backend.ring_mut(self.port));
        let Turn::Started(plan) = self.backend.turn() else {
            panic!("a sound request starts");
        };
        self.ring.took_request();
        plan
    }

    fn complete(&mut self, plan: &Plan) -> bool {
        let done = self.backend.complete(plan.name, plan.expected_result());
        done.unwrap().notify
    }
}

impl Parts {
    fn put(&mut self, id: u64) -> bool {
        let put = self.guest.put(&mut self.private, &read(id, &GRANTED));
        put.unwrap()
    }

    fn publish(&mut self, said: bool) -> bool {
        self.own.copy_request_out(&self.private, said)
    }

    /// Whether a response was there.
    fn collect(&mut self) -> bool {
        let found = self.guest.collect(&mut self.private).unwrap().is_some();
        if found {
            self.own.took_response();
        }
        found
    }
}

/// Both sides after one request and its response: req_event and rsp_event are behind.
fn warm() -> (Parts, HostParts) {
    let (page, port, abi) = (GuestRing::new(), Port::try_from(0).unwrap(), Abi::Bits64);
    let mut guest = Parts {
        guest: Guest::new().unwrap(),
        own: OwnPage::new(page.mapping()),
        private: Box::new([0; PAGE_BYTES]),
    };
    let mut host = HostParts {
        backend: Backend::new().unwrap(),
        ring: page.shared(abi, Pages::One),
        port,
    };
    host.backend.open(port, &usual_sheet_of(abi)).unwrap();
    host.backend.grants_mut(port)[0] = 2;
    let said = guest.put(1);
    let _ = guest.publish(said);
    let plan = host.start();
    let said = host.complete(&plan);
    let _ = host.ring.copy_response_out(host.backend.ring(port), said);
    guest.own.copy_response_in(&mut guest.private);
    assert!(guest.collect());
    (guest, host)
}

/// The steps of a look, of either side: copy in, call, ask for an event.
const LOOK_STEPS: usize = 3;

/// The guest puts a request while the host looks twice and then sleeps. Says whether the host sleeps
/// over a request that nobody rings for.
fn request_is_lost(order: &[Side], word: Word) -> bool {
    let (mut guest, mut host) = warm();
    let to_host = EventChannel::new();
    let (mut said, mut served) = (false, false);
    let guest_steps = |step| match step {
        0 => guest.own.copy_req_event_in(&mut guest.private),
        1 => said = guest.put(2),
        _ => {
            let seen = guest.publish(said);
            if said || (seen && word == Word::OfTheSecondLook) {
                to_host.notify();
            }
        }
    };
    let host_steps = |step| match step % LOOK_STEPS {
        _ if served => {}
        0 => host.ring.copy_in(host.backend.ring_mut(host.port)),
        1 => served = host.backend.turn() != Turn::Idle,
        _ => {
            host.ring.copy_req_event_out(host.backend.ring(host.port));
            fence(Ordering::SeqCst);
        }
    };
    Lockstep::run(order, guest_steps, host_steps);
    !served && !to_host.heard()
}

/// The host answers while the guest looks so many times and then sleeps. Says whether the guest sleeps
/// over a response that nobody rings for.
fn response_is_lost(order: &[Side]) -> bool {
    let (mut guest, mut host) = warm();
    let said = guest.put(2);
    let _ = guest.publish(said);
    let plan = host.start();
    let to_guest = EventChannel::new();
    let (mut awake, mut said) = (false, false);
    let guest_steps = |step| match step % LOOK_STEPS {
        _ if awake => {}
        0 => guest.own.copy_response_in(&mut guest.private),
        1 => awake = guest.collect(),
        _ => guest.own.copy_rsp_event_out(&guest.private),
    };
    let host_steps = |step| match step {
        0 => host
            .ring
            .copy_rsp_event_in(host.backend.ring_mut(host.port)),
        1 => said = host.complete(&plan),
        _ => {
            if host
                .ring
                .copy_response_out(host.backend.ring(host.port), said)
            {
                to_guest.notify();
            }
        }
    };
    Lockstep::run(order, guest_steps, host_steps);
    !awake && !to_guest.heard()
}

/// Those in which the call is lent req_event before the host sets it, and req_prod goes out after the
/// host's last look at it.
#[test]
fn a_request_is_slept_over_by_the_word_of_the_call() {
    let by_call = |order: &[Side]| request_is_lost(order, Word::OfTheCall);
    assert_eq!(lost(&orders(3, 2 * LOOK_STEPS), by_call), (45, 84));
}

#[test]
fn no_request_is_slept_over_after_a_second_look() {
    let by_second_look = |order: &[Side]| request_is_lost(order, Word::OfTheSecondLook);
    assert_eq!(lost(&orders(3, 2 * LOOK_STEPS), by_second_look), (0, 84));
}

/// Those in which the guest looks before the response is out, and sets rsp_event after that: its last
/// step comes last, and its first before the host's last.
#[test]
fn a_response_is_slept_over_after_one_look() {
    assert_eq!(lost(&orders(LOOK_STEPS, 3), response_is_lost), (9, 20));
}

#[test]
fn no_response_is_slept_over_after_a_second_look() {
    assert_eq!(lost(&orders(2 * LOOK_STEPS, 3), response_is_lost), (0, 84));
}

/// A free run ends with whichever comes first.
const REQUESTS: u64 = 75_000;
const RUN_FOR: Duration = Duration::from_secs(2);

/// A guest that puts requests in small lots, some of which fail a check of the backend's, rings once
/// for a lot, and sleeps until all have their responses.
struct Asker<'a> {
    guest: LiveGuest,
    bells: &'a Bells,
    random: Random,
    put: u64,
    collected: u64,
}

impl Asker<'_> {
    /// Gives how many requests were put.
    fn run(mut self) -> u64 {
        let begin = Instant::now();
        while self.put < REQUESTS && begin.elapsed() < RUN_FOR {
            self.put_lot();
            while self.collected < self.put {
                self.collect();
            }
        }
        self.bells.finish();
        self.put
    }

    fn put_lot(&mut self) {
        let mut notify = false;
        for _ in 0..1 + self.random.below(3) {
            let segment = self.random.pick(&[GRANTED, GRANTED, NOT_GRANTED]);
            notify |= self.guest.put(&read(self.put, &segment)).unwrap();
            self.put += 1;
        }
        if notify {
            self.bells.to_host.notify();
        }
    }

    /// Collects what is there, and sleeps if that is not all.
    fn collect(&mut self) {
        // The two sides meet at another step each time.
        (0..self.random.below(300)).for_each(|_| std::hint::spin_loop());
        match self.guest.collect().unwrap() {
            Some(response) => {
                assert_eq!(response.id, self.collected);
                self.collected += 1;
            }
            None => {
                let rung = self.bells.to_guest.wait(BOUND);
                assert!(rung, "the guest slept over a response");
            }
        }
    }
}

#[test]
fn nobody_sleeps_over_anything_in_a_free_run() {
    let (page, port, abi) = (GuestRing::new(), Port::try_from(0).unwrap(), Abi::Bits64);
    let guest = LiveGuest::new(page.mapping()).unwrap();
    let mut backend = LiveBackend::new().unwrap();
    let sheet = usual_sheet_of(abi);
    backend
        .open(port, &sheet, page.shared(abi, Pages::One))
        .unwrap();
    backend.grants_mut(port)[0] = 2;
    let bells = Bells::default();
    let put = thread::scope(|scope| {
        scope.spawn(|| bells.serve(backend));
        let asker = Asker {
            guest,
            bells: &bells,
            random: Random::new(8),
            put: 0,
            collected: 0,
        };
        asker.run()
    });
    println!("{put} requests, each with its response");
}

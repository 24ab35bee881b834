//! The lost wake-up: why docs/HOST.md asks for a second look before sleeping and after each
//! response. A guest thread and a host thread share a live ring.
//!
//! First in lockstep, in every order that their steps can have: without the rules some orders leave
//! one side asleep for ever, with them none does. Then running freely, with the rules.

use frontend::{EventChannel, Frontend, GuestRing, Request};
use generate::{Random, Ring};
use kernelharp::live::{LiveBackend, SharedRing};
use kernelharp::{Backend, Entry, Plan, Port, Segment, Turn};
use std::sync::atomic::{fence, Ordering};
use std::thread;
use std::time::{Duration, Instant};
use tests::usual_sheet_of;
use tests::wakeup::{lost, orders, Bells, Lockstep, Side, Word, BOUND};

const READ: u8 = 0;
const UNKNOWN: u8 = 9;

/// A read of one sector, which passes every check.
fn read(id: u64) -> Request {
    let segment = Segment {
        frame: 0,
        first: 0,
        last: 0,
    };
    Request::segmented(READ, id, 0, &[segment])
}

/// The two sides of a ring in lockstep. The host goes by the parts of the rules, so that the guest
/// can be let in between any two.
struct Pair {
    frontend: Frontend,
    backend: Backend,
    ring: SharedRing,
    port: Port,
}

impl Pair {
    /// Both sides after one request and its response: req_event and rsp_event are behind.
    fn warm() -> Pair {
        let (memory, port, kind) = (
            GuestRing::new(),
            Port::try_from(0).unwrap(),
            Ring::default(),
        );
        let mut pair = Pair {
            frontend: Frontend::new(memory, kind.abi, kind.pages),
            backend: Backend::new().unwrap(),
            ring: memory.shared(kind.abi, kind.pages),
            port,
        };
        pair.backend.open(port, &usual_sheet_of(kind)).unwrap();
        pair.backend.grants_mut(port)[0] = 2;
        let plan = pair.start(1);
        pair.ring
            .copy_rsp_event_in(pair.backend.ring_mut(pair.port));
        let done = pair.backend.complete(plan.name, 1);
        let said = done.unwrap().notify;
        assert!(pair
            .ring
            .copy_response_out(pair.backend.ring(pair.port), said));
        assert_eq!(pair.frontend.response().map(|it| it.id), Some(1));
        pair
    }

    /// Brings one request in flight.
    fn start(&mut self, id: u64) -> Plan {
        self.frontend.put(&read(id));
        let _ = self.frontend.publish();
        self.ring.copy_in(self.backend.ring_mut(self.port));
        let Turn::Started(plan) = self.backend.turn() else {
            panic!("a sound request starts");
        };
        self.ring.took_request();
        plan
    }
}

/// The steps of a look at the ring: copy in, turn, req_event out.
const LOOK_STEPS: usize = 3;

/// A guest publishes a request while the host looks so many times and then sleeps. Says whether the
/// host sleeps over a request that nobody rings for.
fn request_is_lost(order: &[Side], looks: usize) -> bool {
    assert_eq!(order.len(), 3 + looks * LOOK_STEPS);
    let Pair {
        mut frontend,
        mut backend,
        mut ring,
        port,
    } = Pair::warm();
    let to_host = EventChannel::new();
    let (mut old, mut served) = (0, false);
    let guest = |step| match step {
        0 => frontend.put(&read(2)),
        1 => old = frontend.raise_req_prod(),
        _ if frontend.backend_asked(old) => to_host.notify(),
        _ => {}
    };
    let host = |step| match step % LOOK_STEPS {
        _ if served => {}
        0 => ring.copy_in(backend.ring_mut(port)),
        1 => served = backend.turn() != Turn::Idle,
        _ => {
            ring.copy_req_event_out(backend.ring(port));
            fence(Ordering::SeqCst);
        }
    };
    Lockstep::run(order, guest, host);
    !served && !to_host.heard()
}

/// A guest goes to sleep while the host gives so many responses at once. Says whether the guest sleeps over
/// responses that nobody rings for.
fn response_is_lost(order: &[Side], word: Word, responses: u32) -> bool {
    let mut pair = Pair::warm();
    let ids = (2..).take(responses as usize);
    let plans: Vec<Plan> = ids.map(|id| pair.start(id)).collect();
    let Pair {
        frontend,
        mut backend,
        mut ring,
        port,
    } = pair;
    let to_guest = EventChannel::new();
    let (mut awake, mut said) = (false, false);
    let guest = |step| match step {
        _ if awake => {}
        1 => frontend.ask_for_event(),
        _ => awake = frontend.has_response(),
    };
    let host = |step| match step {
        0 => ring.copy_rsp_event_in(backend.ring_mut(port)),
        1 => said = complete(&mut backend, port, &plans),
        _ => {
            let seen = ring.copy_responses_out(responses, backend.ring(port), said);
            if said || (seen && word == Word::OfTheSecondLook) {
                to_guest.notify();
            }
        }
    };
    Lockstep::run(order, guest, host);
    !awake && !to_guest.heard()
}

/// One plan by itself, several by a list.
fn complete(backend: &mut Backend, port: Port, plans: &[Plan]) -> bool {
    if let [plan] = plans {
        let done = backend.complete(plan.name, plan.expected_result());
        return done.unwrap().notify;
    }
    let entry = |plan: &Plan| Entry::of(plan.name, plan.expected_result());
    let entries: Vec<Entry> = plans.iter().map(entry).collect();
    backend.complete_many(port, &entries).unwrap().notify
}

/// Those that look at req_prod before the request is published, and set req_event after the guest
/// has looked at it: the host's last step comes last, and its first before the guest's second.
#[test]
fn a_request_is_slept_over_after_one_look() {
    let one_look = orders(3, LOOK_STEPS);
    assert_eq!(lost(&one_look, |order| request_is_lost(order, 1)), (7, 20));
}

#[test]
fn no_request_is_slept_over_after_a_second_look() {
    let two_looks = orders(3, 2 * LOOK_STEPS);
    assert_eq!(lost(&two_looks, |order| request_is_lost(order, 2)), (0, 84));
}

/// Those in which the call is lent rsp_event before the guest sets it, and rsp_prod goes out after
/// the guest's last look at it. With a list it is no other.
#[test]
fn a_response_is_slept_over_by_the_word_of_the_call() {
    for responses in [1, 2, 5] {
        let by_call = |order: &[Side]| response_is_lost(order, Word::OfTheCall, responses);
        assert_eq!(lost(&orders(3, 3), by_call), (7, 20));
    }
}

#[test]
fn no_response_is_slept_over_after_a_second_look() {
    for responses in [1, 2, 5] {
        let word = Word::OfTheSecondLook;
        let by_second_look = |order: &[Side]| response_is_lost(order, word, responses);
        assert_eq!(lost(&orders(3, 3), by_second_look), (0, 20));
    }
}

/// A free run ends with whichever comes first.
const REQUESTS: u64 = 75_000;
const RUN_FOR: Duration = Duration::from_secs(2);

/// A guest that sends requests in small lots, and sleeps until each lot has its responses.
struct Asker<'a> {
    frontend: Frontend,
    /// Those that it asks for.
    operations: &'static [u8],
    bells: &'a Bells,
    random: Random,
    sent: u64,
    answered: u64,
}

impl Asker<'_> {
    /// Gives how many requests were sent.
    fn run(mut self) -> u64 {
        let begin = Instant::now();
        while self.sent < REQUESTS && begin.elapsed() < RUN_FOR {
            for _ in 0..1 + self.random.below(3) {
                self.ask();
            }
            self.publish();
            while self.answered < self.sent {
                self.collect();
            }
        }
        self.bells.finish();
        self.sent
    }

    fn ask(&mut self) {
        let mut request = read(self.sent);
        request.operation = self.random.pick(self.operations);
        self.frontend.put(&request);
        self.sent += 1;
        if self.random.chance(50) {
            self.publish();
        }
    }

    fn publish(&mut self) {
        if self.frontend.publish() {
            self.bells.to_host.notify();
        }
    }

    /// Reads what is there, and sleeps if that is not all.
    fn collect(&mut self) {
        while let Some(response) = self.frontend.response() {
            assert_eq!(response.id, self.answered);
            self.answered += 1;
        }
        // The two sides meet at another step each time.
        (0..self.random.below(300)).for_each(|_| std::hint::spin_loop());
        if self.answered < self.sent && !self.frontend.final_check() {
            let rung = self.bells.to_guest.wait(BOUND);
            assert!(rung, "the guest slept over a response");
        }
    }
}

#[test]
fn nobody_sleeps_over_anything_in_a_free_run() {
    for ring in [Ring::ALL[0], Ring::ALL[3]] {
        let serve = |bells: &Bells, backend, _| bells.serve(backend);
        let sent = free_run(ring, &[READ, READ, UNKNOWN], serve);
        println!("{ring}: {sent} requests, each with its response");
        let sent = free_run(ring, &[READ], Bells::serve_by_lists);
        println!("{ring}: {sent} requests, by lists");
    }
}

/// Gives how many requests were sent.
fn free_run(
    ring: Ring,
    operations: &'static [u8],
    serve: impl FnOnce(&Bells, LiveBackend, Port) + Send,
) -> u64 {
    let (memory, port) = (GuestRing::new(), Port::try_from(0).unwrap());
    let Ring { abi, pages } = ring;
    let mut backend = LiveBackend::new().unwrap();
    backend
        .open(port, &usual_sheet_of(ring), memory.shared(abi, pages))
        .unwrap();
    backend.grants_mut(port)[0] = 2;
    let bells = Bells::default();
    thread::scope(|scope| {
        scope.spawn(|| serve(&bells, backend, port));
        let asker = Asker {
            frontend: Frontend::new(memory, abi, pages),
            operations,
            bells: &bells,
            random: Random::new(8),
            sent: 0,
            answered: 0,
        };
        asker.run()
    })
}

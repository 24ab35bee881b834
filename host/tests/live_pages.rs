//! Live pages with guests that write them while calls run: threads on the library's guest's half, which
//! sleep whenever they may, and a host that does. Nobody sleeps over anything, and every id is answered
//! once.

use frontend::EventChannel;
use generate::Random;
use kernelharp::layout::PORTS;
use kernelharp::live::{DirectBackend, LiveGuest, Mapping, Row, PAGE_WORDS, ROW_WORDS};
use kernelharp::{Entry, Port, Request, Segment, Turn};
use std::sync::atomic::{AtomicU32, AtomicUsize, Ordering};
use std::thread;
use tests::usual_sheet;
use tests::wakeup::BOUND;

/// Requests of a guest.
const REQUESTS: u64 = 20_000;

/// The bells between the host and its guests.
struct Bells {
    to_host: EventChannel,
    to_guests: [EventChannel; PORTS],
    /// Guests still at work.
    working: AtomicUsize,
}

/// One guest's run: requests in small lots, some of which are refused.
fn ask(mut guest: LiveGuest, bells: &Bells, port: usize) {
    let (mut random, mut sent, mut answered) = (Random::new(port as u64), 0, 0);
    while answered < REQUESTS {
        for _ in 0..=random.below(4) {
            let segments = [Segment {
                frame: random.below(2) as u32,
                first: 0,
                last: 3,
            }];
            let read = Request::Read {
                id: sent,
                start: 8,
                segments: &segments,
            };
            sent += 1;
            if guest.put(&read).unwrap() {
                bells.to_host.notify();
            }
        }
        // Awake for a while, so that the next requests come while the host is about to sleep.
        let mut awake = random.below(400);
        while answered < sent {
            match guest.collect().unwrap() {
                Some(response) => answered += u64::from(response.id < sent),
                None if awake > 0 => awake -= 1,
                None => assert!(bells.to_guests[port].wait(BOUND), "slept over a response"),
            }
        }
    }
    bells.working.fetch_sub(1, Ordering::SeqCst);
    bells.to_host.notify();
}

/// Serves until the guests have finished; what a look has started is completed by one list or one by one.
fn serve(mut backend: DirectBackend, bells: &Bells) -> DirectBackend {
    let mut begun: [Vec<Entry>; PORTS] = Default::default();
    loop {
        let (port, notify) = match backend.turn() {
            Turn::Started(plan) => {
                let (port, entry) = (plan.name.port, Entry::of(plan.name, plan.expected_result()));
                begun[port.index()].push(entry);
                (port, false)
            }
            Turn::Answered { port, notify, .. } => (port, notify),
            Turn::Idle => match Port::all().find(|port| !begun[port.index()].is_empty()) {
                Some(port) => {
                    let ended = std::mem::take(&mut begun[port.index()]);
                    let done = backend.complete_many(port, &ended).unwrap();
                    (port, done.notify)
                }
                None if bells.working.load(Ordering::SeqCst) == 0 => return backend,
                None => {
                    assert!(bells.to_host.wait(BOUND), "the host slept over a request");
                    continue;
                }
            },
            other => panic!("{other}"),
        };
        if notify {
            bells.to_guests[port.index()].notify();
        }
    }
}

/// A fresh guest, whose page no backend knows of yet.
fn guest(row: &'static [AtomicU32; ROW_WORDS], port: Port) -> LiveGuest {
    let page = &row[ROW_WORDS / PORTS * port.index()..][..PAGE_WORDS];
    LiveGuest::new(Mapping::of_atomics(page.try_into().unwrap())).unwrap()
}

/// One by itself, whose bell nobody else rings, and three side by side.
#[test]
fn nobody_sleeps_over_anything_on_live_pages() {
    run(1);
    run(3);
}

/// A run of so many guests, on the first ports.
fn run(guests: usize) {
    let row = Box::leak(Box::new([const { AtomicU32::new(0) }; ROW_WORDS]));
    let mut backend = DirectBackend::new(Row::of_atomics(row)).unwrap();
    let ports: Vec<Port> = Port::all().take(guests).collect();
    let guests: Vec<LiveGuest> = ports.iter().map(|&port| guest(row, port)).collect();
    for &port in &ports {
        backend.open(port, &usual_sheet()).unwrap();
        backend.grants_mut(port)[0] = 2;
    }
    let bells = Bells {
        to_host: EventChannel::new(),
        to_guests: Default::default(),
        working: AtomicUsize::new(guests.len()),
    };
    let backend = thread::scope(|scope| {
        let host = scope.spawn(|| serve(backend, &bells));
        for (port, guest) in guests.into_iter().enumerate() {
            let bells = &bells;
            scope.spawn(move || ask(guest, bells, port));
        }
        host.join().unwrap()
    });
    for port in ports {
        let counters = backend.counters(port);
        println!("{}", counters.json());
        let answered = counters.okay + counters.errors;
        assert!(answered >= REQUESTS && counters.in_flight == 0);
        assert!(counters.okay > REQUESTS / 3 && counters.errors > REQUESTS / 3);
    }
}

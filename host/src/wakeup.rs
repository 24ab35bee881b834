//! What the tests of wake-ups share: two sides that take their steps in a given order, and a host that
//! sleeps whenever it may.

use frontend::EventChannel;
use kernelharp::live::LiveBackend;
use kernelharp::{Entry, Port, Turn};
use std::sync::atomic::{AtomicBool, Ordering};
use std::sync::{Condvar, Mutex};
use std::thread;
use std::time::Duration;

/// One of the two sides of a ring.
#[derive(Clone, Copy, Debug, PartialEq, Eq)]
pub enum Side {
    /// The guest's.
    Guest,
    /// The host's.
    Host,
}

/// Whose word a side notifies by.
#[derive(Clone, Copy, Debug, PartialEq, Eq)]
pub enum Word {
    /// The call's, which looked before its index was out.
    OfTheCall,
    /// That of the look after it.
    OfTheSecondLook,
}

/// Every order of so many steps of each side.
pub fn orders(guest: usize, host: usize) -> Vec<Vec<Side>> {
    if guest == 0 || host == 0 {
        return vec![[vec![Side::Guest; guest], vec![Side::Host; host]].concat()];
    }
    let after = |last, mut earlier: Vec<Vec<Side>>| {
        earlier.iter_mut().for_each(|order| order.push(last));
        earlier
    };
    let mut all = after(Side::Guest, orders(guest - 1, host));
    all.extend(after(Side::Host, orders(guest, host - 1)));
    all
}

/// How many of the orders lose a wake-up, and of how many.
pub fn lost(orders: &[Vec<Side>], lost: impl Fn(&[Side]) -> bool) -> (usize, usize) {
    let count = orders.iter().filter(|order| lost(order)).count();
    (count, orders.len())
}

/// Lets two threads take their steps in a given order.
#[derive(Default)]
pub struct Lockstep {
    taken: Mutex<usize>,
    moved: Condvar,
}

impl Lockstep {
    /// Each side's steps are numbered from 0.
    pub fn run(
        order: &[Side],
        mut guest: impl FnMut(usize) + Send,
        mut host: impl FnMut(usize) + Send,
    ) {
        let lockstep = Lockstep::default();
        thread::scope(|scope| {
            scope.spawn(|| lockstep.take_part(order, Side::Guest, &mut guest));
            scope.spawn(|| lockstep.take_part(order, Side::Host, &mut host));
        });
    }

    fn take_part(&self, order: &[Side], side: Side, step: &mut impl FnMut(usize)) {
        let places = (0..order.len()).filter(|&place| order[place] == side);
        for (number, place) in places.enumerate() {
            let taken = self.taken.lock().unwrap();
            let mut taken = self.moved.wait_while(taken, |it| *it != place).unwrap();
            step(number);
            *taken += 1;
            self.moved.notify_all();
        }
    }
}

/// Nobody sleeps as long unless a wake-up is lost.
pub const BOUND: Duration = Duration::from_secs(60);

/// The shared part of a run without lockstep.
#[derive(Default)]
pub struct Bells {
    /// Rung by the guest.
    pub to_host: EventChannel,
    /// Rung by the host.
    pub to_guest: EventChannel,
    finished: AtomicBool,
}

impl Bells {
    /// The guest's last word: the host may stop once it is idle.
    pub fn finish(&self) {
        self.finished.store(true, Ordering::SeqCst);
        self.to_host.notify();
    }

    /// Serves until the guest has finished, sleeping whenever a turn is idle.
    pub fn serve(&self, mut backend: LiveBackend) {
        loop {
            let notify = match backend.turn() {
                Turn::Idle if self.finished.load(Ordering::SeqCst) => return,
                Turn::Idle => {
                    assert!(self.to_host.wait(BOUND), "the host slept over a request");
                    false
                }
                Turn::Started(plan) => {
                    let done = backend.complete(plan.name, plan.expected_result());
                    done.unwrap().notify
                }
                Turn::Answered { notify, .. } => notify,
                other => panic!("{other}"),
            };
            if notify {
                self.to_guest.notify();
            }
        }
    }

    /// The same for a port whose requests all start: what it has started by the time a turn is idle is
    /// completed by one list.
    pub fn serve_by_lists(&self, mut backend: LiveBackend, port: Port) {
        let mut ended = Vec::new();
        loop {
            match backend.turn() {
                Turn::Started(plan) => ended.push(Entry::of(plan.name, plan.expected_result())),
                Turn::Idle if !ended.is_empty() => {
                    let done = backend.complete_many(port, &ended);
                    ended.clear();
                    if done.unwrap().notify {
                        self.to_guest.notify();
                    }
                }
                Turn::Idle if self.finished.load(Ordering::SeqCst) => return,
                Turn::Idle => assert!(self.to_host.wait(BOUND), "the host slept over a request"),
                other => panic!("{other}"),
            }
        }
    }
}

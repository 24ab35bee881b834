//! A guest that breaks the rules: rubbish in its slots, sectors of its disk in halves, requests
//! rewritten while they are read, requests of another layout than it said, scribbled indices, req_prod
//! moved back and at last far ahead. Then it connects again, with another ring, as long as others live.

use crate::batch::{BARRIER, DISCARD, READ, WRITE};
use crate::frames::{FRAME_SECTORS, READ_ONLY_FRAMES, READ_WRITE_FRAMES};
use crate::guest::End;
use crate::link::{Link, State, BOUND};
use frontend::{EventChannel, Request};
use generate::Random;
use kernelharp::layout::{REQ_EVENT, REQ_PROD, RSP_EVENT, RSP_PROD};
use kernelharp::{Abi, Pages, Segment};
use std::sync::atomic::Ordering;
use std::time::Duration;

/// How often it is closed for an overrun at least.
const LIVES: u64 = 6;
/// How long it waits for responses before it goes on without them.
const PATIENCE: u32 = 50;
const NAP: Duration = Duration::from_millis(1);

/// The hostile guest.
pub struct Hostile<'a> {
    link: &'a Link,
    /// Those of all guests.
    links: &'a [Link],
    to_host: &'a EventChannel,
    random: Random,
    /// The layout of its ring.
    abi: Abi,
    /// How many pages the ring has.
    pages: Pages,
    /// Requests published.
    req_prod: u32,
}

impl<'a> Hostile<'a> {
    pub fn new(
        link: &'a Link,
        links: &'a [Link],
        to_host: &'a EventChannel,
        (abi, pages): (Abi, Pages),
        random: Random,
    ) -> Hostile<'a> {
        Hostile {
            link,
            links,
            to_host,
            random,
            abi,
            pages,
            req_prod: 0,
        }
    }

    /// Lives several times, each ended by an overrun, until the others have finished too. It checks
    /// nothing.
    pub fn run(mut self, rounds: u64) -> Result<End, String> {
        let (mut ended, mut life) = (Ok(()), 0);
        while ended.is_ok() && (life < LIVES || self.others_live()) {
            if life > 0 {
                self.connect_again();
            }
            self.live(life, rounds);
            ended = self.overrun();
            life += 1;
        }
        self.link.go(State::Finished, self.to_host);
        ended.map(|()| End::default())
    }

    /// One life of its rounds; one that comes after them is cut short when the others have finished.
    fn live(&mut self, life: u64, rounds: u64) {
        for round in rounds * life / LIVES..rounds * (life + 1) / LIVES {
            self.link.rounds.store(round, Ordering::Relaxed);
            let over = life >= LIVES && !self.others_live();
            if over || self.link.state() == State::Closed {
                break;
            }
            self.play();
        }
    }

    fn others_live(&self) -> bool {
        let unfinished = |link: &&Link| link.state() != State::Finished;
        self.links.iter().filter(unfinished).count() > 1
    }

    fn connect_again(&mut self) {
        self.link.ring.init();
        self.req_prod = 0;
        // Both layouts with the one size, then both with the other.
        if self.abi == Abi::Bits32 {
            self.change_size();
        }
        self.change_layout();
        let connected = State::Initialised(self.abi, self.pages);
        self.link.go(connected, self.to_host);
    }

    fn change_size(&mut self) {
        self.pages = match self.pages {
            Pages::One => Pages::Two,
            Pages::Two => Pages::One,
        };
    }

    fn change_layout(&mut self) {
        self.abi = match self.abi {
            Abi::Bits64 => Abi::Bits32,
            Abi::Bits32 => Abi::Bits64,
        };
    }

    /// One game of many.
    fn play(&mut self) {
        match self.random.below(100) {
            0..30 => self.send(Self::rubbish),
            30..55 => self.send(Self::damaged),
            55..60 => self.send(Self::halved),
            60..80 => self.rewrite_while_it_is_read(),
            80..85 => self.mistake_the_ring(),
            85..95 => self.scribble(),
            95..97 => self.take_back(),
            _ => self.to_host.notify(),
        }
        self.settle();
    }

    /// Publishes a few requests.
    fn send(&mut self, make: impl Fn(&mut Self) -> Vec<u8>) {
        for _ in 0..1 + self.random.index(8) {
            let slot = make(self);
            let at = self.slot_at(self.req_prod);
            self.link.ring.write(at, &slot);
            self.req_prod = self.req_prod.wrapping_add(1);
        }
        self.publish(self.req_prod);
    }

    fn slot_at(&self, index: u32) -> usize {
        self.abi.slot_at(self.pages, index)
    }

    /// Requests that change after they were published, and so perhaps after they were checked.
    fn rewrite_while_it_is_read(&mut self) {
        let at = self.slot_at(self.req_prod);
        self.send(Self::sound);
        for _ in 0..64 {
            let slot = self.damaged();
            self.link.ring.write(at, &slot);
        }
    }

    /// Requests as and where a guest of the other layout has them, or one of the other size.
    fn mistake_the_ring(&mut self) {
        let change = self.random.pick(&[Self::change_layout, Self::change_size]);
        change(self);
        self.send(Self::sound);
        change(self);
    }

    /// Writes over words that are the host's.
    fn scribble(&mut self) {
        for at in [REQ_EVENT, RSP_PROD, RSP_EVENT, 16, 60, 4092, 4096, 8188] {
            self.link.ring.store(at, self.random.word() as u32);
        }
        self.send(Self::sound);
    }

    /// Publishes requests and takes the newest back: too late, it is an overrun.
    fn take_back(&mut self) {
        self.send(Self::sound);
        self.req_prod = self.req_prod.wrapping_sub(1);
        self.publish(self.req_prod);
    }

    fn rubbish(&mut self) -> Vec<u8> {
        let mut slot = vec![0; self.abi.slot_bytes()];
        self.random.fill(&mut slot);
        slot
    }

    /// A sound request but for one byte of those that mean something.
    fn damaged(&mut self) -> Vec<u8> {
        let mut slot = self.sound();
        let at = match self.random.below(11) {
            0..3 => self.random.pick(&[0, 1, 1]),
            // The start, and behind it the first segment.
            _ => self.abi.start_at() + self.random.pick(&[0, 2, 7, 8, 9, 12, 13, 13]),
        };
        slot[at] = self.random.byte() >> self.random.below(8);
        slot
    }

    /// A write of one sector of its disk, in two halves.
    fn halved(&mut self) -> Vec<u8> {
        let frame = READ_WRITE_FRAMES as u32;
        let halves = [(0, 3), (4, 7)].map(|(first, last)| Segment { frame, first, last });
        Request::segmented(WRITE, self.random.word(), 0, &halves).slot(self.abi)
    }

    /// A sound request to its own disk and frames.
    fn sound(&mut self) -> Vec<u8> {
        self.sound_request().slot(self.abi)
    }

    /// One in whole sectors of its disk, which are as large as frames.
    fn sound_request(&mut self) -> Request {
        let operation = self.random.pick(&[READ, WRITE, WRITE, BARRIER, DISCARD]);
        let whole = FRAME_SECTORS as u64;
        let (id, start) = (self.random.word(), whole * self.random.below(250));
        if operation == DISCARD {
            let (secure, count) = (self.random.chance(50), whole * (1 + self.random.below(5)));
            return Request::discard(id, secure, start, count);
        }
        let frame = if operation == READ {
            self.random.index(READ_WRITE_FRAMES)
        } else {
            READ_WRITE_FRAMES + self.random.index(READ_ONLY_FRAMES)
        };
        let segment = Segment {
            frame: frame as u32,
            first: 0,
            last: 7,
        };
        let segments = vec![segment; 1 + self.random.index(5)];
        Request::segmented(operation, id, start, &segments)
    }

    fn publish(&mut self, req_prod: u32) {
        std::sync::atomic::fence(Ordering::Release);
        self.link.ring.store(REQ_PROD, req_prod);
        self.to_host.notify();
    }

    /// Waits until all is answered, the port is closed, or its patience ends. Where the rest is not
    /// awaited, the next requests may be an overrun.
    fn settle(&mut self) {
        for _ in 0..PATIENCE {
            let answered = self.link.ring.load(RSP_PROD) == self.req_prod;
            if answered || self.link.state() == State::Closed {
                return;
            }
            let _ = self.link.to_guest.wait(NAP);
        }
    }

    /// Moves req_prod to where no ring can be, and waits until the host has closed the port.
    fn overrun(&mut self) -> Result<(), String> {
        self.publish(self.req_prod.wrapping_add(1000));
        while self.link.state() != State::Closed {
            if !self.link.to_guest.wait(BOUND) {
                return Err("hostile: its port was not closed after an overrun".to_string());
            }
        }
        Ok(())
    }
}

//! Turns: what was served, and how close to a line.

use super::rings::{served_after_class, Standing};
use super::{wrong_length, yes_or_no, Census, ONE_PAGE_RINGS};
use crate::generator::expected;
use crate::Ring;
use history::{History, State};
use kernelharp::layout::{
    read_u32, read_u64, ring, Abi, GRANTS_BYTES, PORTS, PORT_GRANTS, REQ_PROD, RINGS_BYTES,
};
use kernelharp::words::{extent, kind, turn, TurnWords};
use second::{Operation, Reason};

const NOT_GRANTED: u64 = Reason::NotGranted as u64;
const PAST_END: u64 = Reason::PastEnd as u64;

impl Census {
    pub(super) fn note_refused_turn(&mut self, lent: &[u8], grants: &[u8], code: u32) {
        self.tick(&format!("turn refused {code:02}"));
        let wrong = |bytes: &[u8], due| wrong_length(bytes.len(), due);
        match (wrong(lent, RINGS_BYTES), wrong(grants, GRANTS_BYTES)) {
            (Some(rings), None) => {
                self.tick(&format!("turn refused 01, rings {rings}"));
                let halved = lent.len() == ONE_PAGE_RINGS;
                self.tick_if(halved, "turn refused 01, rings of one page each");
            }
            (None, Some(grants)) => self.tick(&format!("turn refused 01, grants {grants}")),
            _ => self.tick("turn refused 01, rings and grants"),
        }
    }

    pub(super) fn note_turn(
        &mut self,
        history: &History,
        lent: &[u8],
        grants: &[u8],
        answer: &TurnWords,
    ) {
        let Some(port) = usize::try_from(answer[turn::PORT])
            .ok()
            .filter(|&p| p < PORTS)
        else {
            return;
        };
        self.note_rings(history, port, answer[turn::KIND]);
        let share = ring(lent, port);
        let mut standing = self.standing(history, port);
        standing.ahead = read_u32(share, REQ_PROD).wrapping_sub(standing.index);
        let abi = standing.ring.abi;
        let slot = &share[standing.ring.slot_at(standing.index)..][..abi.slot_bytes()];
        let grants = &grants[PORT_GRANTS * port..][..PORT_GRANTS];
        match answer[turn::KIND] {
            kind::IDLE => return self.note_idle(history),
            kind::STARTED => {
                let tag = answer[turn::TAG] as u32;
                standing.tag = Some(tag);
                self.books[port].expected.insert(tag, expected(answer));
                self.note_start(abi, answer);
                self.note_close_start(port, answer);
            }
            kind::ANSWERED => {
                self.note_answer(abi, answer, slot[0]);
                self.note_close_answer(abi, answer, slot, grants);
                let in_flight = standing.in_flight;
                self.note_response(&Standing {
                    index: standing.index.wrapping_sub(in_flight),
                    passed: standing.passed.wrapping_sub(in_flight),
                    ..standing
                });
            }
            _ => return self.note_overrun(&standing),
        }
        self.note_boundaries(port, answer, slot, grants);
        self.note_discards(port, answer, slot);
        self.note_served(&standing);
    }

    /// Ports with different rings beside each other.
    fn note_rings(&mut self, history: &History, port: usize, kind: u64) {
        let open = |ring: Ring| {
            let mut ports = 0..PORTS;
            ports.any(|port| history.state(port) == State::Open && self.books[port].ring == ring)
        };
        let all = Ring::ALL.into_iter().all(open);
        self.tick_if(all, "turn with ports of every ring open");
        let ring = self.books[port].ring;
        let served = (kind != kind::IDLE).then_some(ring);
        if let (Some(before), Some(ring)) = (self.last_served, served) {
            self.tick_ring(ring, &served_after_class(before));
        }
        self.last_served = served;
    }

    fn note_idle(&mut self, history: &History) {
        self.tick("idle");
        let states: Vec<State> = (0..PORTS).map(|port| history.state(port)).collect();
        self.tick_if(states.contains(&State::Open), "idle, some port open");
        self.tick_if(states.contains(&State::Broken), "idle, some port broken");
        for port in (0..PORTS).filter(|&port| states[port] == State::Open) {
            self.note_idle_port(&self.standing(history, port));
        }
    }

    fn note_start(&mut self, abi: Abi, answer: &TurnWords) {
        let (operation, extents) = (answer[turn::OPERATION], answer[turn::EXTENT_COUNT]);
        self.tick_of(abi, "started");
        self.tick_of(abi, &format!("started, operation {operation}"));
        let barrier = operation == Operation::Barrier as u64;
        self.tick_of_if(abi, barrier && extents == 0, "started, empty barrier");
        self.tick_of_if(abi, extents == 11, "started, 11 extents");
        let discard = operation == Operation::Discard as u64;
        let long = answer[turn::COUNT] > u64::from(u32::MAX);
        self.tick_of_if(abi, discard && long, "started, discard above 2^32 sectors");
    }

    /// Starts next to a line.
    fn note_close_start(&mut self, port: usize, answer: &TurnWords) {
        let Some(disk) = &self.books[port].disk else {
            return;
        };
        let (abi, sectors) = (self.books[port].ring.abi, disk.sectors);
        let (start, count) = (answer[turn::START], answer[turn::COUNT]);
        let used = answer[turn::EXTENT_COUNT] as usize;
        let mut extents = answer[turn::EXTENTS..].chunks(extent::WORDS).take(used);
        let to_the_end = count > 0 && start.checked_add(count) == Some(sectors);
        self.tick_of_if(abi, to_the_end, "started, up to the last sector");
        let highest = extents.any(|words| words[extent::FRAME] == 1023);
        self.tick_of_if(abi, highest, "started, frame 1023");
    }

    /// Faults next to a line.
    fn note_close_answer(&mut self, abi: Abi, answer: &TurnWords, slot: &[u8], grants: &[u8]) {
        let body = &slot[abi.segments_at()..];
        let segments = || body.chunks(8).take(usize::from(slot[1]));
        let grant = |segment: &[u8]| grants.get(read_u32(segment, 0) as usize).copied();
        match answer[turn::REASON] {
            NOT_GRANTED => {
                let known = segments().all(|segment| grant(segment).is_some());
                let readable = segments().all(|segment| matches!(grant(segment), Some(1 | 2)));
                self.tick_of_if(abi, !known, "answered 27, a frame above 1023");
                let class = "answered 27, every frame granted for reading";
                self.tick_of_if(abi, readable, class);
            }
            PAST_END => {
                let near = read_u64(slot, abi.start_at()) >= u64::MAX - 100;
                self.tick_of_if(abi, near, "answered 28, around 2^64");
            }
            _ => {}
        }
    }

    fn note_answer(&mut self, abi: Abi, answer: &TurnWords, operation: u8) {
        let (reason, status) = (answer[turn::REASON], answer[turn::STATUS]);
        self.tick_of(abi, "answered");
        self.tick_of(abi, &format!("answered {reason}"));
        let unknown = reason == Reason::UnknownOperation as u64;
        if !unknown {
            self.tick_of(abi, &format!("answered {reason}, operation {operation}"));
        }
        self.tick_of_if(abi, unknown && operation == 4, "answered 21, operation 4");
        self.tick_of(abi, &format!("answered, status -{status}"));
        let notify = yes_or_no(answer[turn::NOTIFY]);
        self.tick_of(abi, &format!("answered, notify {notify}"));
    }
}

//! Histories made by hand, for the checker: no backend is in them.

use crate::{usual_sheet, usual_sheet_of};
use generate::Ring;
use history::{Event, History, Record};
use kernelharp::layout::{write_u32, GRANTS_BYTES, PORTS, REQ_PROD, RINGS_BYTES, RING_BYTES};
use kernelharp::words::{done, kind, many, turn, DONE_WORDS, MANY_WORDS, TURN_WORDS};

/// A history with the first `ports` ports open, and the rings lent to it. All requests are
/// zeros: the pair (0, 0), which zeros in a response answer.
pub struct Story {
    /// The checker.
    pub history: History,
    /// The rings that the next call is lent.
    pub rings: Vec<u8>,
    /// The rings as the next call leaves them.
    pub left: Vec<u8>,
}

/// Nothing, or the fault that the checker saw.
pub type Checked = Result<(), String>;

/// Id and operation.
pub type Pair = (u64, u8);

impl Story {
    /// The first `ports` ports are open, and no request is on any ring.
    pub fn new(ports: u32) -> Story {
        let mut story = Story {
            history: History::new(),
            rings: vec![0; RINGS_BYTES],
            left: vec![0; RINGS_BYTES],
        };
        for port in 0..ports {
            story.open(port, 0).unwrap();
        }
        story
    }

    /// A history with port 0 open with a ring, and `req_prod` requests on it.
    pub fn of(ring: impl Into<Ring>, req_prod: u32) -> Story {
        let mut story = Story::new(0);
        story.open_sheet(0, &usual_sheet_of(ring), 0).unwrap();
        story.publish_up_to(0, req_prod);
        story
    }

    /// An open that gave this code.
    pub fn open_sheet(&mut self, port: u32, sheet: &[u8], code: u32) -> Checked {
        self.history.check(&Event::Open { port, sheet, code })
    }

    /// An open of a 64-bit guest's port.
    pub fn open(&mut self, port: u32, code: u32) -> Checked {
        self.open_sheet(port, &usual_sheet(), code)
    }

    /// A close that gave this code.
    pub fn close(&mut self, port: u32, code: u32) -> Checked {
        self.history.check(&Event::Close { port, code })
    }

    /// A port's guest writes req_prod.
    pub fn publish_up_to(&mut self, port: usize, value: u32) {
        write_u32(&mut self.rings, RING_BYTES * port + REQ_PROD, value);
        self.left.clone_from(&self.rings);
    }

    /// Port 0's guest writes a request's pair, where a ring has it.
    pub fn ask(&mut self, ring: impl Into<Ring>, index: u32, (id, operation): Pair) {
        let ring = ring.into();
        let at = ring.slot_at(index);
        self.rings[at] = operation;
        self.rings[at + ring.abi.id_at()..][..8].copy_from_slice(&id.to_le_bytes());
        self.left.clone_from(&self.rings);
    }

    /// The next call leaves a response's pair on port 0's ring.
    pub fn answer(&mut self, ring: impl Into<Ring>, index: u32, (id, operation): Pair) {
        let at = ring.into().slot_at(index);
        self.left[at..][..8].copy_from_slice(&id.to_le_bytes());
        self.left[at + 8] = operation;
    }

    /// The next call leaves a response's status on port 0's ring.
    pub fn answer_status(&mut self, ring: impl Into<Ring>, index: u32, status: i16) {
        let at = ring.into().slot_at(index) + 10;
        self.left[at..][..2].copy_from_slice(&status.to_le_bytes());
    }

    /// A port that was just opened passes over requests.
    pub fn skip(&mut self, port: usize, requests: u32) -> Checked {
        self.history.check(&Event::Skipped { port, requests })
    }

    /// The host zeroes a port's record.
    pub fn zero(&mut self, port: usize) -> Checked {
        self.history.check(&Event::Zeroed { port })
    }

    /// These records, by port, and zeros in all others.
    pub fn records(&self, known: &[(usize, Record)]) -> Checked {
        let mut records = [Record::default(); PORTS];
        for &(port, record) in known {
            records[port] = record;
        }
        self.history.check_records(&records)
    }

    /// A turn whose answer has these words, and zeros.
    pub fn turn(&mut self, words: &[(usize, u64)]) -> Checked {
        let mut answer = [0; TURN_WORDS];
        for &(at, word) in words {
            answer[at] = word;
        }
        let checked = self.history.check(&Event::Turn {
            lent: &self.rings,
            left: &self.left,
            grants: &[0; GRANTS_BYTES],
            code: 0,
            answer: &answer,
        });
        self.rings.clone_from(&self.left);
        checked
    }

    /// A turn that answers a request with a reason.
    pub fn answered(&mut self, port: u64) -> Checked {
        self.turn(&[(turn::KIND, kind::ANSWERED), (turn::PORT, port)])
    }

    /// A turn that starts a request.
    pub fn started(&mut self, port: u64, tag: u64, serial: u64) -> Checked {
        self.turn(&[
            (turn::KIND, kind::STARTED),
            (turn::PORT, port),
            (turn::TAG, tag),
            (turn::SERIAL, serial),
        ])
    }

    /// A turn that finds an overrun.
    pub fn overrun(&mut self, port: u64) -> Checked {
        self.turn(&[(turn::KIND, kind::OVERRUN), (turn::PORT, port)])
    }

    /// A turn that serves nobody.
    pub fn idle(&mut self) -> Checked {
        self.turn(&[(turn::KIND, kind::IDLE)])
    }

    /// A completion that gave this code.
    pub fn complete(&mut self, port: u32, tag: u32, serial: u32, code: u32) -> Checked {
        let mut answer = [0; DONE_WORDS];
        answer[done::PORT] = u64::from(port);
        let checked = self.history.check(&Event::Complete {
            lent: &self.rings,
            left: &self.left,
            port,
            tag,
            serial,
            result: 0,
            code,
            answer: &answer,
        });
        self.rings.clone_from(&self.left);
        checked
    }

    /// A list of completions by tag and serial that gave this code, and tells these statuses, without
    /// their signs.
    pub fn complete_many(
        &mut self,
        port: u32,
        names: &[(u64, u64)],
        statuses: &[u64],
        code: u32,
    ) -> Checked {
        let entries: Vec<u64> = names
            .iter()
            .flat_map(|&(tag, serial)| [tag, serial, 0])
            .collect();
        let mut answer = [0; MANY_WORDS];
        answer[many::PORT] = u64::from(port);
        answer[many::COUNT] = statuses.len() as u64;
        answer[many::STATUSES..][..statuses.len()].copy_from_slice(statuses);
        self.list(port, &entries, code, &answer)
    }

    /// A list of completions, by its words and those of its answer.
    pub fn list(
        &mut self,
        port: u32,
        entries: &[u64],
        code: u32,
        answer: &[u64; MANY_WORDS],
    ) -> Checked {
        let checked = self.history.check(&Event::CompleteMany {
            lent: &self.rings,
            left: &self.left,
            port,
            entries,
            code,
            answer,
        });
        self.rings.clone_from(&self.left);
        checked
    }
}

/// The checker saw a fault, and says these words of it.
#[track_caller]
pub fn faulty(checked: Checked, words: &str) {
    let fault = checked.expect_err("the checker saw no fault");
    assert!(fault.contains(words), "another fault: {fault}");
}

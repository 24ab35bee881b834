//! Counts what occurred in a run, and tells what did not.

mod boundaries;
mod classes;
mod completions;
mod discards;
mod lists;
mod meters;
mod rings;
mod sheets;
mod turns;

use self::classes::expected_classes;
pub(crate) use self::discards::{end_of, flag_of};
use self::rings::{reopened_class, Standing};
use self::sheets::{opened_classes, sheet_faults};
use crate::tally::Tally;
use crate::{Buffer, Ring, Write};
use history::{Event, History, State};
use kernelharp::layout::{
    read_u32, ring, Abi, HEADER_BYTES, PAGE_BYTES, PORTS, REQ_EVENT, REQ_PROD, RING_BYTES, RSP_PROD,
};
use second::{read_sheet, Disk, Refusal};
use std::collections::{HashMap, HashSet};
use std::fmt;

/// How often each class of calls and answers occurred.
#[derive(Debug, Default)]
pub struct Census {
    counts: Tally,
    /// Those that ports of either layout should show, by layout.
    port_counts: [Tally; Abi::ALL.len()],
    /// Those that rings of either layout and size should show.
    ring_counts: [Tally; Ring::ALL.len()],
    books: [PortBooks; PORTS],
    /// The ring of the port that the last turn served.
    last_served: Option<Ring>,
}

/// What the history does not show at once: what was named earlier on a port.
#[derive(Debug, Default)]
struct PortBooks {
    openings: u64,
    disk: Option<Disk>,
    ring: Ring,
    /// How many requests were passed over.
    skipped: u32,
    /// The result expected of each tag's last request.
    expected: HashMap<u32, i32>,
    /// Completed lately in this opening, and in the one before.
    completed: HashSet<(u32, u32)>,
    completed_before: HashSet<(u32, u32)>,
}

impl PortBooks {
    /// A request was completed. Says whether another was named so in the opening before.
    fn note_completed(&mut self, named: (u32, u32)) -> bool {
        if self.completed.len() > 1000 {
            self.completed.clear();
        }
        self.completed.insert(named);
        self.completed_before.contains(&named)
    }
}

impl Census {
    /// Nothing counted yet.
    pub fn new() -> Census {
        Census::default()
    }

    /// How often each class occurred.
    fn all(&self) -> Tally {
        let mut all = self.counts.clone();
        for (abi, counts) in Abi::ALL.into_iter().zip(&self.port_counts) {
            all.add_named(counts, |class| class_of(abi, class));
        }
        for (ring, counts) in Ring::ALL.into_iter().zip(&self.ring_counts) {
            all.add_named(counts, |class| class_of(ring, class));
        }
        all
    }

    /// The classes that should occur in a long run and did not.
    pub fn missing(&self) -> Vec<String> {
        self.all().missing(expected_classes())
    }

    /// Adds another run's counts.
    pub fn add(&mut self, other: &Census) {
        self.counts.add(&other.counts);
        for (counts, others) in self.port_counts.iter_mut().zip(&other.port_counts) {
            counts.add(others);
        }
        for (counts, others) in self.ring_counts.iter_mut().zip(&other.ring_counts) {
            counts.add(others);
        }
    }

    fn tick(&mut self, class: &str) {
        self.counts.tick(class);
    }

    fn tick_if(&mut self, occurred: bool, class: &str) {
        self.counts.tick_if(occurred, class);
    }

    /// Counts a class that either layout should show.
    fn tick_of(&mut self, abi: Abi, class: &str) {
        self.port_counts[abi as usize].tick(class);
    }

    fn tick_of_if(&mut self, abi: Abi, occurred: bool, class: &str) {
        self.port_counts[abi as usize].tick_if(occurred, class);
    }

    /// Counts a class that rings of either layout and size should show.
    fn tick_ring(&mut self, ring: Ring, class: &str) {
        self.ring_counts[ring.number()].tick(class);
    }

    fn tick_ring_if(&mut self, ring: Ring, occurred: bool, class: &str) {
        self.ring_counts[ring.number()].tick_if(occurred, class);
    }

    /// How a port stands before a call that serves its next request, or gives its next response.
    fn standing(&self, history: &History, port: usize) -> Standing {
        let PortBooks { ring, skipped, .. } = self.books[port];
        let index = history.taken(port) as u32;
        Standing {
            ring,
            index,
            passed: index.wrapping_sub(skipped),
            ahead: 0,
            in_flight: history.unfinished(port),
            tag: None,
        }
    }

    /// Counts an entry, with the history as it stood before it. A call refused or done against the
    /// rule is for the checker to report, not for the census to stumble over.
    pub fn note(&mut self, history: &History, event: &Event) {
        if event.code() != history.refusal_due(event) {
            return;
        }
        match *event {
            Event::Open { port, sheet, code } => self.note_open(history, port, sheet, code),
            Event::Close { port, code } => self.note_close(history, port, code),
            Event::Turn {
                lent,
                grants,
                code,
                answer,
                ..
            } => {
                if code == 0 {
                    self.note_turn(history, lent, grants, answer);
                } else {
                    self.note_refused_turn(lent, grants, code);
                }
            }
            Event::Complete {
                lent,
                left,
                port,
                tag,
                serial,
                code,
                answer,
                ..
            } => {
                if code == 0 {
                    self.note_completion(history, left, port as usize, (tag, serial), answer);
                } else {
                    self.note_refused_completion(history, lent, port, (tag, serial), code);
                }
            }
            Event::CompleteMany {
                lent,
                left,
                port,
                entries,
                code,
                answer,
            } => {
                if code == 0 {
                    self.note_list(history, (lent, left), port as usize, entries, answer);
                } else {
                    self.note_refused_list(history, lent, port, entries, code);
                }
            }
            Event::Zeroed { port } => self.note_zeroing(history, port),
            Event::Skipped { port, requests } => {
                self.books[port].skipped = requests;
                let ahead = Standing {
                    index: requests,
                    ..self.standing(history, port)
                };
                self.note_skipped(&ahead);
            }
        }
    }

    /// Counts what guests write before a call, with the rings as the last call left them.
    pub fn note_writes(&mut self, history: &History, rings: &[u8], writes: &[Write]) {
        for write in writes.iter().filter(|write| write.buffer == Buffer::Rings) {
            self.tick("guest wrote between calls");
            let (port, at) = (write.at / RING_BYTES, write.at % RING_BYTES);
            self.tick_if(at == REQ_EVENT, "guest wrote req_event");
            self.tick_if(at == RSP_PROD, "guest wrote rsp_prod");
            if at >= HEADER_BYTES && history.state(port) == State::Open {
                self.note_slot_write(history, port, ring(rings, port), at);
            }
        }
    }

    /// Counts what a guest writes at a byte behind the header.
    fn note_slot_write(&mut self, history: &History, port: usize, share: &[u8], at: usize) {
        let ring = self.books[port].ring;
        if at >= ring.pages.bytes() {
            self.tick_ring(ring, "guest wrote in the second half");
        }
        let begins = |abi: Abi| (at - HEADER_BYTES) % abi.slot_bytes() == 0;
        let astray = !begins(ring.abi) && Abi::ALL.into_iter().any(begins);
        self.tick_ring_if(ring, astray, "guest wrote at a slot of another ring");
        let slot = ((at - HEADER_BYTES) / ring.abi.slot_bytes()) as u32;
        if slot >= ring.slots() {
            return self.tick_ring(ring, "guest wrote behind the last slot");
        }
        let taken = history.taken(port) as u32;
        let slots_after = |index: u32| slot.wrapping_sub(index) % ring.slots();
        let in_flight = history.unfinished(port);
        let over = slots_after(taken.wrapping_sub(in_flight)) < in_flight;
        self.tick_ring_if(ring, over, "guest wrote over a slot in flight");
        let waiting = read_u32(share, REQ_PROD).wrapping_sub(taken);
        let over = slots_after(taken) < waiting && waiting <= ring.slots() - in_flight;
        self.tick_ring_if(ring, over, "guest wrote over a waiting request");
    }

    fn note_open(&mut self, history: &History, port: u32, sheet: &[u8], code: u32) {
        if code != 0 {
            return self.note_refused_open(history, port, sheet, code);
        }
        self.tick("open done");
        for class in opened_classes(sheet) {
            self.tick(&class);
        }
        if let Ok(disk) = read_sheet(sheet) {
            self.tick(if disk.writable {
                "open done, mode w"
            } else {
                "open done, mode r"
            });
            self.tick(&format!("open done, sector-size {}", disk.sector_size));
            self.tick_if(disk.sectors == 0, "open done, 0 sectors");
            self.tick_if(disk.sectors == u64::MAX, "open done, 2^64 - 1 sectors");
        }
        let books = &mut self.books[port as usize];
        let ring = Ring::of_sheet(sheet);
        let before = std::mem::replace(&mut books.ring, ring);
        books.disk = read_sheet(sheet).ok();
        books.skipped = 0;
        books.openings += 1;
        books.completed_before = std::mem::take(&mut books.completed);
        let again = books.openings > 1;
        self.tick_ring(ring, "open done");
        self.tick_ring_if(ring, again, &reopened_class(before));
    }

    fn note_refused_open(&mut self, history: &History, port: u32, sheet: &[u8], code: u32) {
        self.tick(&format!("open refused {code:02}"));
        for why in sheet_faults(sheet, code) {
            self.tick(&why);
        }
        let broken = (port as usize) < PORTS && history.state(port as usize) == State::Broken;
        self.tick_if(
            broken && code == Refusal::NotClosed as u32,
            "open refused 03, broken port",
        );
        let of_the_port = [Refusal::NoPort as u32, Refusal::NotClosed as u32];
        if of_the_port.contains(&code) && read_sheet(sheet).is_err() {
            self.tick(&format!("open refused {code:02}, sheet damaged too"));
        }
    }

    fn note_close(&mut self, history: &History, port: u32, code: u32) {
        if code != 0 {
            self.tick(&format!("close refused {code:02}"));
            return;
        }
        self.tick("close done");
        if history.state(port as usize) == State::Broken {
            self.tick("close done, broken port");
        }
    }
}

impl fmt::Display for Census {
    fn fmt(&self, f: &mut fmt::Formatter) -> fmt::Result {
        self.all().fmt(f)
    }
}

/// A class of a port of one kind.
fn class_of(kind: impl fmt::Display, class: &str) -> String {
    format!("{kind}: {class}")
}

/// A word of an answer that is 0 or 1.
pub(crate) fn yes_or_no(word: u64) -> &'static str {
    if word == 1 {
        "yes"
    } else {
        "no"
    }
}

/// What all rings have where each has one page and no more.
const ONE_PAGE_RINGS: usize = PORTS * PAGE_BYTES;

/// How a length can differ from the due one.
pub(crate) const LENGTHS: [&str; 3] = ["empty", "short", "long"];

/// How a length differs from the due one.
pub(crate) fn wrong_length(bytes: usize, due: usize) -> Option<&'static str> {
    match bytes {
        0 => Some(LENGTHS[0]),
        _ if bytes < due => Some(LENGTHS[1]),
        _ if bytes > due => Some(LENGTHS[2]),
        _ => None,
    }
}

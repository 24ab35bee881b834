//! Lists of completions: their lengths and places, what the guest has asked for, and why others were
//! refused.

use super::rings::{not_busy_class, BOTH, ONE, TWO};
use super::{wrong_length, Census, LENGTHS, ONE_PAGE_RINGS};
use crate::Ring;
use history::{History, State};
use kernelharp::layout::{read_u32, ring, Pages, ENTRIES, PORTS, RINGS_BYTES, RSP_EVENT};
use kernelharp::words::{entry, many, ManyWords};
use second::Refusal;
use std::collections::HashSet;

const WRONG_LENGTH: u32 = Refusal::WrongLength as u32;
const NO_PORT: u32 = Refusal::NoPort as u32;
const IS_CLOSED: u32 = Refusal::IsClosed as u32;
const TOO_MANY: u32 = Refusal::TooMany as u32;

/// What names a request: tag and serial.
type Name = (u64, u64);

/// A list that was done, as its port stood before it.
struct List {
    ring: Ring,
    broken: bool,
    /// The index of its first response, and how many the list has come to before it since the opening.
    old: u32,
    passed: u32,
    in_flight: u32,
    rsp_event: u32,
    tags: Vec<u64>,
    /// Each entry's result, and the one expected of it.
    results: Vec<(u64, i32)>,
    statuses: HashSet<u64>,
}

impl List {
    fn length(&self) -> u32 {
        self.tags.len() as u32
    }

    /// The slot behind its last response, as if the ring went on.
    fn end(&self) -> u32 {
        self.old % self.ring.slots() + self.length()
    }

    fn has_slot(&self, slot: u32) -> bool {
        (0..self.length()).any(|at| self.old.wrapping_add(at) % self.ring.slots() == slot)
    }

    /// Whether its responses go on past the index 2^32 - 1.
    fn wraps(&self) -> bool {
        let new = self.old.wrapping_add(self.length());
        new < self.old && new > 0
    }

    /// Where rsp_event lies, seen from the index before the list.
    fn asked(&self) -> &'static str {
        let (ahead, length) = (self.rsp_event.wrapping_sub(self.old), self.length());
        match ahead {
            0 => "old",
            1 => "first",
            _ if ahead < length => "between",
            _ if ahead == length => "new",
            _ if ahead == length + 1 => "next",
            _ if ahead < 1 << 31 => "beyond",
            _ => "behind",
        }
    }

    /// Whether some result is that number but for its high half.
    fn has_low_half(&self, of: impl Fn(i32) -> i32) -> bool {
        self.results.iter().any(|&(result, expected)| {
            let due = of(expected);
            result as i32 == due && result != i64::from(due) as u64
        })
    }
}

/// Where rsp_event can lie.
const ASKED: [&str; 7] = ["old", "first", "between", "new", "next", "beyond", "behind"];

/// What rings of these sizes should show, and whether it is seen.
type Class = (&'static [Pages], &'static str, fn(&List) -> bool);

const DONE: &[Class] = &[
    (BOTH, "list of 0 done, broken port", |it| {
        it.length() == 0 && it.broken
    }),
    (BOTH, "list of 0 done, nothing in flight", |it| {
        it.length() == 0 && it.in_flight == 0
    }),
    (BOTH, "list of 0 done, rsp_event old", |it| {
        it.length() == 0 && it.asked() == "old"
    }),
    (BOTH, "list done, broken port", |it| {
        it.length() > 1 && it.broken
    }),
    (BOTH, "list done, all that is in flight", |it| {
        it.length() > 1 && it.length() == it.in_flight
    }),
    (BOTH, "list done, some left in flight", |it| {
        it.length() > 1 && it.length() < it.in_flight
    }),
    (BOTH, "list done, tags rising", |it| {
        it.length() > 2 && it.tags.is_sorted()
    }),
    (BOTH, "list done, tags falling", |it| {
        it.length() > 2 && it.tags.is_sorted_by(|one, next| one > next)
    }),
    (BOTH, "list done, all three statuses", |it| {
        it.statuses.len() == 3
    }),
    (BOTH, "list done up to the ring's end", |it| {
        it.length() > 1 && it.end() == it.ring.slots()
    }),
    (BOTH, "list done across the ring's end", |it| {
        it.end() > it.ring.slots() && it.passed > 0
    }),
    (BOTH, "list done up to 2^32", |it| {
        it.length() > 1 && it.old.wrapping_add(it.length()) == 0
    }),
    (BOTH, "list done across 2^32", List::wraps),
    (TWO, "list done across the pages", |it| {
        it.has_slot(31) && it.has_slot(32)
    }),
    (TWO, "list done, slot 37", |it| {
        it.length() > 1 && it.has_slot(37)
    }),
    (BOTH, "list done, expected result in the low half", |it| {
        it.has_low_half(|expected| expected)
    }),
    (BOTH, "list done, -95 in the low half", |it| {
        it.has_low_half(|_| -95)
    }),
];

/// A list that was refused, as its port stood.
struct Refused<'a> {
    history: &'a History,
    port: usize,
    ring: Ring,
    names: Vec<Name>,
}

impl Refused<'_> {
    fn is_sound(&self, (tag, serial): Name) -> bool {
        self.history.is_busy(self.port, tag, serial)
    }

    /// The places of entries that are refused by themselves.
    fn faults(&self) -> Vec<usize> {
        let places = 0..self.names.len();
        places
            .filter(|&at| !self.is_sound(self.names[at]))
            .collect()
    }

    /// Why an entry is refused by itself.
    fn cause(&self, (tag, serial): Name) -> String {
        let Ok(narrow) = u32::try_from(tag) else {
            return WIDE_TAG.into();
        };
        let busy = self.history.is_tag_busy(self.port, narrow);
        if busy && serial > u64::from(u32::MAX) {
            return WIDE_SERIAL.into();
        }
        let class = not_busy_class(self.ring, narrow, busy);
        class.replace("complete ", "list ")
    }

    /// How far apart a tag is named twice, at the least.
    fn least_distance(&self) -> Option<usize> {
        let tags: Vec<u64> = self.names.iter().map(|name| name.0).collect();
        (1..tags.len()).find(|&distance| {
            let pairs = tags.iter().zip(&tags[distance..]);
            pairs.into_iter().any(|(one, other)| one == other)
        })
    }
}

const WIDE_TAG: &str = "list refused 06, tag above 2^32 - 1";
const WIDE_SERIAL: &str = "list refused 06, serial above 2^32 - 1";

/// Why an entry is refused by itself, where rings of these sizes can show it.
const CAUSES: [(&[Pages], &str); 6] = [
    (BOTH, WIDE_TAG),
    (BOTH, WIDE_SERIAL),
    (BOTH, "list refused 06, tag above 63"),
    (ONE, "list refused 06, tag 32 to 63"),
    (BOTH, "list refused 06, tag not busy"),
    (BOTH, "list refused 06, another serial"),
];

/// Where the one entry at fault stands.
const PLACES: [&str; 4] = ["alone", "first", "in between", "last"];

fn length_class(length: u32) -> String {
    format!("list of {length} done")
}

fn place_class(cause: &str, place: &str) -> String {
    format!("{cause}, {place}")
}

/// The greatest distance of a tag that is named twice, in a list that is refused for nothing else.
fn most_distant(pages: Pages) -> usize {
    (pages.slots() as usize).min(ENTRIES - 1)
}

fn distance_class(distance: usize) -> String {
    format!("list refused 06, a tag twice, {distance} apart")
}

fn asked_class(asked: &str, around: &str) -> String {
    format!("list done {around}, rsp_event {asked}")
}

/// What rsp_event is seen with.
const AROUND: [&str; 3] = ["on an open port", "on a broken port", "across 2^32"];

/// What rings of each size should show beside.
const OTHERS: &[&str] = &[
    "list refused 06, 33 to 64 entries",
    "list refused 06, an entry completed before",
    "list refused 06, an entry of an earlier opening",
    "list refused 06, several entries at fault",
    "list refused 06, broken port",
    "list refused 07, 65 entries",
    "list refused 07, an entry at fault too",
    "list refused 07, broken port",
    "list refused 07, more entries",
    "list refused 07, no entry at fault by itself",
];

/// The classes that a ring should show.
pub fn list_ring_classes(ring: Ring) -> Vec<String> {
    let shown = |sizes: &[Pages]| sizes.contains(&ring.pages);
    let done = DONE.iter().filter(|(sizes, ..)| shown(sizes));
    let mut classes: Vec<String> = done.map(|(_, what, _)| String::from(*what)).collect();
    classes.extend((0..=ring.slots()).map(length_class));
    classes.extend(OTHERS.iter().map(|&class| class.into()));
    for (_, cause) in CAUSES.iter().filter(|(sizes, _)| shown(sizes)) {
        classes.extend(PLACES.map(|place| place_class(cause, place)));
    }
    classes.extend((1..=most_distant(ring.pages)).map(distance_class));
    for around in AROUND {
        classes.extend(ASKED.map(|asked| asked_class(asked, around)));
    }
    classes
}

/// The classes that any port should show.
pub fn list_classes() -> Vec<String> {
    let mut classes: Vec<String> = PLAIN_CLASSES.iter().map(|&class| class.into()).collect();
    for number in [1, 2, 4, 6, 7] {
        classes.push(format!("list refused {number:02}"));
    }
    for length in LENGTHS {
        classes.push(format!("list refused 01, rings {length}"));
    }
    classes
}

const PLAIN_CLASSES: &[&str] = &[
    "list refused 01, an entry at fault too",
    "list refused 01, closed port too",
    "list refused 01, more than 64 entries too",
    "list refused 01, one word",
    "list refused 01, one word missing",
    "list refused 01, one word more",
    "list refused 01, port above 7 too",
    "list refused 01, rings and words",
    "list refused 01, rings of one page each",
    "list refused 01, two words",
    "list refused 02, more than 64 entries too",
    "list refused 02, no entry",
    "list refused 04, more than 64 entries too",
    "list refused 04, no entry",
];

impl Census {
    pub(super) fn note_list(
        &mut self,
        history: &History,
        (lent, left): (&[u8], &[u8]),
        port: usize,
        entries: &[u64],
        answer: &ManyWords,
    ) {
        let standing = self.standing(history, port);
        let kind = standing.ring;
        let entries = || entries.chunks_exact(entry::WORDS);
        let books = &self.books[port];
        let expected = |tag: u64| books.expected.get(&(tag as u32)).copied().unwrap_or(0);
        let it = List {
            ring: kind,
            broken: history.state(port) == State::Broken,
            old: standing.index.wrapping_sub(standing.in_flight),
            passed: standing.passed.wrapping_sub(standing.in_flight),
            in_flight: standing.in_flight,
            rsp_event: read_u32(ring(lent, port), RSP_EVENT),
            tags: entries().map(|entry| entry[entry::TAG]).collect(),
            results: entries()
                .map(|entry| (entry[entry::RESULT], expected(entry[entry::TAG])))
                .collect(),
            statuses: answer[many::STATUSES..]
                .iter()
                .copied()
                .take(entries().len())
                .collect(),
        };
        for (sizes, what, holds) in DONE {
            self.tick_ring_if(kind, sizes.contains(&kind.pages) && holds(&it), what);
        }
        self.tick_ring(kind, &length_class(it.length()));
        // With fewer there is nothing between.
        if it.length() >= 3 {
            let around = if it.broken { AROUND[1] } else { AROUND[0] };
            self.tick_ring(kind, &asked_class(it.asked(), around));
            self.tick_ring_if(kind, it.wraps(), &asked_class(it.asked(), AROUND[2]));
        }
        for at in 0..it.length() {
            let slot = kind.slot_at(it.old.wrapping_add(at));
            let operation = ring(left, port)[slot + 8];
            self.tick_of(kind.abi, &format!("listed, operation {operation}"));
        }
        for entry in entries() {
            let [tag, serial] = [entry::TAG, entry::SERIAL].map(|at| entry[at] as u32);
            self.books[port].note_completed((tag, serial));
        }
    }

    pub(super) fn note_refused_list(
        &mut self,
        history: &History,
        lent: &[u8],
        port: u32,
        entries: &[u64],
        code: u32,
    ) {
        self.tick(&format!("list refused {code:02}"));
        let (count, number) = (entries.len() / entry::WORDS, port as usize);
        let too_many = count > ENTRIES;
        let closed = number < PORTS && history.state(number) == State::Closed;
        match code {
            WRONG_LENGTH => {
                self.note_wrong_length(lent, entries);
                self.tick_if(port > 7, "list refused 01, port above 7 too");
                self.tick_if(closed, "list refused 01, closed port too");
                self.tick_if(too_many, "list refused 01, more than 64 entries too");
            }
            NO_PORT => {
                self.tick_if(entries.is_empty(), "list refused 02, no entry");
                self.tick_if(too_many, "list refused 02, more than 64 entries too");
            }
            IS_CLOSED => {
                self.tick_if(entries.is_empty(), "list refused 04, no entry");
                self.tick_if(too_many, "list refused 04, more than 64 entries too");
            }
            _ => {}
        }
        if number >= PORTS || closed {
            return;
        }
        let names = entries.chunks_exact(entry::WORDS);
        let it = Refused {
            history,
            port: number,
            ring: self.books[number].ring,
            names: names
                .map(|entry| (entry[entry::TAG], entry[entry::SERIAL]))
                .collect(),
        };
        match code {
            WRONG_LENGTH => {
                let at_fault = !it.faults().is_empty();
                self.tick_if(at_fault, "list refused 01, an entry at fault too");
            }
            TOO_MANY => self.note_too_many(&it),
            _ => self.note_not_busy(&it),
        }
    }

    fn note_wrong_length(&mut self, lent: &[u8], entries: &[u64]) {
        let odd = entries.len() % entry::WORDS;
        if let Some(rings) = wrong_length(lent.len(), RINGS_BYTES) {
            self.tick(&format!("list refused 01, rings {rings}"));
            let halved = lent.len() == ONE_PAGE_RINGS;
            self.tick_if(halved, "list refused 01, rings of one page each");
            return self.tick_if(odd > 0, "list refused 01, rings and words");
        }
        self.tick(match (entries.len(), odd) {
            (1, _) => "list refused 01, one word",
            (2, _) => "list refused 01, two words",
            (_, 1) => "list refused 01, one word more",
            _ => "list refused 01, one word missing",
        });
    }

    fn note_too_many(&mut self, it: &Refused) {
        let (ring, at_fault) = (it.ring, !it.faults().is_empty());
        self.tick_ring(
            ring,
            if it.names.len() == ENTRIES + 1 {
                "list refused 07, 65 entries"
            } else {
                "list refused 07, more entries"
            },
        );
        self.tick_ring(
            ring,
            if at_fault {
                "list refused 07, an entry at fault too"
            } else {
                "list refused 07, no entry at fault by itself"
            },
        );
        let broken = it.history.state(it.port) == State::Broken;
        self.tick_ring_if(ring, broken, "list refused 07, broken port");
    }

    fn note_not_busy(&mut self, it: &Refused) {
        let (ring, length, faults) = (it.ring, it.names.len(), it.faults());
        let broken = it.history.state(it.port) == State::Broken;
        self.tick_ring_if(ring, broken, "list refused 06, broken port");
        self.tick_ring_if(ring, length > 32, "list refused 06, 33 to 64 entries");
        match (&faults[..], it.least_distance()) {
            ([], Some(distance)) => self.tick_ring(ring, &distance_class(distance)),
            (&[at], None) => {
                let place = match at {
                    _ if length == 1 => PLACES[0],
                    0 => PLACES[1],
                    _ if at + 1 < length => PLACES[2],
                    _ => PLACES[3],
                };
                let cause = it.cause(it.names[at]);
                self.tick_ring(ring, &place_class(&cause, place));
            }
            _ => self.tick_ring(ring, "list refused 06, several entries at fault"),
        }
        for at in faults {
            let (tag, serial) = it.names[at];
            let named = (tag as u32, serial as u32);
            let narrow = (u64::from(named.0), u64::from(named.1)) == (tag, serial);
            let books = &self.books[it.port];
            let doubled = narrow && books.completed.contains(&named);
            let stale = narrow && books.completed_before.contains(&named);
            self.tick_ring_if(ring, doubled, "list refused 06, an entry completed before");
            self.tick_ring_if(
                ring,
                stale,
                "list refused 06, an entry of an earlier opening",
            );
        }
    }
}

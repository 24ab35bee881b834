//! How close a ring is to its end: the line of overruns, slots, tags and indices, by its size.

use super::Census;
use crate::Ring;
use kernelharp::layout::{Pages, PAGE_SLOTS, TAGS};

/// How a port stands when something is done to it.
#[derive(Clone, Copy)]
pub struct Standing {
    pub ring: Ring,
    /// The index of the request that is served, or of the response that is given.
    pub index: u32,
    /// How many requests, or responses, the list has come to before it since the opening.
    pub passed: u32,
    /// How far req_prod is ahead of the requests taken.
    pub ahead: u32,
    /// Requests in flight beside it.
    pub in_flight: u32,
    /// The tag of what is started or completed.
    pub tag: Option<u32>,
}

impl Standing {
    fn slot(&self) -> u32 {
        self.index % self.ring.slots()
    }

    fn is_last_slot(&self) -> bool {
        self.slot() == self.ring.slots() - 1
    }

    /// Whether the slot before was the last one.
    fn goes_round(&self) -> bool {
        self.slot() == 0 && self.passed > 0
    }

    fn room(&self) -> u32 {
        self.ring.slots() - self.in_flight
    }

    /// Whether req_prod is so far ahead of a port with nothing in flight.
    fn is_alone(&self, ahead: u32) -> bool {
        self.in_flight == 0 && self.ahead == ahead
    }

    /// Whether req_prod has passed 2^32, and the requests taken have not.
    fn is_around_the_wrap(&self) -> bool {
        self.index.checked_add(self.ahead).is_none()
    }

    fn has_tag_of_second_page(&self) -> bool {
        self.tag.is_some_and(|tag| tag >= PAGE_SLOTS as u32)
    }

    fn has_highest_tag(&self) -> bool {
        self.tag == Some(self.ring.slots() - 1)
    }
}

/// What rings of these sizes should show, and whether it is seen.
type Class = (&'static [Pages], &'static str, fn(&Standing) -> bool);

pub const BOTH: &[Pages] = &Pages::ALL;
pub const ONE: &[Pages] = &[Pages::One];
pub const TWO: &[Pages] = &[Pages::Two];

const LAST: u32 = u32::MAX;

/// Of a request that is served.
const SERVED: &[Class] = &[
    (BOTH, "served at the line", |it| it.ahead == it.room()),
    (BOTH, "served at the line, around 2^32", |it| {
        it.ahead == it.room() && it.is_around_the_wrap()
    }),
    (BOTH, "served with all tags busy but one", |it| {
        it.room() == 1
    }),
    (BOTH, "served, 32 ahead of none in flight", |it| {
        it.is_alone(32)
    }),
    (TWO, "served, 33 ahead of none in flight", |it| {
        it.is_alone(33)
    }),
    (TWO, "served, 64 ahead of none in flight", |it| {
        it.is_alone(64)
    }),
    (TWO, "served with 32 in flight", |it| it.in_flight == 32),
    (TWO, "served with more in flight", |it| it.in_flight > 32),
    (BOTH, "served from the last slot", Standing::is_last_slot),
    (
        BOTH,
        "served from slot 0 after the last",
        Standing::goes_round,
    ),
    (TWO, "served from slot 31", |it| it.slot() == 31),
    (TWO, "served from slot 32", |it| it.slot() == 32),
    (TWO, "served from slot 37", |it| it.slot() == 37),
    (BOTH, "served beyond request 1000", |it| it.passed >= 1000),
    (BOTH, "served, index 2^32 - 1, some in flight", |it| {
        it.index == LAST && it.in_flight > 0
    }),
    (
        BOTH,
        "served, index 0 after 2^32 - 1, some in flight",
        |it| it.index == 0 && it.passed > 0 && it.in_flight > 0,
    ),
    (BOTH, "served, index 2^32 - 1, none in flight", |it| {
        it.index == LAST && it.in_flight == 0
    }),
    (BOTH, "started, highest tag", Standing::has_highest_tag),
    (
        TWO,
        "started, tag above 31",
        Standing::has_tag_of_second_page,
    ),
    (BOTH, "started, tag come back", |it| {
        it.passed >= it.ring.slots() && it.tag.is_some_and(|tag| tag + 1 < it.passed)
    }),
];

/// Of an overrun.
const OVERRUN: &[Class] = &[
    (BOTH, "overrun", |_| true),
    (BOTH, "overrun, by one", |it| it.ahead == it.room() + 1),
    (BOTH, "overrun, by one, around 2^32", |it| {
        it.ahead == it.room() + 1 && it.is_around_the_wrap()
    }),
    (ONE, "overrun, 33 ahead of none in flight", |it| {
        it.is_alone(33)
    }),
    (ONE, "overrun, 64 ahead of none in flight", |it| {
        it.is_alone(64)
    }),
    (BOTH, "overrun, 65 ahead of none in flight", |it| {
        it.is_alone(65)
    }),
    (BOTH, "overrun, all tags busy", |it| it.room() == 0),
    (BOTH, "overrun, behind", |it| it.ahead >= 1 << 31),
    (BOTH, "overrun, far ahead", |it| {
        (66..1 << 31).contains(&it.ahead)
    }),
    (BOTH, "overrun, some in flight", |it| it.in_flight > 0),
];

/// Of a response, whether a turn or a completion gives it.
const RESPONSE: &[Class] = &[
    (BOTH, "response in the last slot", Standing::is_last_slot),
    (
        BOTH,
        "response in slot 0 after the last",
        Standing::goes_round,
    ),
    (TWO, "response in slot 31", |it| it.slot() == 31),
    (TWO, "response in slot 32", |it| it.slot() == 32),
    (BOTH, "response 2^32 - 1, some in flight", |it| {
        it.index == LAST && it.in_flight > 0
    }),
    (BOTH, "response 0 after 2^32 - 1, some in flight", |it| {
        it.index == 0 && it.passed > 0 && it.in_flight > 0
    }),
    (BOTH, "response 2^32 - 1, none in flight", |it| {
        it.index == LAST && it.in_flight == 0
    }),
    (BOTH, "completed, highest tag", Standing::has_highest_tag),
    (
        TWO,
        "completed, tag above 31",
        Standing::has_tag_of_second_page,
    ),
];

/// Of an open port at an idle turn.
const IDLE: &[Class] = &[
    (BOTH, "idle, all tags busy", |it| it.room() == 0),
    (BOTH, "idle, index 2^32 - 1", |it| it.index == LAST),
];

/// Of a port that passes over requests; its index is where it begins.
const SKIPPED: &[Class] = &[
    (BOTH, "begins closely below 2^32", |it| it.index > LAST - 64),
    (BOTH, "begins at a multiple of 64", |it| it.index % 64 == 0),
    (BOTH, "begins below a multiple of 64", |it| {
        it.index % 64 == 63
    }),
    (BOTH, "begins above a multiple of 64", |it| {
        it.index % 64 == 1
    }),
];

/// What rings of each size should show beside.
const OTHERS: &[(&[Pages], &str)] = &[
    (BOTH, "complete refused 06, another serial"),
    (BOTH, "complete refused 06, doubled"),
    (BOTH, "complete refused 06, of an earlier opening"),
    (BOTH, ABOVE_ALL_TAGS),
    (BOTH, "complete refused 06, tag not busy"),
    (ONE, TAGS_OF_TWO_PAGES),
    (BOTH, "completed"),
    (BOTH, "completed, broken port"),
    (BOTH, "completed, named in an earlier opening too"),
    (BOTH, "completed, notify no"),
    (BOTH, "completed, notify yes"),
    (BOTH, "completed, status -0"),
    (BOTH, "completed, status -1"),
    (BOTH, "completed, status -2"),
    (BOTH, "guest wrote at a slot of another ring"),
    (BOTH, "guest wrote behind the last slot"),
    (BOTH, "guest wrote over a slot in flight"),
    (BOTH, "guest wrote over a waiting request"),
    (ONE, "guest wrote in the second half"),
    (BOTH, "open done"),
];

const ABOVE_ALL_TAGS: &str = "complete refused 06, tag above 63";
const TAGS_OF_TWO_PAGES: &str = "complete refused 06, tag 32 to 63";

/// The classes that a ring should show.
pub fn ring_classes(ring: Ring) -> Vec<String> {
    let tables = [SERVED, OVERRUN, RESPONSE, IDLE, SKIPPED];
    let shown = tables.concat().into_iter().map(|(of, what, _)| (of, what));
    let shown = shown.chain(OTHERS.iter().copied());
    let of_size = shown.filter(|(sizes, _)| sizes.contains(&ring.pages));
    let mut classes: Vec<String> = of_size.map(|(_, what)| what.into()).collect();
    classes.extend(Ring::ALL.map(reopened_class));
    classes.extend(Ring::ALL.map(served_after_class));
    classes
}

/// The class of a port whose opening before had this ring.
pub fn reopened_class(before: Ring) -> String {
    format!("open done, reopened, {before} before")
}

/// The class of a turn that serves a port right after one that served a port with this ring.
pub fn served_after_class(before: Ring) -> String {
    format!("served right after a port of {before}")
}

/// Why a completion names no busy tag.
pub fn not_busy_class(ring: Ring, tag: u32, is_busy: bool) -> &'static str {
    match tag {
        _ if tag >= TAGS as u32 => ABOVE_ALL_TAGS,
        _ if tag >= ring.slots() => TAGS_OF_TWO_PAGES,
        _ if is_busy => "complete refused 06, another serial",
        _ => "complete refused 06, tag not busy",
    }
}

impl Census {
    pub(super) fn note_served(&mut self, it: &Standing) {
        self.note_classes(SERVED, it);
    }

    pub(super) fn note_overrun(&mut self, it: &Standing) {
        self.note_classes(OVERRUN, it);
    }

    pub(super) fn note_response(&mut self, it: &Standing) {
        self.note_classes(RESPONSE, it);
    }

    pub(super) fn note_idle_port(&mut self, it: &Standing) {
        self.note_classes(IDLE, it);
    }

    pub(super) fn note_skipped(&mut self, it: &Standing) {
        self.note_classes(SKIPPED, it);
    }

    fn note_classes(&mut self, classes: &[Class], it: &Standing) {
        for (sizes, what, holds) in classes {
            if sizes.contains(&it.ring.pages) && holds(it) {
                self.tick_ring(it.ring, what);
            }
        }
    }
}

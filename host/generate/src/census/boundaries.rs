//! Check 29 and its neighbours: requests on both sides of the boundaries of a disk's sectors, by sector
//! size and operation. What is on no boundary is off.

use super::Census;
use crate::requests::{is_granted, BARRIER, DISCARD, FLUSH, READ, WRITE};
use kernelharp::layout::{read_u32, read_u64, Abi};
use kernelharp::words::{turn, TurnWords};
use second::{Disk, Reason};
use std::ops::Range;

/// Requests with one of these reasons, of these operations, on disks of these sector sizes: what can be
/// seen of them, and whether it is.
type Class = (
    &'static [u64],
    &'static [u8],
    &'static [u64],
    &'static str,
    fn(&Case) -> bool,
);

/// No reason.
const STARTED: &[u64] = &[0];
const UNALIGNED: &[u64] = &[Reason::Unaligned as u64];
/// Those that go before it, of checks that look at segments.
const BEFORE: &[u64] = &[
    Reason::WrongSegment as u64,
    Reason::NotGranted as u64,
    Reason::PastEnd as u64,
];

const MOVING: &[u8] = &[READ, WRITE, BARRIER];
const RANGED: &[u8] = &[READ, WRITE, BARRIER, DISCARD];

/// All but the one that has every sector on a boundary.
const LARGE: &[u64] = &[1024, 2048, 4096];
/// Those below the size of a frame, of which another is twice as large.
const SMALL: &[u64] = &[512, 1024, 2048];
/// Those of which a frame has several, with more than one sector each.
const MIDDLE: &[u64] = &[1024, 2048];

const CLASSES: &[Class] = &[
    (STARTED, MOVING, LARGE, "whole frames", |it| {
        it.n > 0 && it.all(|sectors| *sectors == (0..8))
    }),
    (STARTED, MOVING, SMALL, "off for twice the size", |it| {
        it.any(|sectors| is_off(sectors, 2 * it.unit))
    }),
    (STARTED, MOVING, LARGE, "n = 1", |it| it.n == 1),
    (STARTED, MOVING, LARGE, "n = 11", |it| it.n == 11),
    (STARTED, MOVING, LARGE, "off behind n", |it| {
        it.n > 0 && it.off_behind()
    }),
    (STARTED, &[BARRIER, FLUSH], LARGE, "n = 0, all off", |it| {
        it.n == 0 && !it.starts_on() && it.off_behind()
    }),
    (STARTED, &[DISCARD], LARGE, "off as a segment", |it| {
        it.flag > 0 && it.off_behind()
    }),
    (BEFORE, MOVING, LARGE, "first segment off", Case::leads_off),
    (UNALIGNED, RANGED, LARGE, "start alone", |it| {
        !it.starts_on() && it.counts_on() && it.off().is_empty()
    }),
    (UNALIGNED, &[DISCARD], LARGE, "count alone", |it| {
        it.starts_on() && !it.counts_on()
    }),
    (UNALIGNED, MOVING, LARGE, "firsts alone", |it| {
        it.starts_on() && it.all(|sectors| it.on(sectors.end))
    }),
    (UNALIGNED, MOVING, LARGE, "lasts alone", |it| {
        it.starts_on() && it.all(|sectors| it.on(sectors.start))
    }),
    (UNALIGNED, MOVING, LARGE, "both of a segment", |it| {
        it.starts_on() && it.any(|sectors| !it.on(sectors.start) && !it.on(sectors.end))
    }),
    (UNALIGNED, MOVING, LARGE, "start and count on", |it| {
        it.starts_on() && it.counts_on()
    }),
    (UNALIGNED, MOVING, LARGE, "two that join", Case::joins),
    (UNALIGNED, MOVING, MIDDLE, "every length on", |it| {
        it.starts_on() && it.all(|sectors| it.on(length(sectors)))
    }),
    (UNALIGNED, MOVING, LARGE, "on for half the size", |it| {
        it.starts_on() && it.all(|sectors| !is_off(sectors, it.unit / 2))
    }),
    (UNALIGNED, MOVING, LARGE, "one sector", |it| {
        it.starts_on() && it.any(|sectors| length(sectors) == 1)
    }),
    (UNALIGNED, MOVING, LARGE, "first of several alone", |it| {
        it.starts_on() && it.n > 1 && it.off() == [0]
    }),
    (UNALIGNED, MOVING, LARGE, "last of several alone", |it| {
        it.starts_on() && it.n > 1 && it.off() == [it.n - 1]
    }),
    (UNALIGNED, MOVING, LARGE, "last of eleven alone", |it| {
        it.starts_on() && it.off() == [10]
    }),
];

/// A request, and what it takes to see where it is off.
struct Case {
    operation: u8,
    flag: u8,
    /// Its number of segments, 0 where it has none.
    n: usize,
    start: u64,
    /// A discard's number of sectors.
    discarded: u64,
    /// The places for segments: from the first sector up to the one behind the last.
    places: Vec<Range<u64>>,
    /// Whether the frame in the first place is granted.
    granted: bool,
    unit: u64,
}

fn is_off(sectors: &Range<u64>, unit: u64) -> bool {
    sectors.start % unit != 0 || sectors.end % unit != 0
}

/// How many sectors; 0 where it is no segment.
fn length(sectors: &Range<u64>) -> u64 {
    sectors.end.saturating_sub(sectors.start)
}

impl Case {
    fn new(abi: Abi, disk: &Disk, slot: &[u8], grants: &[u8]) -> Case {
        let (operation, flag) = (slot[0], slot[1]);
        let body = &slot[abi.segments_at()..];
        let sectors = |place: &[u8]| u64::from(place[4])..u64::from(place[5]) + 1;
        let grant = grants.get(read_u32(body, 0) as usize);
        Case {
            operation,
            flag,
            n: usize::from(if MOVING.contains(&operation) { flag } else { 0 }),
            start: read_u64(slot, abi.start_at()),
            discarded: read_u64(body, 0),
            places: body.chunks(8).map(sectors).collect(),
            granted: grant.is_some_and(|&grant| is_granted(operation, grant)),
            unit: disk.unit(),
        }
    }

    fn on(&self, sector: u64) -> bool {
        sector % self.unit == 0
    }

    fn segments(&self) -> impl Iterator<Item = &Range<u64>> {
        self.places.iter().take(self.n)
    }

    fn all(&self, holds: impl Fn(&Range<u64>) -> bool) -> bool {
        self.segments().all(holds)
    }

    fn any(&self, holds: impl Fn(&Range<u64>) -> bool) -> bool {
        self.segments().any(holds)
    }

    fn starts_on(&self) -> bool {
        self.on(self.start)
    }

    fn counts_on(&self) -> bool {
        self.on(match self.operation {
            DISCARD => self.discarded,
            _ => self.segments().map(length).sum(),
        })
    }

    /// The numbers of the segments that are off.
    fn off(&self) -> Vec<usize> {
        let numbered = self.segments().enumerate();
        let off = numbered.filter(|(_, sectors)| is_off(sectors, self.unit));
        off.map(|(number, _)| number).collect()
    }

    /// Whether the bytes behind the last segment would be off as one more.
    fn off_behind(&self) -> bool {
        let next = self.places.get(self.n);
        next.is_some_and(|sectors| is_off(sectors, self.unit))
    }

    /// Whether the first segment is off and has no other fault.
    fn leads_off(&self) -> bool {
        let sectors = &self.places[0];
        let sound = sectors.start < sectors.end && sectors.end <= 8;
        sound && self.granted && is_off(sectors, self.unit)
    }

    /// Whether nothing is off but where one segment ends and the next goes on.
    fn joins(&self) -> bool {
        let off = self.off();
        let [one, other] = off[..] else {
            return false;
        };
        let (one, other) = (&self.places[one], &self.places[other]);
        let outside = [self.start, one.start, other.end];
        one.end == other.start && outside.into_iter().all(|sector| self.on(sector))
    }
}

/// A class by its name.
fn named(reason: u64, operation: u8, size: u64, what: &str) -> String {
    let end = match reason {
        0 => "started".to_string(),
        _ => format!("answered {reason}"),
    };
    format!("{end} on {size}, operation {operation}, {what}")
}

/// The classes that ports of each layout should show.
pub fn boundary_classes() -> Vec<String> {
    let mut classes = Vec::new();
    for (reasons, operations, sizes, what, _) in CLASSES {
        for &reason in *reasons {
            for &operation in *operations {
                let of_size = |&size| named(reason, operation, size, what);
                classes.extend(sizes.iter().map(of_size));
            }
        }
    }
    classes
}

impl Census {
    /// Counts a request that was served, by its slot and its port's grants.
    pub(super) fn note_boundaries(
        &mut self,
        port: usize,
        answer: &TurnWords,
        slot: &[u8],
        grants: &[u8],
    ) {
        let books = &self.books[port];
        let Some(disk) = &books.disk else {
            return;
        };
        let (abi, size, reason) = (books.ring.abi, disk.sector_size, answer[turn::REASON]);
        let case = Case::new(abi, disk, slot, grants);
        for (reasons, operations, sizes, what, holds) in CLASSES {
            let among = reasons.contains(&reason)
                && operations.contains(&case.operation)
                && sizes.contains(&size);
            if among && holds(&case) {
                self.tick_of(abi, &named(reason, case.operation, size, what));
            }
        }
    }
}

//! Counts what occurred in guests' lists, and tells what did not.

mod collects;
mod puts;

use self::collects::collect_classes;
use self::puts::put_classes;
use super::{GuestCall, GuestOutcome, Pair};
use crate::census::{wrong_length, LENGTHS};
use crate::tally::Tally;
use kernelharp::layout::{PAGE_BYTES, PAGE_SLOTS};
use kernelharp::words::collect;
use second::Refusal;
use std::collections::VecDeque;
use std::fmt;

const WRONG_LENGTH: u32 = Refusal::WrongLength as u32;

/// How often each class of calls and answers occurred.
#[derive(Debug, Default)]
pub struct GuestCensus {
    tally: Tally,
    /// The requests outstanding with their indices, in a list whose last takes the place of one that
    /// ends, as a guest without an allocator would keep them.
    outstanding: Vec<(Pair, u32)>,
    /// Ended lately.
    ended: VecDeque<Pair>,
    put: u32,
    collected: u32,
}

impl GuestCensus {
    /// Nothing counted yet.
    pub fn new() -> GuestCensus {
        GuestCensus::default()
    }

    /// The classes that should occur in a long run and did not.
    pub fn missing(&self) -> Vec<String> {
        let mut classes = put_classes();
        classes.extend(collect_classes());
        self.tally.missing(classes)
    }

    /// Adds another run's counts.
    pub fn add(&mut self, other: &GuestCensus) {
        self.tally.add(&other.tally);
    }

    /// Counts a call. One against the rules is not for the census to stumble over.
    pub fn note(&mut self, call: &GuestCall, outcome: &GuestOutcome, lent: &[u8], left: &[u8]) {
        let refusals = match call {
            GuestCall::Put { request, .. } => self.put_refusals(request, lent),
            GuestCall::Collect { .. } => self.collect_refusals(lent),
        };
        if outcome.code != refusals.first().copied().unwrap_or(0) {
            return;
        }
        let name = match call {
            GuestCall::Put { .. } => "put",
            GuestCall::Collect { .. } => "collect",
        };
        self.note_refusals(name, &refusals, lent);
        match call {
            GuestCall::Put { request, .. } if outcome.code == 0 => {
                self.note_put(request, outcome.put[0], lent);
            }
            GuestCall::Put { request, .. } => self.note_refused_put(request, outcome.code),
            GuestCall::Collect { .. } if outcome.code != 0 => {
                self.note_refused_collect(lent, outcome.code);
            }
            GuestCall::Collect { .. } if outcome.collected[collect::FOUND] == 0 => {
                self.note_nothing(lent, left);
            }
            GuestCall::Collect { .. } => self.note_collected(&outcome.collected, lent),
        }
    }

    /// The refusal given, and those that the call deserves beside it.
    fn note_refusals(&mut self, name: &str, refusals: &[u32], lent: &[u8]) {
        let Some((first, others)) = refusals.split_first() else {
            return;
        };
        self.tally.tick(&format!("{name} refused {first:02}"));
        for other in others {
            self.tally.tick(&too_class(name, *first, *other));
        }
        if let (&WRONG_LENGTH, Some(length)) = (first, wrong_length(lent.len(), PAGE_BYTES)) {
            self.tally.tick(&length_class(name, length));
        }
    }

    fn is_full(&self) -> bool {
        self.outstanding.len() == PAGE_SLOTS
    }
}

impl fmt::Display for GuestCensus {
    fn fmt(&self, f: &mut fmt::Formatter) -> fmt::Result {
        self.tally.fmt(f)
    }
}

/// The class of a call that deserves two refusals.
fn too_class(name: &str, given: u32, other: u32) -> String {
    format!("{name} refused {given:02}, {other} too")
}

fn length_class(name: &str, length: &str) -> String {
    format!("{name} refused 01, page {length}")
}

/// The classes of a call's refusals, lowest first, and of every two of them.
fn refusal_classes(name: &str, refusals: &[u32]) -> Vec<String> {
    let mut classes = Vec::new();
    for (place, given) in refusals.iter().enumerate() {
        classes.push(format!("{name} refused {given:02}"));
        for other in &refusals[place + 1..] {
            classes.push(too_class(name, *given, *other));
        }
    }
    classes.extend(LENGTHS.map(|length| length_class(name, length)));
    classes
}

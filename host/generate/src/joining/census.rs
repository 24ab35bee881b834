//! Counts what occurred in joinings, and tells what did not.

use super::facts::{Facts, APART, AT_WRAP, FAULTS, JOINED, NO_PLAN, TOO_FEW_FRAMES, TOO_FEW_RUNS};
use super::run::Outcome;
use super::Joining;
use crate::tally::Tally;
use kernelharp::layout::EXTENTS;
use kernelharp::words::extent;
use kernelharp::Run;
use std::fmt;

/// A joining, and what it takes to see its class.
struct Case<'a> {
    joining: &'a Joining,
    facts: &'a Facts,
    runs: &'a [Run],
    /// How many extents are named and have a place.
    n: usize,
    places: u64,
}

/// A name, and whether a case is of that kind.
type Class = (&'static str, fn(&Case) -> bool);

/// Of joinings that were done.
const DONE: &[Class] = &[
    ("no extents, nothing lent", |it| {
        it.n == 0 && *it.joining == Joining::default()
    }),
    ("no extents, places", |it| it.n == 0 && it.places > 0),
    ("no extents, frames and records", |it| {
        it.n == 0 && !it.joining.frames.is_empty() && it.joining.room > 0
    }),
    ("one extent", |it| it.n == 1),
    ("eleven extents", |it| it.n == EXTENTS),
    ("more extents than a plan has", |it| it.n > EXTENTS),
    ("1,024 extents", |it| it.n == 1024),
    ("several joined to one", |it| it.n > 1 && it.runs.len() == 1),
    ("eleven joined to one", |it| {
        it.n == EXTENTS && it.runs.len() == 1
    }),
    ("eleven, none joined", |it| {
        it.n == EXTENTS && it.runs.len() == it.n
    }),
    ("some joined, some not", |it| {
        it.runs.len() > 1 && it.runs.len() < it.n
    }),
    ("several runs of several extents", |it| {
        it.runs.iter().filter(|run| run.length > 8).count() > 1
    }),
    ("just as many records as runs", |it| {
        it.n > 0 && it.joining.room == it.runs.len()
    }),
    ("fewer records than extents", |it| it.joining.room < it.n),
    ("as many records as extents, fewer runs", |it| {
        it.joining.room == it.n && it.runs.len() < it.n
    }),
    ("more records than extents", |it| it.joining.room > it.n),
    ("just as many frames as extents", |it| {
        it.n > 0 && it.joining.frames.len() == it.n
    }),
    ("more frames than extents", |it| {
        it.n > 0 && it.joining.frames.len() > it.n
    }),
    ("as many extents as places", |it| {
        it.n > 0 && it.places == it.joining.count
    }),
    ("one word behind the places", |it| it.left_over() == 1),
    ("two words behind the places", |it| it.left_over() == 2),
    ("three words behind the places", |it| it.left_over() == 3),
    ("no plan's words in the next place", |it| {
        it.unsound_behind()
    }),
    ("a run over three frames", |it| {
        it.runs
            .iter()
            .any(|run| run.first > 0 && run.first + run.length > 16)
    }),
    ("a run of one sector", |it| {
        it.runs.iter().any(|run| run.length == 1)
    }),
    ("from disk sector 0 on", |it| it.disk_begin() == Some(0)),
    ("up to disk sector 2^64 - 1", |it| {
        it.disk_end() == Some(u64::MAX)
    }),
    ("joined in frame 0", |it| {
        it.joined(JOINED[0], |frame| frame == 0)
    }),
    ("joined from frame 0 on to 1", |it| {
        it.joined(JOINED[1], |frame| frame == 1)
    }),
    ("joined in frame 2^64 - 1", |it| {
        it.joined(JOINED[0], |frame| frame == u64::MAX)
    }),
    ("joined up to frame 2^64 - 1", |it| {
        it.joined(JOINED[1], |frame| frame == u64::MAX)
    }),
    ("joined from 2^32 - 1 on to 2^32", |it| {
        it.joined(JOINED[1], |frame| frame == 1 << 32)
    }),
    ("apart, by their own frames not", |it| {
        it.any_meets(|meet, own| !JOINED.contains(&meet) && JOINED.contains(&own))
    }),
    ("joined, by their own frames not", |it| {
        it.any_meets(|meet, own| JOINED.contains(&meet) && !JOINED.contains(&own))
    }),
];

/// Of those refused with 10 for the number of extents.
const TOO_MANY: &[Class] = &[
    ("one more than places", |it| {
        it.joining.count == it.places + 1 && it.left_over() == 0
    }),
    ("one more than places, but for a word", |it| {
        it.joining.count == it.places + 1 && it.left_over() == 3
    }),
    ("one, and no place", |it| {
        (it.joining.count, it.places) == (1, 0)
    }),
    ("as many as places when cut to 32 bits", |it| {
        it.n > 0 && it.joining.count as u32 as u64 == it.places
    }),
    ("no more words than lent when they wrap", |it| {
        it.joining.count.wrapping_mul(4) <= it.joining.extents.len() as u64
    }),
    ("2^64 - 1", |it| it.joining.count == u64::MAX),
    ("all in the places sound", |it| {
        it.n > 0 && it.facts.faults.is_empty()
    }),
];

/// Of those refused with 10 for their extents.
const UNSOUND: &[Class] = &[
    ("the only one", |it| it.n == 1),
    ("the first of several alone", |it| it.faulty_alone(0)),
    ("the last of several alone", |it| it.faulty_alone(it.n - 1)),
    ("one in the middle alone", |it| {
        (1..it.n.max(1) - 1).any(|at| it.faulty_alone(at))
    }),
    ("the last of eleven alone", |it| {
        it.n == EXTENTS && it.faulty_alone(10)
    }),
    ("two of them", |it| {
        it.facts.faults.iter().any(|(at, _)| *at != it.faulty())
    }),
    ("only behind the last frame", |it| {
        let frames = it.joining.frames.len();
        0 < frames && frames <= it.faulty()
    }),
    ("only behind as many as there are records", |it| {
        0 < it.joining.room && it.joining.room <= it.faulty()
    }),
    ("up to 2^64 on the disk, then from 0 on", |it| {
        it.fault_names() == [FAULTS[8], AT_WRAP]
    }),
    ("beyond 2^64 on the disk, then on", |it| {
        it.fault_names() == [FAULTS[9], AT_WRAP]
    }),
];

/// Of those refused with 8.
const FEW_FRAMES: &[Class] = &[
    ("one frame less than extents", |it| {
        it.joining.frames.len() + 1 == it.n
    }),
    ("no frame", |it| it.joining.frames.is_empty()),
    ("one extent, no frame", |it| it.n == 1),
    ("as many records as extents", |it| it.joining.room >= it.n),
];

/// Of those refused with 9.
const FEW_RUNS: &[Class] = &[
    ("one record less than runs", |it| {
        it.joining.room > 0 && it.joining.room + 1 == it.facts.runs()
    }),
    ("no record", |it| it.joining.room == 0),
    ("one run, no record", |it| {
        it.facts.runs() == 1 && it.n > 1 && it.joining.room == 0
    }),
    ("several joined", |it| it.facts.runs() < it.n),
    ("none joined", |it| it.n > 1 && it.facts.runs() == it.n),
];

impl Case<'_> {
    fn left_over(&self) -> usize {
        self.joining.extents.len() % extent::WORDS
    }

    /// Whether the place behind the extents would be refused.
    fn unsound_behind(&self) -> bool {
        let behind = Joining {
            count: self.joining.count + 1,
            ..self.joining.clone()
        };
        self.places > self.joining.count && !Facts::of(&behind).faults.is_empty()
    }

    fn disk_begin(&self) -> Option<u64> {
        self.runs.first().map(|run| run.sector)
    }

    fn disk_end(&self) -> Option<u64> {
        self.runs.last().map(|run| run.sector + run.length)
    }

    /// Whether some extent joins the one before in this way, with a frame of this kind.
    fn joined(&self, how: &str, frame: fn(u64) -> bool) -> bool {
        let frames = self.joining.frames.iter().skip(1);
        let mut meets = self.facts.meets.iter().zip(frames);
        meets.any(|((meet, _), its)| *meet == how && frame(*its))
    }

    fn any_meets(&self, is: fn(&str, &str) -> bool) -> bool {
        self.facts.meets.iter().any(|(meet, own)| is(meet, own))
    }

    /// The first extent at fault.
    fn faulty(&self) -> usize {
        self.facts.faults[0].0
    }

    /// Whether among several this extent is at fault and no other.
    fn faulty_alone(&self, at: usize) -> bool {
        self.n > 1 && self.facts.faults.iter().all(|fault| fault.0 == at)
    }

    fn fault_names(&self) -> Vec<&'static str> {
        self.facts.faults.iter().map(|fault| fault.1).collect()
    }
}

/// The tables of classes, by what a joining came to.
const TABLES: [(&str, &[Class]); 5] = [
    ("done", DONE),
    ("refused 10, number", TOO_MANY),
    ("refused 10, extents", UNSOUND),
    ("refused 8", FEW_FRAMES),
    ("refused 9", FEW_RUNS),
];

/// How often each class of joinings occurred.
#[derive(Debug, Default)]
pub struct JoinCensus {
    tally: Tally,
}

impl JoinCensus {
    /// Nothing counted yet.
    pub fn new() -> JoinCensus {
        JoinCensus::default()
    }

    /// All classes, which should occur in a long run.
    pub fn classes() -> Vec<String> {
        let mut classes = Vec::new();
        for (given, others) in [
            (NO_PLAN, &[TOO_FEW_FRAMES, TOO_FEW_RUNS][..]),
            (TOO_FEW_FRAMES, &[TOO_FEW_RUNS]),
            (TOO_FEW_RUNS, &[]),
        ] {
            classes.push(format!("refused {given}"));
            classes.extend(others.iter().map(|other| too_class(given, *other)));
        }
        classes.push("refused 10, 8 and 9 too".into());
        classes.extend(FAULTS.map(|fault| format!("refused 10, alone: {fault}")));
        classes.extend(JOINED.map(|meet| format!("joined: {meet}")));
        classes.extend(APART.map(|meet| format!("apart: {meet}")));
        for (outcome, table) in TABLES {
            let names = table.iter().map(|class| format!("{outcome}: {}", class.0));
            classes.extend(names);
        }
        classes
    }

    /// Those that did not occur.
    pub fn missing(&self) -> Vec<String> {
        self.tally.missing(JoinCensus::classes())
    }

    /// Counts a joining. One against the rules is not for the census to stumble over.
    pub(super) fn note(&mut self, joining: &Joining, outcome: &Outcome) {
        let facts = &Facts::of(joining);
        if outcome.code != facts.refusals.first().copied().unwrap_or(0) {
            return;
        }
        let case = Case {
            joining,
            facts,
            runs: outcome.runs().unwrap_or_default(),
            n: facts.named.len(),
            places: (joining.extents.len() / extent::WORDS) as u64,
        };
        self.note_refusals(facts);
        let table = match outcome.code {
            0 => 0,
            NO_PLAN if facts.too_many => 1,
            NO_PLAN => 2,
            TOO_FEW_FRAMES => 3,
            _ => 4,
        };
        let (name, classes) = TABLES[table];
        for (class, _) in classes.iter().filter(|(_, is)| is(&case)) {
            self.tally.tick(&format!("{name}: {class}"));
        }
        if outcome.code == 0 {
            self.note_meets(facts);
        }
    }

    fn note_refusals(&mut self, facts: &Facts) {
        let Some((given, others)) = facts.refusals.split_first() else {
            return;
        };
        self.tally.tick(&format!("refused {given}"));
        match others {
            [] => {}
            [other] => self.tally.tick(&too_class(*given, *other)),
            _ => self.tally.tick("refused 10, 8 and 9 too"),
        }
        if let ([(_, fault)], false) = (&facts.faults[..], facts.too_many) {
            self.tally.tick(&format!("refused 10, alone: {fault}"));
        }
    }

    fn note_meets(&mut self, facts: &Facts) {
        for (meet, _) in &facts.meets {
            let how = if JOINED.contains(meet) {
                "joined"
            } else {
                "apart"
            };
            self.tally.tick(&format!("{how}: {meet}"));
        }
    }
}

/// The class of a joining that deserves two refusals.
fn too_class(given: u32, other: u32) -> String {
    format!("refused {given}, {other} too")
}

impl fmt::Display for JoinCensus {
    fn fmt(&self, f: &mut fmt::Formatter) -> fmt::Result {
        self.tally.fmt(f)
    }
}

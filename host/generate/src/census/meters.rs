//! Records of counters: what each answer raised in them, zeroings, and trials of any words.

use super::Census;
use crate::meters::{named_port, numbers, Trial, Words, COUNTS, KINDS, REFUSALS, STATUSES};
use crate::{Call, Outcome};
use history::{History, Record, State};
use kernelharp::layout::ENTRIES;
use kernelharp::words::{done, kind, many, turn, ManyWords};
use kernelharp::Meter;
use second::Refusal;

/// The numbers of a record.
const NAMES: [&str; 4] = ["taken", "okay", "error", "not supported"];

/// What the answers of ports raise (rule 15.4).
const RAISED: [(&str, &str); 15] = [
    ("started", "taken"),
    ("answered", "taken and error"),
    ("answered", "taken and not supported"),
    ("completed", "okay"),
    ("completed", "error"),
    ("completed", "not supported"),
    ("overrun", NOTHING),
    ("list", NOTHING),
    ("list", "okay"),
    ("list", "error"),
    ("list", "not supported"),
    ("list", "okay and error"),
    ("list", "okay and not supported"),
    ("list", "error and not supported"),
    ("list", "okay and error and not supported"),
];

const NOTHING: &str = "nothing";

/// The refusals of a completion; those of a list are these and 7.
const REFUSED_COMPLETIONS: [u32; 4] = [
    Refusal::WrongLength as u32,
    Refusal::NoPort as u32,
    Refusal::IsClosed as u32,
    Refusal::NotBusy as u32,
];
const TOO_MANY: u32 = Refusal::TooMany as u32;

/// The classes that ports of each layout should show.
pub fn port_meter_classes() -> Vec<String> {
    let raised = RAISED.map(|(answer, raised)| raised_class(answer, raised));
    let mut classes = raised.to_vec();
    classes.extend(
        [
            "record raised on a broken port",
            "record raised, the first request since a reopening",
            "record raised, now more answered than taken",
            "record raised, now 256 taken",
            "record zeroed, requests in flight",
        ]
        .map(String::from),
    );
    classes
}

/// The classes that any port should show.
pub fn meter_classes() -> Vec<String> {
    let mut classes = vec![raised_class("idle", NOTHING)];
    classes.push(raised_class("turn refused 01", NOTHING));
    for (call, code) in REFUSED_COMPLETIONS
        .into_iter()
        .flat_map(|code| [("complete", code), ("list", code)])
        .chain([("list", TOO_MANY)])
    {
        classes.push(raised_class(&refused_name(call, code), NOTHING));
    }
    for state in [State::Closed, State::Open, State::Broken] {
        classes.push(no_port_class(state).into());
        classes.push(zeroed_class(state).into());
    }
    for returned in REFUSALS {
        classes.push(returned_class(returned));
    }
    for was_done in [true, false] {
        classes.extend(KINDS.map(|kind| kind_class(kind, was_done)));
        classes.extend(STATUSES.map(|status| completed_class(status, was_done)));
        classes.extend(COUNTS.map(|count| counted_class(count, was_done)));
    }
    classes.extend(STATUSES.map(answered_class));
    for place in LIST_PLACES {
        classes.extend(STATUSES.map(|status| listed_class(place, status)));
    }
    classes.extend(full_classes());
    classes
}

/// Those of records at their end.
fn full_classes() -> Vec<String> {
    let mut classes = Vec::new();
    for name in NAMES {
        classes.push(arrived_class(name));
        classes.push(full_class(name));
    }
    for status in &NAMES[1..] {
        classes.push(apart_class(NAMES[0], status));
        classes.push(apart_class(status, NAMES[0]));
        classes.push(passed_class(status));
    }
    classes
}

fn raised_class(answer: &str, raised: &str) -> String {
    format!("{answer} raises {raised}")
}

/// An answer that names no port, handed to the record of a port in this state.
fn no_port_class(state: State) -> &'static str {
    match state {
        State::Closed => "no port named, handed to the record of a closed one",
        State::Open => "no port named, handed to the record of an open one",
        State::Broken => "no port named, handed to the record of a broken one",
    }
}

fn zeroed_class(state: State) -> &'static str {
    match state {
        State::Closed => "record zeroed, closed port",
        State::Open => "record zeroed, open port",
        State::Broken => "record zeroed, broken port",
    }
}

fn returned_class(returned: u32) -> String {
    format!("any words, returned {returned:#x}")
}

fn done_or_refused(was_done: bool) -> &'static str {
    if was_done {
        "done"
    } else {
        "refused"
    }
}

fn kind_class(kind: u64, was_done: bool) -> String {
    format!("any words, kind {kind:#x}, {}", done_or_refused(was_done))
}

fn answered_class(status: u64) -> String {
    format!("any words, answered with {status:#x}")
}

fn completed_class(status: u64, was_done: bool) -> String {
    let code = done_or_refused(was_done);
    format!("any words, completed with {status:#x}, {code}")
}

fn counted_class(count: u64, was_done: bool) -> String {
    let code = done_or_refused(was_done);
    format!("any words, list of {count:#x}, {code}")
}

/// Places of a list's statuses.
const LIST_PLACES: [&str; 3] = ["first", "last", "next"];

/// A status at a place of a list: the first that counts, the last, or the one behind it.
fn listed_class(place: &str, status: u64) -> String {
    format!("any words, list with {status:#x}, {place}")
}

/// A number that a list would raise beyond its end.
fn passed_class(name: &str) -> String {
    format!("{name} stops at 2^64 - 1 within a list")
}

fn arrived_class(name: &str) -> String {
    format!("{name} gets to 2^64 - 1")
}

fn full_class(name: &str) -> String {
    format!("{name} stays at 2^64 - 1")
}

fn apart_class(full: &str, other: &str) -> String {
    format!("{full} stays at 2^64 - 1, {other} rises")
}

/// What a turn, a completion or a list and its outcome are called.
fn answer_name(call: &Call, outcome: &Outcome) -> String {
    let name = match (call, outcome.code) {
        (Call::Turn { .. }, 0) => match outcome.turned[turn::KIND] {
            kind::IDLE => "idle",
            kind::STARTED => "started",
            kind::ANSWERED => "answered",
            _ => "overrun",
        },
        (Call::CompleteMany { .. }, 0) => "list",
        (_, 0) => "completed",
        (Call::Turn { .. }, code) => return refused_name("turn", code),
        (Call::CompleteMany { .. }, code) => return refused_name("list", code),
        (_, code) => return refused_name("complete", code),
    };
    name.into()
}

fn refused_name(call: &str, code: u32) -> String {
    format!("{call} refused {code:02}")
}

/// The numbers that an answer raised.
fn raised_names(before: &Record, after: &Record) -> String {
    let raised: Vec<&str> = (0..NAMES.len())
        .filter(|&at| before[at] != after[at])
        .map(|at| NAMES[at])
        .collect();
    if raised.is_empty() {
        NOTHING.into()
    } else {
        raised.join(" and ")
    }
}

/// Whether a record has more answers than requests taken, as it gets when zeroed in between.
fn is_ahead(meter: &Meter) -> bool {
    meter.okay + meter.error + meter.not_supported > meter.taken
}

/// The numbers that words raise in a record with room for it.
fn due(trial: &Trial) -> Record {
    let mut meter = second::Meter::default();
    match &trial.words {
        Words::Turn(words) => meter.turn_words(trial.returned, words),
        Words::Completion(words) => meter.completion_words(trial.returned, words),
        Words::Many(words) => meter.many_words(trial.returned, words),
    }
    [meter.taken, meter.okay, meter.error, meter.not_supported]
}

impl Census {
    /// Counts a hand-over to a port's record, which was checked, with the history after the call.
    pub fn note_hand_over(
        &mut self,
        history: &History,
        (call, outcome): (&Call, &Outcome),
        port: usize,
        (before, after): (&Meter, &Meter),
    ) {
        if matches!(call, Call::Open { .. } | Call::Close { .. }) {
            return;
        }
        let raised = raised_names(&numbers(before), &numbers(after));
        let class = raised_class(&answer_name(call, outcome), &raised);
        if named_port(call, outcome).is_none() {
            self.tick(&class);
            return self.tick(no_port_class(history.state(port)));
        }
        let abi = self.books[port].ring.abi;
        self.tick_of(abi, &class);
        let broken = before != after && history.state(port) == State::Broken;
        self.tick_of_if(abi, broken, "record raised on a broken port");
        let again = before.taken != after.taken && history.taken(port) == 1;
        let class = "record raised, the first request since a reopening";
        self.tick_of_if(abi, again && after.taken > 1, class);
        let class = "record raised, now more answered than taken";
        self.tick_of_if(abi, is_ahead(after) && !is_ahead(before), class);
        let carried = (before.taken, after.taken) == (255, 256);
        self.tick_of_if(abi, carried, "record raised, now 256 taken");
    }

    pub(super) fn note_zeroing(&mut self, history: &History, port: usize) {
        self.tick(zeroed_class(history.state(port)));
        let in_flight = history.unfinished(port) > 0;
        let abi = self.books[port].ring.abi;
        self.tick_of_if(abi, in_flight, "record zeroed, requests in flight");
    }

    /// Counts a trial, with the record as it was left.
    pub fn note_trial(&mut self, trial: &Trial, after: &Meter) {
        let was_done = trial.returned == 0;
        match &trial.words {
            Words::Turn(words) => {
                let (kind, status) = (words[turn::KIND], words[turn::STATUS]);
                self.tick_if(KINDS.contains(&kind), &kind_class(kind, was_done));
                let answered = was_done && kind == kind::ANSWERED;
                let known = STATUSES.contains(&status);
                self.tick_if(answered && known, &answered_class(status));
            }
            Words::Completion(words) => {
                let status = words[done::STATUS];
                let known = STATUSES.contains(&status);
                self.tick_if(known, &completed_class(status, was_done));
            }
            Words::Many(words) => self.note_list_trial(words, was_done),
        }
        let known = REFUSALS.contains(&trial.returned);
        self.tick_if(known, &returned_class(trial.returned));
        self.note_ends(&due(trial), &numbers(&trial.meter), &numbers(after));
    }

    /// Counts the words of a list: how many are said to count, and statuses on both sides of the last.
    fn note_list_trial(&mut self, words: &ManyWords, was_done: bool) {
        let (said, statuses) = (words[many::COUNT], &words[many::STATUSES..]);
        self.tick_if(COUNTS.contains(&said), &counted_class(said, was_done));
        let count = usize::try_from(said).map_or(ENTRIES, |said| said.min(ENTRIES));
        if was_done && count > 0 {
            let places = [
                Some(&statuses[0]),
                Some(&statuses[count - 1]),
                statuses.get(count),
            ];
            for (place, status) in LIST_PLACES.into_iter().zip(places) {
                let status = status.filter(|status| STATUSES.contains(status));
                if let Some(status) = status {
                    self.tick(&listed_class(place, *status));
                }
            }
        }
    }

    /// Counts numbers that are, or get, as great as they can be.
    fn note_ends(&mut self, due: &Record, before: &Record, after: &Record) {
        let raised = || (0..NAMES.len()).filter(|&at| due[at] > 0);
        for at in raised() {
            if before[at] < u64::MAX {
                self.tick_if(after[at] == u64::MAX, &arrived_class(NAMES[at]));
                let passed = before[at].checked_add(due[at]).is_none();
                self.tick_if(passed, &passed_class(NAMES[at]));
                continue;
            }
            self.tick(&full_class(NAMES[at]));
            for other in raised().filter(|&other| after[other] > before[other]) {
                self.tick(&apart_class(NAMES[at], NAMES[other]));
            }
        }
    }
}

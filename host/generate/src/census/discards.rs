//! Discards by their flag and their disk's discard-secure: they are secure by both together (rule 5.23)
//! and meet the same checks whatever the two are (rule 8.14).

use super::Census;
use crate::requests::{BARRIER, DISCARD, READ, WRITE};
use kernelharp::words::{turn, TurnWords};

/// The reasons that a discard can meet.
pub const DISCARD_REASONS: &[u64] = &[22, 24, 25, 28, 29];

/// Operations that have n where a discard has its flag.
const MOVING: [u8; 3] = [READ, WRITE, BARRIER];

/// How a turn ended that served a request: started, with the secure mark or without, or answered.
pub fn end_of(reason: u64, secure_mark: bool) -> String {
    match (reason, secure_mark) {
        (0, false) => "started plain".into(),
        (0, true) => "started secure".into(),
        _ => format!("answered {reason}"),
    }
}

/// A flag: bit 0 and the others, each set or not.
pub fn flag_of(byte: u8) -> &'static str {
    match byte {
        0 => "flag 0",
        1 => "flag 1",
        _ if byte % 2 == 0 => "flag even, not 0",
        _ => "flag odd, not 1",
    }
}

/// The class of a discard by its name.
fn discard_class(end: &str, discard_secure: bool, flag: u8) -> String {
    let (secure, flag) = (u8::from(discard_secure), flag_of(flag));
    format!("{end}, operation {DISCARD}, discard-secure {secure}, {flag}")
}

/// The class of a start that would be a secure discard but for its operation.
fn moving_class(end: &str, operation: u8) -> String {
    format!("{end}, operation {operation}, discard-secure 1, n odd")
}

/// The classes that ports of each layout should show.
pub fn discard_classes() -> Vec<String> {
    let plain = end_of(0, false);
    let mut classes: Vec<String> = MOVING.map(|it| moving_class(&plain, it)).into();
    for discard_secure in [false, true] {
        for flag in 0..4 {
            let mut end_in = |end: &str| classes.push(discard_class(end, discard_secure, flag));
            end_in(&end_of(0, discard_secure && flag % 2 == 1));
            for &reason in DISCARD_REASONS {
                end_in(&end_of(reason, false));
            }
        }
    }
    classes
}

impl Census {
    /// Counts a request that was served, by its slot.
    pub(super) fn note_discards(&mut self, port: usize, answer: &TurnWords, slot: &[u8]) {
        let books = &self.books[port];
        let Some(disk) = &books.disk else {
            return;
        };
        let (abi, secure, reason) = (books.ring.abi, disk.secure, answer[turn::REASON]);
        let (operation, flag_or_n) = (slot[0], slot[1]);
        let end = end_of(reason, answer[turn::SECURE] == 1);
        if operation == DISCARD {
            self.tick_of(abi, &discard_class(&end, secure, flag_or_n));
        } else if reason == 0 && MOVING.contains(&operation) && secure && flag_or_n % 2 == 1 {
            self.tick_of(abi, &moving_class(&end, operation));
        }
    }
}

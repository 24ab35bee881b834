//! One call of a history, as the checker is told of it (rule 12.6), one zeroing of a record, or calls that
//! it is not told of one by one.

use crate::places::{DONE_WORDS, MANY_WORDS, TURN_WORDS};
use crate::refusal::NONE;

/// One entry of the history: a call, what the host did between calls to a record of counters, or requests
/// that were passed over. A
/// `code` of 0 says that the call was done, any other is the refusal's number; answers are the words
/// of the C interface's tables, looked at only when it was done.
#[derive(Clone, Copy, Debug)]
pub enum Event<'a> {
    /// An open.
    Open {
        /// The port named.
        port: u32,
        /// The node sheet.
        sheet: &'a [u8],
        /// 0 or the refusal.
        code: u32,
    },
    /// A close.
    Close {
        /// The port named.
        port: u32,
        /// 0 or the refusal.
        code: u32,
    },
    /// A turn.
    Turn {
        /// The rings before the call.
        lent: &'a [u8],
        /// The rings after the call.
        left: &'a [u8],
        /// The grants.
        grants: &'a [u8],
        /// 0 or the refusal.
        code: u32,
        /// `kh_turn`'s answer.
        answer: &'a [u64; TURN_WORDS],
    },
    /// A completion.
    Complete {
        /// The rings before the call.
        lent: &'a [u8],
        /// The rings after the call.
        left: &'a [u8],
        /// The port named.
        port: u32,
        /// The tag named.
        tag: u32,
        /// The serial named.
        serial: u32,
        /// The host's result; demand 3 says nothing of it.
        result: i32,
        /// 0 or the refusal.
        code: u32,
        /// `kh_complete`'s answer.
        answer: &'a [u64; DONE_WORDS],
    },
    /// A list of completions of one port.
    CompleteMany {
        /// The rings before the call.
        lent: &'a [u8],
        /// The rings after the call.
        left: &'a [u8],
        /// The port named.
        port: u32,
        /// The words of the list, three to an entry: tag, serial, and the host's result, of which demand 3
        /// says nothing.
        entries: &'a [u64],
        /// 0 or the refusal.
        code: u32,
        /// `kh_complete_many`'s answer.
        answer: &'a [u64; MANY_WORDS],
    },
    /// The host zeroed a record (rule 15.5).
    Zeroed {
        /// The port whose record it is, below 8.
        port: usize,
    },
    /// A port that was just opened is as it would be after so many requests, each of them taken and
    /// answered. What was in them, and the turns that served them, nobody knows: the checker counts on
    /// from there and claims nothing of what was passed over, nor do the records count it.
    Skipped {
        /// The port, which is open.
        port: usize,
        /// How many requests were taken and answered.
        requests: u32,
    },
}

impl Event<'_> {
    /// 0 or the refusal. A zeroing asks nobody, so it is done, and so is what was passed over.
    pub fn code(&self) -> u32 {
        match *self {
            Event::Open { code, .. }
            | Event::Close { code, .. }
            | Event::Turn { code, .. }
            | Event::Complete { code, .. }
            | Event::CompleteMany { code, .. } => code,
            Event::Zeroed { .. } | Event::Skipped { .. } => NONE,
        }
    }
}

//! The words of the calls' answers, and of what is handed in as words, by name.

use crate::layout::ENTRIES;

/// How many words a turn answers with.
pub const TURN_WORDS: usize = 64;
/// How many words a completion answers with.
pub const DONE_WORDS: usize = 4;
/// How many words a list of completions answers with.
pub const MANY_WORDS: usize = many::STATUSES + ENTRIES;
/// How many words joining answers with: the number of runs.
pub const JOIN_WORDS: usize = 1;
/// How many words a request has that a guest puts.
pub const REQUEST_WORDS: usize = 41;
/// How many words putting answers with.
pub const PUT_WORDS: usize = 1;
/// How many words collecting answers with.
pub const COLLECT_WORDS: usize = 4;

/// A turn's answer.
pub type TurnWords = [u64; TURN_WORDS];
/// A completion's answer.
pub type DoneWords = [u64; DONE_WORDS];
/// The answer of a list of completions.
pub type ManyWords = [u64; MANY_WORDS];
/// The answer of joining.
pub type JoinWords = [u64; JOIN_WORDS];
/// A request that a guest puts.
pub type RequestWords = [u64; REQUEST_WORDS];
/// The answer of putting.
pub type PutWords = [u64; PUT_WORDS];
/// The answer of collecting.
pub type CollectWords = [u64; COLLECT_WORDS];

/// Places in a turn's answer. What the kind does not use is 0.
pub mod turn {
    /// What the turn did, see [`super::kind`].
    pub const KIND: usize = 0;
    /// The port; of all kinds but idle.
    pub const PORT: usize = 1;
    /// Of a start, like all up to the number of extents: the tag.
    pub const TAG: usize = 2;
    /// The serial.
    pub const SERIAL: usize = 3;
    /// The operation's number.
    pub const OPERATION: usize = 4;
    /// The first sector on the disk.
    pub const START: usize = 5;
    /// How many sectors.
    pub const COUNT: usize = 6;
    /// The secure mark, 0 or 1.
    pub const SECURE: usize = 7;
    /// How many extents.
    pub const EXTENT_COUNT: usize = 8;
    /// Of a request answered at once, like the next two: the reason's number.
    pub const REASON: usize = 9;
    /// The status without its sign.
    pub const STATUS: usize = 10;
    /// Whether the guest is to be notified, 0 or 1.
    pub const NOTIFY: usize = 11;
    /// Of a start: the first extent; the others follow it.
    pub const EXTENTS: usize = 16;
}

/// What a turn did.
pub mod kind {
    /// No port had something to serve.
    pub const IDLE: u64 = 0;
    /// A request was started.
    pub const STARTED: u64 = 1;
    /// A request failed a check and was answered.
    pub const ANSWERED: u64 = 2;
    /// A port has an overrun.
    pub const OVERRUN: u64 = 3;
}

/// Places in an extent of a turn's answer.
pub mod extent {
    /// The guest frame.
    pub const FRAME: usize = 0;
    /// The first sector within the frame.
    pub const FIRST: usize = 1;
    /// How many sectors.
    pub const LENGTH: usize = 2;
    /// Where they begin on the disk.
    pub const SECTOR: usize = 3;
    /// How many words an extent has.
    pub const WORDS: usize = 4;
}

/// Places in a completion's answer; its last word is 0.
pub mod done {
    /// The port named.
    pub const PORT: usize = 0;
    /// The status without its sign.
    pub const STATUS: usize = 1;
    /// Whether the guest is to be notified, 0 or 1.
    pub const NOTIFY: usize = 2;
}

/// Places in an entry of a list of completions.
pub mod entry {
    /// The tag named.
    pub const TAG: usize = 0;
    /// The serial named.
    pub const SERIAL: usize = 1;
    /// The host's result, in two's complement.
    pub const RESULT: usize = 2;
    /// How many words an entry has.
    pub const WORDS: usize = 3;
}

/// Places in the answer of a list of completions. The word before the statuses and those behind them are 0.
pub mod many {
    /// The port named.
    pub const PORT: usize = 0;
    /// How many entries were done.
    pub const COUNT: usize = 1;
    /// Whether the guest is to be notified, 0 or 1.
    pub const NOTIFY: usize = 2;
    /// The first entry's status without its sign; the others follow it.
    pub const STATUSES: usize = 4;
}

/// Places in a request that a guest puts. Only what the operation uses is looked at.
pub mod request {
    /// The operation's number.
    pub const OPERATION: usize = 0;
    /// The id.
    pub const ID: usize = 1;
    /// The first sector on the disk.
    pub const START: usize = 2;
    /// How many segments.
    pub const SEGMENT_COUNT: usize = 3;
    /// Of a discard: its flag, of which only bit 0 is used.
    pub const FLAG: usize = 4;
    /// Of a discard: how many sectors.
    pub const SECTORS: usize = 5;
    /// The first segment; the others follow it.
    pub const SEGMENTS: usize = 8;
}

/// Places in a segment of such a request.
pub mod segment {
    /// The guest frame.
    pub const FRAME: usize = 0;
    /// The first sector within the frame.
    pub const FIRST: usize = 1;
    /// The last sector within the frame.
    pub const LAST: usize = 2;
    /// How many words a segment has.
    pub const WORDS: usize = 3;
}

/// Places in the answer of putting.
pub mod put {
    /// Whether the backend is to be notified, 0 or 1.
    pub const NOTIFY: usize = 0;
}

/// Places in the answer of collecting.
pub mod collect {
    /// 1 where there was a response; else 0, and so are the others.
    pub const FOUND: usize = 0;
    /// Its id.
    pub const ID: usize = 1;
    /// Its operation.
    pub const OPERATION: usize = 2;
    /// The 16 bits of its status.
    pub const STATUS: usize = 3;
}

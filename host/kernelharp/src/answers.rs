//! What the calls answer, as types: turns with their plans, and completions.

use crate::layout::{ENTRIES, EXTENTS};
use crate::names::{Name, Port, Serial, Tag};
use crate::terms::{Operation, Reason, Status};
use crate::words::{done, extent, kind, many, turn, DoneWords, ManyWords, TurnWords};
use std::fmt;
use std::slice;

/// One stretch of a plan: sectors of 512 bytes that lie together in a guest frame and on the disk.
#[derive(Clone, Copy, Debug, Default, PartialEq, Eq)]
pub struct Extent {
    /// The guest frame: the reference by which the guest granted it.
    pub frame: u32,
    /// The first sector within the frame, 0 to 7.
    pub first_sector: u8,
    /// How many sectors, 1 to 8.
    pub length: u8,
    /// Where they begin on the disk.
    pub disk_sector: u64,
}

impl Extent {
    #[inline]
    fn from_words(words: &[u64]) -> Option<Extent> {
        Some(Extent {
            frame: words[extent::FRAME].try_into().ok()?,
            first_sector: words[extent::FIRST].try_into().ok()?,
            length: words[extent::LENGTH].try_into().ok()?,
            disk_sector: words[extent::SECTOR],
        })
    }
}

/// A request that passed every check, for the host to carry out and then to complete by its name.
#[must_use = "a plan that is dropped is never completed, and its port can never be closed"]
#[derive(Clone, Debug, PartialEq, Eq)]
pub struct Plan {
    /// What names the request in its completion.
    pub name: Name,
    /// What is asked for.
    pub operation: Operation,
    /// The first sector on the disk.
    pub start: u64,
    /// How many sectors.
    pub count: u64,
    /// A discard that must leave nothing to be read: the guest asked for it, and discard-secure
    /// is 1.
    pub secure: bool,
    extents: [Extent; EXTENTS],
    used: usize,
}

impl Plan {
    /// The stretches in order, each following the one before on the disk; none for a flush, a
    /// discard or an empty barrier.
    pub fn extents(&self) -> &[Extent] {
        &self.extents[..self.used]
    }

    /// The result to complete with when all went well.
    pub fn expected_result(&self) -> i32 {
        match self.operation {
            // At most eleven extents of eight sectors.
            Operation::Read | Operation::Write | Operation::Barrier => self.count as i32,
            Operation::Flush | Operation::Discard => 0,
        }
    }

    /// Puts another frame in the place of each extent's.
    pub(crate) fn map_frames(&mut self, other: impl Fn(u32) -> u32) {
        for extent in &mut self.extents[..self.used] {
            extent.frame = other(extent.frame);
        }
    }

    #[inline]
    fn from_words(words: &TurnWords) -> Option<Plan> {
        let used = usize::try_from(words[turn::EXTENT_COUNT]).ok()?;
        let mut extents = [Extent::default(); EXTENTS];
        let filled = words[turn::EXTENTS..].chunks(extent::WORDS);
        for (extent, words) in extents.get_mut(..used)?.iter_mut().zip(filled) {
            *extent = Extent::from_words(words)?;
        }
        Some(Plan {
            name: Name {
                port: port_of(words[turn::PORT])?,
                tag: Tag(words[turn::TAG].try_into().ok()?),
                serial: Serial(words[turn::SERIAL].try_into().ok()?),
            },
            operation: Operation::from_byte(words[turn::OPERATION].try_into().ok()?)?,
            start: words[turn::START],
            count: words[turn::COUNT],
            secure: flag_of(words[turn::SECURE])?,
            extents,
            used,
        })
    }
}

impl fmt::Display for Plan {
    fn fmt(&self, f: &mut fmt::Formatter) -> fmt::Result {
        let secure = if self.secure { "secure " } else { "" };
        write!(
            f,
            "{}: {secure}{}, start {}, count {}, extents {}",
            self.name, self.operation, self.start, self.count, self.used
        )
    }
}

/// What a turn did.
// A plan is carried out at once: a box around it would cost an allocation a request.
#[allow(clippy::large_enum_variant)]
#[must_use = "a started plan would be lost, or a guest not notified"]
#[derive(Clone, Debug, PartialEq, Eq)]
#[non_exhaustive]
pub enum Turn {
    /// No port had something to serve.
    Idle,
    /// A request passed every check.
    Started(Plan),
    /// A request did not pass and was answered on the ring.
    Answered {
        /// The port served.
        port: Port,
        /// The first check at fault.
        reason: Reason,
        /// The status in the response.
        status: Status,
        /// Whether the guest is to be notified.
        notify: bool,
    },
    /// The guest's req_prod ran past the ring: the port is broken and served no more.
    Overrun(Port),
}

impl Turn {
    /// Reads `kh_turn`'s answer; nothing comes back for words that no turn answers with.
    #[inline]
    pub fn from_words(words: &TurnWords) -> Option<Turn> {
        Some(match words[turn::KIND] {
            kind::IDLE => Turn::Idle,
            kind::STARTED => Turn::Started(Plan::from_words(words)?),
            kind::ANSWERED => Turn::Answered {
                port: port_of(words[turn::PORT])?,
                reason: Reason::from_number(words[turn::REASON].try_into().ok()?)?,
                status: Status::from_magnitude(words[turn::STATUS])?,
                notify: flag_of(words[turn::NOTIFY])?,
            },
            kind::OVERRUN => Turn::Overrun(port_of(words[turn::PORT])?),
            _ => return None,
        })
    }
}

impl fmt::Display for Turn {
    fn fmt(&self, f: &mut fmt::Formatter) -> fmt::Result {
        match self {
            Turn::Idle => write!(f, "idle"),
            Turn::Started(plan) => write!(f, "started {plan}"),
            Turn::Answered {
                port,
                reason,
                status,
                notify,
            } => write!(f, "answered {port}: {reason}, {status}{}", told(*notify)),
            Turn::Overrun(port) => write!(f, "overrun on {port}"),
        }
    }
}

/// What a completion did.
#[must_use = "the guest may have to be notified"]
#[derive(Clone, Copy, Debug, PartialEq, Eq)]
pub struct Done {
    /// The port named.
    pub port: Port,
    /// The status in the response.
    pub status: Status,
    /// Whether the guest is to be notified.
    pub notify: bool,
}

impl Done {
    /// Reads `kh_complete`'s answer; nothing comes back for words that no completion answers with.
    pub fn from_words(words: &DoneWords) -> Option<Done> {
        Some(Done {
            port: port_of(words[done::PORT])?,
            status: Status::from_magnitude(words[done::STATUS])?,
            notify: flag_of(words[done::NOTIFY])?,
        })
    }
}

impl fmt::Display for Done {
    fn fmt(&self, f: &mut fmt::Formatter) -> fmt::Result {
        let (port, status, told) = (self.port, self.status, told(self.notify));
        write!(f, "completed {port}: {status}{told}")
    }
}

/// What a list of completions did.
#[must_use = "the guest may have to be notified"]
#[derive(Clone, Debug, PartialEq, Eq)]
pub struct DoneMany {
    /// The port named.
    pub port: Port,
    /// Whether the guest is to be notified, once for all of them.
    pub notify: bool,
    statuses: [Status; ENTRIES],
    count: usize,
}

impl DoneMany {
    /// The statuses in the responses, in the order of the list.
    pub fn statuses(&self) -> &[Status] {
        &self.statuses[..self.count]
    }

    /// Reads `kh_complete_many`'s answer; nothing comes back for words that no list answers with.
    pub fn from_words(words: &ManyWords) -> Option<DoneMany> {
        let count = usize::try_from(words[many::COUNT]).ok()?;
        let mut statuses = [Status::Okay; ENTRIES];
        let magnitudes = &words[many::STATUSES..];
        for (status, &word) in statuses.get_mut(..count)?.iter_mut().zip(magnitudes) {
            *status = Status::from_magnitude(word)?;
        }
        Some(DoneMany {
            port: port_of(words[many::PORT])?,
            notify: flag_of(words[many::NOTIFY])?,
            statuses,
            count,
        })
    }
}

/// What a completion or a list of them says of its responses.
pub(crate) trait Responses {
    /// Their statuses, in order.
    fn statuses(&self) -> &[Status];

    /// Whether the guest is to be notified.
    fn notify(&self) -> bool;

    /// Says otherwise.
    fn set_notify(&mut self, notify: bool);
}

impl Responses for Done {
    fn statuses(&self) -> &[Status] {
        slice::from_ref(&self.status)
    }

    fn notify(&self) -> bool {
        self.notify
    }

    fn set_notify(&mut self, notify: bool) {
        self.notify = notify;
    }
}

impl Responses for DoneMany {
    fn statuses(&self) -> &[Status] {
        DoneMany::statuses(self)
    }

    fn notify(&self) -> bool {
        self.notify
    }

    fn set_notify(&mut self, notify: bool) {
        self.notify = notify;
    }
}

impl fmt::Display for DoneMany {
    fn fmt(&self, f: &mut fmt::Formatter) -> fmt::Result {
        let DoneMany { port, count, .. } = self;
        write!(f, "completed {count} of {port}:")?;
        for status in self.statuses() {
            write!(f, " {}", *status as i16)?;
        }
        f.write_str(told(self.notify))
    }
}

fn told(notify: bool) -> &'static str {
    if notify {
        ", notify"
    } else {
        ""
    }
}

fn port_of(word: u64) -> Option<Port> {
    Port::try_from(u32::try_from(word).ok()?).ok()
}

fn flag_of(word: u64) -> Option<bool> {
    match word {
        0 => Some(false),
        1 => Some(true),
        _ => None,
    }
}

#[cfg(test)]
mod tests {
    use super::*;
    use crate::words::{MANY_WORDS, TURN_WORDS};

    /// Words of a turn: those named, all others zeros.
    fn words(named: &[(usize, u64)]) -> TurnWords {
        let mut words = [0; TURN_WORDS];
        for &(at, word) in named {
            words[at] = word;
        }
        words
    }

    #[track_caller]
    fn printed(named: &[(usize, u64)], due: &str) {
        let turn = Turn::from_words(&words(named)).expect("a turn's words");
        assert_eq!(turn.to_string(), due);
    }

    #[test]
    fn turns_print_what_they_did() {
        printed(&[], "idle");
        let overrun = [(turn::KIND, kind::OVERRUN), (turn::PORT, 7)];
        printed(&overrun, "overrun on port 7");
        let answered = [
            (turn::KIND, kind::ANSWERED),
            (turn::PORT, 1),
            (turn::REASON, 27),
            (turn::STATUS, 1),
            (turn::NOTIFY, 1),
        ];
        let due =
            "answered port 1: reason 27: a frame without the grant that it takes, status -1 (error), notify";
        printed(&answered, due);
        let started = [
            (turn::KIND, kind::STARTED),
            (turn::PORT, 4),
            (turn::TAG, 2),
            (turn::SERIAL, 35),
            (turn::OPERATION, 5),
            (turn::START, 16),
            (turn::COUNT, 8),
            (turn::SECURE, 1),
        ];
        let due = "started port 4, tag 2, serial 35: secure discard, start 16, count 8, extents 0";
        printed(&started, due);
    }

    #[test]
    fn a_completion_prints_what_it_did() {
        let done = Done::from_words(&[6, 2, 0, 0]).map(|done| done.to_string());
        let due = "completed port 6: status -2 (not supported)";
        assert_eq!(done.as_deref(), Some(due));
    }

    /// The words of a list on port 5 whose statuses have these magnitudes.
    fn listed(magnitudes: &[u64]) -> ManyWords {
        let mut words = [0; MANY_WORDS];
        (words[many::PORT], words[many::COUNT]) = (5, magnitudes.len() as u64);
        words[many::STATUSES..][..magnitudes.len()].copy_from_slice(magnitudes);
        words
    }

    #[test]
    fn a_list_prints_what_it_did() {
        let mut words = listed(&[0, 2, 1]);
        words[many::NOTIFY] = 1;
        let done = DoneMany::from_words(&words).expect("a list's words");
        assert_eq!(done.to_string(), "completed 3 of port 5: 0 -2 -1, notify");
        let due = [Status::Okay, Status::NotSupported, Status::Error];
        assert_eq!(done.statuses(), due);
        let done = DoneMany::from_words(&listed(&[])).expect("a list's words");
        assert_eq!(done.to_string(), "completed 0 of port 5:");
        let done = DoneMany::from_words(&listed(&[1; ENTRIES])).expect("a list's words");
        assert_eq!(done.statuses(), [Status::Error; ENTRIES]);
    }

    #[test]
    fn words_that_no_call_answers_with() {
        let started = words(&[
            (turn::KIND, kind::STARTED),
            (turn::COUNT, 8),
            (turn::EXTENT_COUNT, 1),
        ]);
        assert!(Turn::from_words(&started).is_some());
        for (at, word) in [
            (turn::KIND, kind::OVERRUN + 1),
            (turn::PORT, 8),
            (turn::TAG, 1 << 32),
            (turn::OPERATION, 4),
            (turn::SECURE, 2),
            (turn::EXTENT_COUNT, 12),
        ] {
            let mut words = started;
            words[at] = word;
            assert_eq!(Turn::from_words(&words), None, "word {at}: {word}");
        }
        for words in [[8, 0, 0, 0], [0, 3, 0, 0], [0, 0, 2, 0]] {
            assert_eq!(Done::from_words(&words), None);
        }
        for (at, word) in [
            (many::PORT, 8),
            (many::COUNT, ENTRIES as u64 + 1),
            (many::COUNT, u64::MAX),
            (many::NOTIFY, 2),
            (many::STATUSES + 1, 3),
        ] {
            let mut words = listed(&[0, 1]);
            words[at] = word;
            assert_eq!(DoneMany::from_words(&words), None, "word {at}: {word}");
        }
    }
}

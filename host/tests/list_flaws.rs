//! Wrong programs about lists of completions: the comparison finds each of them, and the checker of demand 3
//! by itself all that it speaks of.

use generate::{Core, List, Ring, UNTOUCHED};
use kernelharp::layout::{
    read_u32, ring, ring_mut, write_u32, ENTRIES, PORTS, RINGS_BYTES, RSP_EVENT, RSP_PROD,
};
use kernelharp::words::{done, entry, kind, many, turn, DONE_WORDS, MANY_WORDS};
use kernelharp::words::{DoneWords, ManyWords, TurnWords};
use kernelharp::{Completion, Meter, Refusal};
use second::Backend;
use std::collections::HashSet;
use tests::{find_alone, find_beside};

const SEED: u64 = 0x6C69_7374_7300;
/// The longest list of calls that a flaw may need to be found.
const CALLS: u64 = 60_000;

const WRONG_LENGTH: u32 = Refusal::WrongLength as u32;
const IS_CLOSED: u32 = Refusal::IsClosed as u32;
const NOT_BUSY: u32 = Refusal::NotBusy as u32;
const TOO_MANY: u32 = Refusal::TooMany as u32;

/// The shapes of wrong programs that a wrapper around the second program can take.
#[derive(Clone, Copy, Debug, PartialEq, Eq)]
enum Flaw {
    /// Notify goes by the last response alone, as of a single completion.
    NotifyNew,
    /// Notify takes the index before the list for one of its own, and leaves out the last.
    NotifyOld,
    /// Notify compares indices as plain numbers.
    NotifyNoWrap,
    /// Notify is yes for every index that was passed long ago.
    NotifyPassed,
    /// Entries before the one at fault are done.
    Partly,
    /// What is named twice is done once, and the list is not refused.
    TwiceOnce,
    /// Only neighbours are looked at for a tag that is named twice.
    TwiceNeighbours,
    /// Entries are the same only if their serials and results are, too.
    TwiceWhole,
    /// Responses stand in the order of the tags.
    ByTag,
    /// Responses stand last to first.
    Reverse,
    /// The answer's statuses are in the order of the tags.
    StatusesByTag,
    /// The slots of a list do not go round.
    NoRound,
    /// rsp_prod is raised from what the page has.
    RspProdOfPage,
    /// An empty list stores rsp_prod.
    EmptyStores,
    /// An empty list notifies where rsp_event is the index that we are at.
    EmptyNotifies,
    /// An empty list is done, whatever the port.
    EmptyAnywhere,
    /// More entries than the ring has slots are too many.
    TooManyByRing,
    /// 64 entries are too many.
    TooManyAt64,
    /// More than 64 are looked at before they are too many.
    TooManyLate,
    /// More than 64 are too many before the port is looked at.
    TooManyEarly,
    /// Words that are no whole entry are left out.
    WordsCut,
    /// The number of words is looked at after the port.
    WordsLate,
    /// A tag has 32 bits.
    TagCut,
    /// A serial has 32 bits.
    SerialCut,
    /// A result has 32 bits.
    ResultCut,
    /// A broken port has no lists.
    BrokenRefused,
    /// Words behind the statuses stay as they were.
    AnswerShort,
    /// A refused list has written its number of entries.
    AnswerTouched,
    /// Each entry is taken once more.
    MeterTaken,
    /// Of a list, one answer counts.
    MeterOne,
    /// All places of the answer count.
    MeterAll,
    /// A number of entries beyond 64 counts none.
    MeterNone,
    /// The number of entries has 32 bits.
    MeterCut,
    /// A list that does not fit a number is left out of it.
    MeterWhole,
    /// A refused list counts, by the words of the one before.
    MeterRefused,
}

/// The flaws that a history shows.
const AGAINST_DEMAND_3: [Flaw; 24] = [
    Flaw::Partly,
    Flaw::TwiceOnce,
    Flaw::TwiceNeighbours,
    Flaw::TwiceWhole,
    Flaw::ByTag,
    Flaw::Reverse,
    Flaw::StatusesByTag,
    Flaw::NoRound,
    Flaw::EmptyStores,
    Flaw::EmptyAnywhere,
    Flaw::TooManyByRing,
    Flaw::TooManyAt64,
    Flaw::TooManyLate,
    Flaw::TooManyEarly,
    Flaw::WordsCut,
    Flaw::WordsLate,
    Flaw::TagCut,
    Flaw::SerialCut,
    Flaw::BrokenRefused,
    Flaw::AnswerTouched,
    Flaw::MeterTaken,
    Flaw::MeterOne,
    Flaw::MeterAll,
    Flaw::MeterRefused,
];

/// Those that only another program shows.
const AGAINST_THE_RULES: [Flaw; 11] = [
    Flaw::NotifyNew,
    Flaw::NotifyOld,
    Flaw::NotifyNoWrap,
    Flaw::NotifyPassed,
    Flaw::RspProdOfPage,
    Flaw::EmptyNotifies,
    Flaw::ResultCut,
    Flaw::AnswerShort,
    Flaw::MeterNone,
    Flaw::MeterCut,
    Flaw::MeterWhole,
];

/// What is known of a port that was opened.
#[derive(Clone, Copy, Default)]
struct Port {
    ring: Ring,
    broken: bool,
    answered: u32,
}

struct Flawed {
    backend: Backend,
    flaw: Flaw,
    /// Those that are not closed.
    ports: [Option<Port>; PORTS],
}

impl Flawed {
    fn new(flaw: Flaw) -> Flawed {
        Flawed {
            backend: Backend::new(),
            flaw,
            ports: [None; PORTS],
        }
    }

    fn port(&self, port: u32) -> Option<Port> {
        *self.ports.get(port as usize)?
    }

    /// The refusal that the flaw gives before anything else is looked at.
    fn hasty_refusal(&self, rings: &[u8], port: u32, entries: &[u64]) -> Option<u32> {
        let (count, known) = (entries.len() / entry::WORDS, self.port(port));
        let (sized, whole) = (
            rings.len() == RINGS_BYTES,
            entries.len() % entry::WORDS == 0,
        );
        let refusal = match (self.flaw, known) {
            (Flaw::TooManyByRing, Some(known)) if count > known.ring.slots() as usize => TOO_MANY,
            (Flaw::TooManyAt64, Some(_)) if count == ENTRIES => TOO_MANY,
            (Flaw::TooManyEarly, _) if count > ENTRIES => TOO_MANY,
            (Flaw::BrokenRefused, Some(known)) if known.broken => IS_CLOSED,
            _ => return None,
        };
        (sized && whole).then_some(refusal)
    }

    /// The entries as the flaw reads them.
    fn misread(&self, entries: &[u64]) -> Vec<u64> {
        let mut misread = entries.to_vec();
        let cut = match self.flaw {
            Flaw::TagCut => entry::TAG,
            Flaw::SerialCut => entry::SERIAL,
            Flaw::ResultCut => entry::RESULT,
            Flaw::WordsCut => {
                misread.truncate(entries.len() / entry::WORDS * entry::WORDS);
                return misread;
            }
            _ => return misread,
        };
        for entry in misread.chunks_exact_mut(entry::WORDS) {
            entry[cut] = i64::from(entry[cut] as i32) as u64;
            if cut != entry::RESULT {
                entry[cut] &= u64::from(u32::MAX);
            }
        }
        misread
    }

    /// The entries that are left, each tag once, where the flaw overlooks that one is named twice.
    fn named_once(&self, entries: &[u64]) -> Option<Vec<u64>> {
        let list: Vec<&[u64]> = entries.chunks_exact(entry::WORDS).collect();
        let overlooked = match self.flaw {
            Flaw::TwiceOnce => true,
            Flaw::TwiceNeighbours => list
                .windows(2)
                .all(|pair| pair[0][entry::TAG] != pair[1][entry::TAG]),
            Flaw::TwiceWhole => list.iter().collect::<HashSet<_>>().len() == list.len(),
            _ => false,
        };
        let mut seen = HashSet::new();
        let kept = list.iter().copied();
        let kept: Vec<&[u64]> = kept
            .filter(|entry| seen.insert(entry[entry::TAG]))
            .collect();
        (overlooked && kept.len() < list.len()).then(|| kept.concat())
    }

    /// The list in another order than it has.
    fn reordered(&self, entries: &[u64]) -> Vec<u64> {
        let mut list: Vec<&[u64]> = entries.chunks(entry::WORDS).collect();
        match self.flaw {
            Flaw::ByTag => list.sort_by_key(|entry| entry[entry::TAG]),
            Flaw::Reverse => list.reverse(),
            _ => {}
        }
        list.concat()
    }

    /// The entries one by one, up to the first that is refused.
    fn one_by_one(&mut self, rings: &mut [u8], port: u32, entries: &[u64]) {
        for entry in entries.chunks_exact(entry::WORDS) {
            let named = Completion {
                port,
                tag: u32::try_from(entry[entry::TAG]).unwrap_or(u32::MAX),
                serial: entry[entry::SERIAL] as u32,
                result: entry[entry::RESULT] as i32,
            };
            let mut words = [0; DONE_WORDS];
            if Core::complete(&mut self.backend, rings, named, &mut words) != 0 {
                return;
            }
        }
    }

    /// What the flaw makes of a list that was done.
    fn spoil(
        &self,
        lent: &[u8],
        rings: &mut [u8],
        (port, known): (usize, Port),
        entries: &[u64],
        answer: &mut ManyWords,
    ) {
        let count = answer[many::COUNT] as usize;
        let (old, new) = (known.answered, known.answered.wrapping_add(count as u32));
        let rsp_event = read_u32(ring(lent, port), RSP_EVENT);
        let notify = match self.flaw {
            Flaw::NotifyNew => rsp_event == new,
            Flaw::NotifyOld => rsp_event.wrapping_sub(old) < new.wrapping_sub(old),
            Flaw::NotifyNoWrap => old < rsp_event && rsp_event <= new,
            Flaw::NotifyPassed => new.wrapping_sub(rsp_event) < 1 << 31,
            Flaw::EmptyNotifies if count == 0 => rsp_event == old,
            _ => answer[many::NOTIFY] == 1,
        };
        if count > 0 || self.flaw == Flaw::EmptyNotifies {
            answer[many::NOTIFY] = u64::from(notify);
        }
        let statuses = &mut answer[many::STATUSES..];
        match self.flaw {
            Flaw::StatusesByTag => {
                let list = entries.chunks(entry::WORDS).zip(&*statuses);
                let mut by_tag: Vec<(u64, u64)> = list
                    .map(|(entry, status)| (entry[entry::TAG], *status))
                    .collect();
                by_tag.sort_unstable();
                for (word, (_, status)) in statuses.iter_mut().zip(by_tag) {
                    *word = status;
                }
            }
            Flaw::AnswerShort => statuses[count..].fill(UNTOUCHED),
            Flaw::EmptyStores if count == 0 => write_u32(ring_mut(rings, port), RSP_PROD, old),
            Flaw::RspProdOfPage if count > 0 => {
                let before = read_u32(ring(lent, port), RSP_PROD);
                let next = before.wrapping_add(count as u32);
                write_u32(ring_mut(rings, port), RSP_PROD, next);
            }
            Flaw::NoRound => {
                let (slots, bytes) = (known.ring.slots(), known.ring.abi.response_bytes());
                let beyond = (0..count as u32).filter(|at| old % slots + at >= slots);
                for index in beyond.map(|at| old.wrapping_add(at)) {
                    let at = known.ring.slot_at(index);
                    let before = &ring(lent, port)[at..at + bytes];
                    ring_mut(rings, port)[at..at + bytes].copy_from_slice(before);
                }
            }
            _ => {}
        }
    }

    /// So many responses more.
    fn answered(&mut self, port: u64, responses: u64) {
        if let Some(Some(known)) = self.ports.get_mut(port as usize) {
            known.answered = known.answered.wrapping_add(responses as u32);
        }
    }
}

impl Core for Flawed {
    fn open(&mut self, port: u32, sheet: &[u8]) -> u32 {
        let code = Core::open(&mut self.backend, port, sheet);
        if code == 0 {
            self.ports[port as usize] = Some(Port {
                ring: Ring::of_sheet(sheet),
                ..Port::default()
            });
        }
        code
    }

    fn close(&mut self, port: u32) -> u32 {
        let code = Core::close(&mut self.backend, port);
        if code == 0 {
            self.ports[port as usize] = None;
        }
        code
    }

    fn turn(&mut self, rings: &mut [u8], grants: &[u8], answer: &mut TurnWords) -> u32 {
        let code = Core::turn(&mut self.backend, rings, grants, answer);
        if code == 0 {
            let port = answer[turn::PORT];
            match answer[turn::KIND] {
                kind::ANSWERED => self.answered(port, 1),
                kind::OVERRUN => {
                    if let Some(Some(known)) = self.ports.get_mut(port as usize) {
                        known.broken = true;
                    }
                }
                _ => {}
            }
        }
        code
    }

    fn complete(&mut self, rings: &mut [u8], named: Completion, answer: &mut DoneWords) -> u32 {
        let code = Core::complete(&mut self.backend, rings, named, answer);
        if code == 0 {
            self.answered(answer[done::PORT], 1);
        }
        code
    }

    fn complete_many(&mut self, rings: &mut [u8], list: List, answer: &mut ManyWords) -> u32 {
        let List { port, entries } = list;
        if let Some(refusal) = self.hasty_refusal(rings, port, entries) {
            return refusal;
        }
        let lent = rings.to_vec();
        let misread = self.reordered(&self.misread(entries));
        let list = List {
            port,
            entries: &misread,
        };
        let mut code = Core::complete_many(&mut self.backend, rings, list, answer);
        match (self.flaw, code) {
            (Flaw::Partly, NOT_BUSY) => self.one_by_one(rings, port, &misread),
            (Flaw::TooManyLate, TOO_MANY) => code = NOT_BUSY,
            (Flaw::WordsLate, WRONG_LENGTH) if rings.len() == RINGS_BYTES => {
                // What an empty list is refused with is about the port.
                let (mut backend, mut empty) = (self.backend.clone(), *answer);
                let entries = &[];
                let none = List { port, entries };
                let of_port = Core::complete_many(&mut backend, rings, none, &mut empty);
                code = if of_port == 0 { code } else { of_port };
            }
            (Flaw::EmptyAnywhere, IS_CLOSED) if entries.is_empty() => {
                *answer = [0; MANY_WORDS];
                answer[many::PORT] = u64::from(port);
                code = 0;
            }
            (_, NOT_BUSY) => {
                if let Some(entries) = &self.named_once(&misread) {
                    let once = List { port, entries };
                    code = Core::complete_many(&mut self.backend, rings, once, answer);
                }
            }
            _ => {}
        }
        if code != 0 {
            if self.flaw == Flaw::AnswerTouched {
                answer[many::COUNT] = (entries.len() / entry::WORDS) as u64;
            }
            return code;
        }
        if let Some(known) = self.port(port) {
            let port = (port as usize, known);
            self.spoil(&lent, rings, port, &misread, answer);
        }
        self.answered(u64::from(port), answer[many::COUNT]);
        code
    }

    fn meter_turn(&self, meter: &mut Meter, returned: u32, answer: &TurnWords) {
        self.backend.meter_turn(meter, returned, answer);
    }

    fn meter_completion(&self, meter: &mut Meter, returned: u32, answer: &DoneWords) {
        self.backend.meter_completion(meter, returned, answer);
    }

    fn meter_many(&self, meter: &mut Meter, returned: u32, answer: &ManyWords) {
        let (mut returned, mut words, before) = (returned, *answer, *meter);
        let count = &mut words[many::COUNT];
        match self.flaw {
            Flaw::MeterOne => *count = (*count).min(1),
            Flaw::MeterAll => *count = ENTRIES as u64,
            Flaw::MeterNone if *count > ENTRIES as u64 => *count = 0,
            Flaw::MeterCut => *count = u64::from(*count as u32),
            Flaw::MeterRefused => returned = 0,
            Flaw::MeterTaken if returned == 0 => {
                meter.taken = meter.taken.saturating_add((*count).min(ENTRIES as u64));
            }
            _ => {}
        }
        self.backend.meter_many(meter, returned, &words);
        if self.flaw == Flaw::MeterWhole {
            let (mut whole, zeros) = (Meter::default(), Meter::default());
            self.backend.meter_many(&mut whole, returned, &words);
            if whole != zeros && before.okay.checked_add(whole.okay).is_none() {
                meter.okay = before.okay;
            }
        }
    }

    fn skip(&mut self, port: usize, requests: u32) {
        self.backend.skip(port, requests);
        if let Some(known) = &mut self.ports[port] {
            known.answered = requests;
        }
    }
}

#[test]
fn flawed_lists_are_found() {
    let flaws = AGAINST_DEMAND_3.into_iter().chain(AGAINST_THE_RULES);
    find_beside(flaws, Flawed::new, SEED, CALLS);
}

#[test]
fn flawed_lists_are_found_without_a_second_program() {
    find_alone(AGAINST_DEMAND_3, Flawed::new, SEED, CALLS);
}

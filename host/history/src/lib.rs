//! Demand 3, checked from the history alone: section 12 of docs/RULES.md; and with it what the records
//! of counters have to say (rule 15.6).
//!
//! [`History`] keeps books from events only, calls with what they were lent, left and answered
//! ([`Event`]); no field of a backend is looked at. It shares no code with the second program, nor with
//! the wrapper: what is asked of a call is written here once more, from the rules. C and R are
//! req_cons and rsp_prod_pvt (rule 12.27). [`HalvesHistory`] does the same for a guest and a backend
//! that share a page.

mod books;
mod counts;
mod event;
mod halves;
mod list;
mod places;
mod refusal;
mod sheet;
mod wait;

pub use counts::Record;
pub use event::Event;
pub use halves::{HalvesEvent, HalvesHistory};

use books::Books;
use counts::Counts;
use list::{check_told, names, Name};
use places::{
    kind, many, share, turn, u32_at, DONE_PORT, ENTRIES, GRANTS_BYTES, PORTS, REQ_EVENT, REQ_PROD,
    RINGS_BYTES, SHARE_BYTES, TURN_WORDS,
};
use refusal::{IN_FLIGHT, IS_CLOSED, NONE, NOT_BUSY, NOT_CLOSED, NO_PORT, TOO_MANY, WRONG_LENGTH};
use wait::Wait;

/// A port as the history shows it.
#[derive(Clone, Copy, Debug, Default, PartialEq, Eq)]
pub enum State {
    /// Not opened, or closed since.
    #[default]
    Closed,
    /// Opened, and neither closed nor overrun since.
    Open,
    /// Overrun, and not closed since.
    Broken,
}

/// One port of the history.
#[derive(Debug, Default)]
struct Port {
    state: State,
    books: Books,
    /// Not dropped at an opening: turns are in a row whatever other calls stand between them.
    wait: Wait,
    /// Nor is this: the count goes on until the host zeroes the record (rule 15.7).
    counts: Counts,
}

impl Port {
    /// Rule 12.17: whether it has something to serve at a turn that is lent this share.
    fn has_something(&self, share: &[u8]) -> bool {
        self.state == State::Open && u32_at(share, REQ_PROD) != self.books.taken_index()
    }

    /// Rule 4.12, read with rule 12.27: whether req_prod is ahead by more than the ring has room for.
    fn is_overrun(&self, share: &[u8]) -> bool {
        let ahead = u32_at(share, REQ_PROD).wrapping_sub(self.books.taken_index());
        let slots = u64::from(self.books.ring.slots);
        u64::from(ahead) + u64::from(self.books.count_unfinished()) > slots
    }

    /// Rule 12.13.
    fn answered_at_once(&mut self, lent: &[u8], left: &[u8]) {
        self.books.take(lent);
        self.counts.take();
        self.answer(left);
    }

    /// A response, as the share left has it. Gives its status.
    fn answer(&mut self, left: &[u8]) -> u16 {
        let status = self.books.answer(left);
        self.counts.answer(status);
        status
    }

    /// Rule 12.14: the response is the newest such request's. Serials repeat only after 2^32 requests and a
    /// busy tag is not named again, so an unfinished request of that tag and serial is the newest
    /// one; any other would be answered twice, and was due to be refused with 6.
    fn complete(&mut self, left: &[u8], (tag, _): Name) -> Result<u16, String> {
        self.books.finish(tag as usize);
        let status = self.answer(left);
        self.books.check()?;
        Ok(status)
    }
}

/// The history so far, and the checks over it. Once a check has failed, the books mean nothing
/// more.
#[derive(Debug, Default)]
pub struct History {
    ports: [Port; PORTS],
    longest_wait: u32,
}

impl History {
    /// The empty history.
    pub fn new() -> History {
        History::default()
    }

    /// How a port stands.
    pub fn state(&self, port: usize) -> State {
        self.ports[port].state
    }

    /// Requests taken since the opening, those passed over too.
    pub fn taken(&self, port: usize) -> u64 {
        self.ports[port].books.taken
    }

    /// Requests unfinished.
    pub fn unfinished(&self, port: usize) -> u32 {
        self.ports[port].books.count_unfinished()
    }

    /// Whether a tag's request is unfinished.
    pub fn is_tag_busy(&self, port: usize, tag: u32) -> bool {
        self.ports[port].books.is_tag_busy(tag)
    }

    /// Whether an unfinished request has this tag and this serial.
    pub fn is_busy(&self, port: usize, tag: u64, serial: u64) -> bool {
        self.ports[port].books.are_busy(&[(tag, serial)])
    }

    /// The most turns in a row that a port with something to serve was passed over.
    pub fn longest_wait(&self) -> u32 {
        self.longest_wait
    }

    /// Adds a call to the history and checks demand 3 over the whole of it.
    pub fn check(&mut self, event: &Event) -> Result<(), String> {
        let (code, due) = (event.code(), self.refusal_due(event));
        if code != due {
            return Err(format!("the call gave {code}, due was {due}"));
        }
        match *event {
            Event::Open { port, sheet, .. } if code == NONE => self.opened(port as usize, sheet),
            Event::Close { port, .. } if code == NONE => self.closed(port as usize),
            Event::Turn {
                lent, left, answer, ..
            } if code == NONE => self.turned(lent, left, answer),
            Event::Complete {
                lent,
                left,
                port,
                tag,
                serial,
                answer,
                ..
            } if code == NONE => {
                let name = (tag.into(), serial.into());
                let completed = self.completed(lent, left, port, answer[DONE_PORT], &[name]);
                completed.map(drop)
            }
            Event::CompleteMany {
                lent,
                left,
                port,
                entries,
                answer,
                ..
            } if code == NONE => {
                let names = names(entries).unwrap_or_default();
                let named = answer[many::PORT];
                let statuses = self.completed(lent, left, port, named, &names)?;
                check_told(&statuses, answer).map_err(|fault| format!("port {port}: {fault}"))
            }
            Event::Zeroed { port } => self.zeroed(port),
            Event::Skipped { port, requests } => self.skipped(port, requests),
            Event::Open { .. } | Event::Close { .. } => Ok(()),
            Event::Turn { lent, left, .. }
            | Event::Complete { lent, left, .. }
            | Event::CompleteMany { lent, left, .. } => unchanged(lent, left, "a refused call"),
        }
    }

    /// The refusal that section 7 gives, or 0, with everything counted from the history.
    pub fn refusal_due(&self, event: &Event) -> u32 {
        match *event {
            Event::Open { port, sheet, .. } => match self.ports.get(port as usize) {
                None => NO_PORT,
                Some(known) if known.state != State::Closed => NOT_CLOSED,
                Some(_) => sheet::refusal_due(sheet),
            },
            Event::Close { port, .. } => match self.ports.get(port as usize) {
                None => NO_PORT,
                Some(known) if known.state == State::Closed => IS_CLOSED,
                Some(known) if known.books.count_unfinished() > 0 => IN_FLIGHT,
                Some(_) => NONE,
            },
            Event::Turn { lent, grants, .. } => match (lent.len(), grants.len()) {
                (RINGS_BYTES, GRANTS_BYTES) => NONE,
                _ => WRONG_LENGTH,
            },
            Event::Complete {
                lent,
                port,
                tag,
                serial,
                ..
            } => self.completion_refusal(lent, port, Some(vec![(tag.into(), serial.into())])),
            Event::CompleteMany {
                lent,
                port,
                entries,
                ..
            } => self.completion_refusal(lent, port, names(entries)),
            Event::Zeroed { .. } | Event::Skipped { .. } => NONE,
        }
    }

    /// The refusal of a completion, or of a list of them, by what it names.
    fn completion_refusal(&self, lent: &[u8], port: u32, names: Option<Vec<Name>>) -> u32 {
        let Some(names) = names else {
            return WRONG_LENGTH;
        };
        match self.ports.get(port as usize) {
            _ if lent.len() != RINGS_BYTES => WRONG_LENGTH,
            None => NO_PORT,
            Some(known) if known.state == State::Closed => IS_CLOSED,
            Some(_) if names.len() > ENTRIES => TOO_MANY,
            Some(known) if !known.books.are_busy(&names) => NOT_BUSY,
            Some(_) => NONE,
        }
    }

    /// Checks the eight ports' records as they stand now, each number against the history. It is owed
    /// where each answer was handed over once, to its port's record and before the next entry.
    pub fn check_records(&self, records: &[Record; PORTS]) -> Result<(), String> {
        for (number, (port, record)) in self.ports.iter().zip(records).enumerate() {
            let checked = port.counts.check(record);
            checked.map_err(|fault| format!("record of port {number}: {fault}"))?;
        }
        Ok(())
    }

    /// An opening begins new books, of the ring that its sheet asks for.
    fn opened(&mut self, port: usize, sheet: &[u8]) -> Result<(), String> {
        self.ports[port].state = State::Open;
        self.ports[port].books = Books::new(sheet::ring(sheet));
        Ok(())
    }

    /// Only before anything else was taken: then nothing that is claimed later speaks of it.
    fn skipped(&mut self, number: usize, requests: u32) -> Result<(), String> {
        match self.ports.get_mut(number) {
            Some(port) if port.state == State::Open && port.books.taken == 0 => {
                port.books.skip(requests);
                Ok(())
            }
            _ => Err(format!("port {number} was not just opened")),
        }
    }

    fn closed(&mut self, port: usize) -> Result<(), String> {
        self.ports[port].state = State::Closed;
        Ok(())
    }

    /// The count of a port begins anew.
    fn zeroed(&mut self, port: usize) -> Result<(), String> {
        let Some(port) = self.ports.get_mut(port) else {
            return Err(format!("there is no record of port {port}"));
        };
        port.counts = Counts::default();
        Ok(())
    }

    fn turned(
        &mut self,
        lent: &[u8],
        left: &[u8],
        answer: &[u64; TURN_WORDS],
    ) -> Result<(), String> {
        same_length(lent, left)?;
        self.check_behind_rings(lent, left)?;
        let something: [bool; PORTS] =
            std::array::from_fn(|port| self.ports[port].has_something(share(lent, port)));
        let served = match answer[turn::KIND] {
            kind::IDLE => None,
            kind::STARTED..=kind::OVERRUN => Some(port_number(answer[turn::PORT])?),
            kind => return Err(format!("a turn's answer of kind {kind}")),
        };
        match served {
            None => self.idled(lent, left, &something)?,
            Some(port) if !something[port] => {
                return Err(format!("port {port} is served with nothing to serve"))
            }
            Some(port) => self.served(port, lent, left, answer)?,
        }
        self.wait_on(&something, served)
    }

    /// Fairness, over the turns so far.
    fn wait_on(&mut self, something: &[bool; PORTS], served: Option<usize>) -> Result<(), String> {
        for (number, port) in self.ports.iter_mut().enumerate() {
            if something[number] && served != Some(number) {
                port.wait
                    .another_turn(served)
                    .map_err(|fault| format!("port {number}: {fault}"))?;
                self.longest_wait = self.longest_wait.max(port.wait.turns);
            } else {
                port.wait = Wait::default();
            }
        }
        Ok(())
    }

    /// Idle exactly when no port has something to serve, with the one change of rules 5.8 and 5.9.
    fn idled(&self, lent: &[u8], left: &[u8], something: &[bool; PORTS]) -> Result<(), String> {
        if let Some(port) = something.iter().position(|&has| has) {
            return Err(format!("idle, but port {port} has something to serve"));
        }
        for (number, port) in self.ports.iter().enumerate() {
            let (lent, left) = (share(lent, number), share(left, number));
            let event = match port.state {
                State::Open => port.books.taken_index().wrapping_add(1),
                State::Closed | State::Broken => u32_at(lent, REQ_EVENT),
            };
            let behind = REQ_EVENT + 4;
            let what = "an idle turn, req_event aside,";
            unchanged(&lent[..REQ_EVENT], &left[..REQ_EVENT], what)?;
            unchanged(&event.to_le_bytes(), &left[REQ_EVENT..behind], what)?;
            unchanged(&lent[behind..], &left[behind..], what)?;
        }
        Ok(())
    }

    /// Rules 12.10 and 12.11: whom a turn serves, and what it takes.
    fn served(
        &mut self,
        number: usize,
        lent: &[u8],
        left: &[u8],
        answer: &[u64; TURN_WORDS],
    ) -> Result<(), String> {
        let port = &mut self.ports[number];
        let overrun_due = port.is_overrun(share(lent, number));
        if overrun_due != (answer[turn::KIND] == kind::OVERRUN) {
            return Err(format!(
                "port {number}: an overrun was {}due, the answer's kind is {}",
                if overrun_due { "" } else { "not " },
                answer[turn::KIND]
            ));
        }
        match answer[turn::KIND] {
            kind::STARTED => {
                started(&mut port.books, share(lent, number), answer)?;
                port.counts.take();
            }
            kind::ANSWERED => port.answered_at_once(share(lent, number), share(left, number)),
            _ => {
                port.state = State::Broken;
                unchanged(lent, left, "an overrun")?;
            }
        }
        port.books
            .check()
            .map_err(|fault| format!("port {number}: {fault}"))
    }

    /// What is behind the ring in the share of a port that is open or broken stays (rule 1.20).
    fn check_behind_rings(&self, lent: &[u8], left: &[u8]) -> Result<(), String> {
        for (number, port) in self.ports.iter().enumerate() {
            if port.state != State::Closed {
                let behind = port.books.ring.bytes()..SHARE_BYTES;
                let (lent, left) = (share(lent, number), share(left, number));
                unchanged(&lent[behind.clone()], &left[behind], "a call behind a ring")?;
            }
        }
        Ok(())
    }

    /// Each name is a completion of its own, in the order of the list; none leaves the rings alone. The
    /// answer names a port. Gives the statuses that the responses have.
    fn completed(
        &mut self,
        lent: &[u8],
        left: &[u8],
        port: u32,
        named: u64,
        names: &[Name],
    ) -> Result<Vec<u16>, String> {
        same_length(lent, left)?;
        self.check_behind_rings(lent, left)?;
        if names.is_empty() {
            unchanged(lent, left, "an empty list")?;
        }
        if named != u64::from(port) {
            return Err(format!("the completion of port {port} names {named}"));
        }
        let (known, left) = (&mut self.ports[port as usize], share(left, port as usize));
        let statuses = names.iter().map(|&name| known.complete(left, name));
        let statuses: Result<Vec<u16>, String> = statuses.collect();
        statuses.map_err(|fault| format!("port {port}: {fault}"))
    }
}

/// Rule 12.26, of a start: the lowest free tag, and C as it was before.
fn started(books: &mut Books, share: &[u8], answer: &[u64; TURN_WORDS]) -> Result<(), String> {
    let serial = books.taken_index();
    let Some(tag) = books.lowest_free_tag() else {
        return Err("a start with no tag free".into());
    };
    let named = (answer[turn::TAG], answer[turn::SERIAL]);
    if named != (tag as u64, u64::from(serial)) {
        return Err(format!(
            "a start names tag {} and serial {}, due were {tag} and {serial}",
            named.0, named.1
        ));
    }
    let pair = books.take(share);
    books.begin(tag, serial, pair);
    Ok(())
}

fn port_number(word: u64) -> Result<usize, String> {
    match usize::try_from(word) {
        Ok(port) if port < PORTS => Ok(port),
        _ => Err(format!("a turn's answer names port {word}")),
    }
}

fn same_length(lent: &[u8], left: &[u8]) -> Result<(), String> {
    if lent.len() == left.len() {
        Ok(())
    } else {
        Err("the rings left have another length".into())
    }
}

fn unchanged(lent: &[u8], left: &[u8], what: &str) -> Result<(), String> {
    if lent == left {
        Ok(())
    } else {
        Err(format!("{what} changed bytes of the rings"))
    }
}

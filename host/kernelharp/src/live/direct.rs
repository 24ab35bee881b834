//! A backend whose calls are lent the guests' live pages.

use super::counters::{Books, Counters};
use super::looks::{notifies, turn_by};
use crate::answers::{Done, DoneMany, Responses, Turn};
use crate::ffi::{ArchiveMismatch, Entry, Meter, Row};
use crate::layout::{PORTS, PORT_GRANTS, RSP_EVENT};
use crate::lender::Lender;
use crate::names::{Name, Port};
use crate::terms::Refusal;

/// A backend over the guests' own pages in a [`Row`]: nothing is copied. What it answers about
/// notifying holds for them.
///
/// Before a port is opened its guest's pages are mapped in its share of the row, and they stay there
/// until it is closed. How many they are, and the layout, is as the sheet says.
///
/// ```
/// use kernelharp::live::{DirectBackend, LiveGuest, Mapping, Row, PAGE_WORDS, ROW_WORDS};
/// use kernelharp::{Port, Request, Sheet, Turn};
/// use std::sync::atomic::AtomicU32;
///
/// // Memory of this program stands for the guests' pages: port 0's is the first of them.
/// static ROW: [AtomicU32; ROW_WORDS] = [const { AtomicU32::new(0) }; ROW_WORDS];
/// let page: &[AtomicU32; PAGE_WORDS] = ROW[..PAGE_WORDS].try_into()?;
/// let mut guest = LiveGuest::new(Mapping::of_atomics(page))?;
///
/// let mut backend = DirectBackend::new(Row::of_atomics(&ROW))?;
/// let port = Port::try_from(0)?;
/// let disk = Sheet { flush: true, sector_size: 512, sectors: 2008, ..Sheet::default() };
/// backend.open(port, &disk.bytes())?;
/// assert_eq!(backend.turn(), Turn::Idle); // safe to sleep on
///
/// let notify = guest.put(&Request::Flush { id: 7 })?;
/// assert!(notify, "the idle turn has asked for it");
/// let Turn::Started(plan) = backend.turn() else { panic!("a flush starts") };
/// let done = backend.complete(plan.name, plan.expected_result())?;
/// assert_eq!(done.to_string(), "completed port 0: status 0 (okay)");
/// assert!(guest.collect()?.is_some_and(|response| response.is_okay()));
/// # Ok::<(), Box<dyn std::error::Error>>(())
/// ```
#[derive(Debug)]
pub struct DirectBackend {
    lender: Lender<Row>,
    /// Responses given since each port's opening (rule 4.2): rsp_prod in the page is not to be
    /// trusted, for the guest can write it.
    rsp_prod_pvt: [u32; PORTS],
    books: Books,
}

impl DirectBackend {
    /// Eight closed ports. The row is not touched.
    pub fn new(row: Row) -> Result<DirectBackend, ArchiveMismatch> {
        Ok(DirectBackend {
            lender: Lender::new(row)?,
            rsp_prod_pvt: [0; PORTS],
            books: Books::new(),
        })
    }

    /// A port's grants, as [`crate::Backend::grants_mut`] has them.
    pub fn grants_mut(&mut self, port: Port) -> &mut [u8; PORT_GRANTS] {
        self.lender.grants_mut(port)
    }

    /// A port's meter as it is now, as [`crate::Backend::meter`] has it.
    pub fn meter(&self, port: Port) -> Meter {
        self.lender.meter(port)
    }

    /// Reads a port's meter and zeroes it, as [`crate::Backend::take_meter`] has it.
    #[must_use = "what the meter counted is nowhere else"]
    pub fn take_meter(&mut self, port: Port) -> Meter {
        self.lender.take_meter(port)
    }

    /// What a port has done since this backend was new.
    pub fn counters(&self, port: Port) -> Counters {
        self.books.of(port)
    }

    /// The counters as a table: a line of heads, then one for each port that was ever opened.
    pub fn counters_text(&self) -> String {
        self.books.text()
    }

    /// Opens a closed port over the pages in its share, which aren't touched: a ring that its guest has
    /// just set up, all indices 0.
    pub fn open(&mut self, port: Port, sheet: &[u8]) -> Result<(), Refusal> {
        self.lender.open(port, sheet)?;
        self.rsp_prod_pvt[port.index()] = 0;
        self.books.opened(port);
        Ok(())
    }

    /// Closes a port with nothing in flight. Its guest's pages may then be unmapped, with pages of the
    /// host's own put in their place.
    pub fn close(&mut self, port: Port) -> Result<(), Refusal> {
        self.lender.close(port)?;
        self.books.closed(port);
        Ok(())
    }

    /// Takes a turn. Idle is answered only after the second look: a host may then sleep until it is
    /// notified, and no request is left waiting.
    pub fn turn(&mut self) -> Turn {
        let turn = turn_by(|| self.look());
        self.books.turned(&turn);
        turn
    }

    /// Answers a started request, as [`crate::Backend::complete`] has it.
    pub fn complete(&mut self, name: Name, result: i32) -> Result<Done, Refusal> {
        let done = self.lender.complete(name, result);
        self.completed(name.port, done)
    }

    /// Answers many started requests of a port, as [`crate::Backend::complete_many`] has it, with one
    /// second look at rsp_event for all of them.
    pub fn complete_many(&mut self, port: Port, entries: &[Entry]) -> Result<DoneMany, Refusal> {
        let done = self.lender.complete_many(port, entries);
        self.completed(port, done)
    }

    /// After a completion or a list.
    fn completed<D: Responses>(
        &mut self,
        port: Port,
        mut done: Result<D, Refusal>,
    ) -> Result<D, Refusal> {
        if let Ok(done) = &mut done {
            let responses = done.statuses().len() as u32;
            done.set_notify(self.gave(responses, port, done.notify()));
        }
        self.books.completed(port, &done);
        done
    }

    /// One turn.
    fn look(&mut self) -> Turn {
        let mut turn = self.lender.turn();
        if let Turn::Answered { port, notify, .. } = &mut turn {
            *notify = self.gave(1, *port, *notify);
        }
        turn
    }

    /// After a call that gave so many responses of a port: whether the guest is to be notified.
    fn gave(&mut self, responses: u32, port: Port, call_said: bool) -> bool {
        if responses == 0 {
            return call_said;
        }
        let rsp_prod_pvt = &mut self.rsp_prod_pvt[port.index()];
        let old = *rsp_prod_pvt;
        *rsp_prod_pvt = old.wrapping_add(responses);
        let page = self.lender.rings.first_page(port);
        notifies(&page, RSP_EVENT, (old, *rsp_prod_pvt), call_said)
    }
}

#[cfg(test)]
mod tests {
    use super::super::looks::tests::meanwhile;
    use super::*;
    use crate::ffi::ROW_WORDS;
    use crate::layout::{REQ_EVENT, REQ_PROD, RING_BYTES, RSP_PROD};
    use crate::sheet::Sheet;
    use std::sync::atomic::{AtomicU32, Ordering};

    const FLUSH: u32 = 3;
    const UNKNOWN: u32 = 9;

    /// A port of a guest with 64-bit records and one page, in a row of its own.
    struct Opened {
        backend: DirectBackend,
        row: &'static [AtomicU32; ROW_WORDS],
        port: Port,
    }

    impl Opened {
        fn new(number: u32) -> Opened {
            let row = Box::leak(Box::new([const { AtomicU32::new(0) }; ROW_WORDS]));
            let mut opened = Opened {
                backend: DirectBackend::new(Row::of_atomics(row)).unwrap(),
                row,
                port: Port::try_from(number).unwrap(),
            };
            opened.open();
            opened
        }

        fn open(&mut self) {
            let sheet = Sheet {
                flush: true,
                sector_size: 512,
                sectors: 2008,
                ..Sheet::default()
            };
            self.backend.open(self.port, &sheet.bytes()).unwrap();
        }

        fn word(&self, at: usize) -> &'static AtomicU32 {
            &self.row[(RING_BYTES * self.port.index() + at) / 4]
        }

        fn set(&self, at: usize, value: u32) {
            self.word(at).store(value.to_le(), Ordering::Relaxed);
        }

        fn get(&self, at: usize) -> u32 {
            u32::from_le(self.word(at).load(Ordering::Relaxed))
        }

        /// Publishes a request of no segments.
        fn post(&self, index: u32, operation: u32) {
            self.set(64 + 112 * (index as usize % 32), operation);
            self.set(REQ_PROD, index + 1);
        }

        fn start(&mut self, index: u32) -> Name {
            self.post(index, FLUSH);
            match self.backend.turn() {
                Turn::Started(plan) => plan.name,
                other => panic!("nothing was started: {other}"),
            }
        }
    }

    /// The guest publishes after the first look.
    #[test]
    fn req_prod_is_looked_at_again() {
        let mut it = Opened::new(5);
        let req_prod = it.word(REQ_PROD);
        it.set(64, FLUSH);
        meanwhile(|| req_prod.store(1u32.to_le(), Ordering::Relaxed));
        assert!(matches!(it.backend.turn(), Turn::Started(_)));
    }

    /// The guest asks for an event after the call's look.
    #[test]
    fn a_wish_after_the_call_is_heard() {
        let mut it = Opened::new(4);
        let rsp_event = it.word(RSP_EVENT);
        let ask = |index: u32| move || rsp_event.store(index.to_le(), Ordering::Relaxed);
        let (port, names) = (it.port, [it.start(0), it.start(1), it.start(2)]);
        meanwhile(ask(1));
        assert!(it.backend.complete(names[0], 0).unwrap().notify);
        let entries = [names[1], names[2]].map(|name| Entry::of(name, 0));
        meanwhile(ask(2));
        assert!(it.backend.complete_many(port, &entries).unwrap().notify);
        it.post(3, UNKNOWN);
        meanwhile(ask(4));
        let Turn::Answered { notify, .. } = it.backend.turn() else {
            panic!("an unknown operation is answered");
        };
        assert!(notify);
        assert_eq!(it.backend.counters(port).notifies, 3);
    }

    #[test]
    fn a_wish_is_heard_where_the_index_has_come_to_it() {
        let mut it = Opened::new(6);
        for (responses, rsp_event, due) in [
            (1, 1, true),
            (1, 1, false),
            (1, 4, false),
            (3, 4, true),
            (3, 9, true),
            (3, 9, false),
            (0, 12, false),
        ] {
            it.set(RSP_EVENT, rsp_event);
            let port = it.port;
            assert_eq!(it.backend.gave(responses, port, false), due, "{rsp_event}");
        }
        let port = it.port;
        assert!(it.backend.gave(1, port, true));
        it.backend.rsp_prod_pvt[6] = u32::MAX;
        it.set(RSP_EVENT, 0);
        assert!(it.backend.gave(1, port, false));
    }

    /// Whatever the guest writes to the words that are the host's.
    #[test]
    fn own_words_are_not_taken_from_the_page() {
        let mut it = Opened::new(7);
        for index in 0..70 {
            it.set(RSP_PROD, 0xDEAD);
            it.set(RSP_EVENT, index + 1);
            let notify = if index % 2 == 0 {
                it.post(index, UNKNOWN);
                match it.backend.turn() {
                    Turn::Answered { notify, .. } => notify,
                    other => panic!("nothing was answered: {other}"),
                }
            } else {
                let name = it.start(index);
                it.backend.complete(name, 0).unwrap().notify
            };
            assert!(notify, "{index}");
            assert_eq!(it.get(RSP_PROD), index + 1);
        }
        it.set(REQ_EVENT, 0xBEEF);
        assert_eq!(it.backend.turn(), Turn::Idle);
        assert_eq!(it.get(REQ_EVENT), 71);
    }

    #[test]
    fn responses_count_from_0_at_each_opening() {
        let mut it = Opened::new(0);
        for opening in 1..=3 {
            let names = [it.start(0), it.start(1)].map(|name| Entry::of(name, 0));
            let done = it.backend.complete_many(it.port, &names).unwrap();
            assert_eq!(done.statuses().len(), 2);
            assert_eq!(it.backend.rsp_prod_pvt[0], 2);
            it.backend.close(it.port).unwrap();
            let counters = it.backend.counters(it.port);
            assert_eq!((counters.opens, counters.okay), (opening, 2 * opening));
            it.set(REQ_PROD, 0);
            it.open();
        }
    }

    #[test]
    fn a_closed_port_is_refused() {
        let mut it = Opened::new(3);
        let name = it.start(0);
        assert_eq!(it.backend.close(it.port), Err(Refusal::InFlight));
        it.backend.complete(name, 0).map(drop).unwrap();
        it.backend.close(it.port).unwrap();
        assert_eq!(it.backend.complete(name, 0), Err(Refusal::IsClosed));
        let port = it.port;
        assert_eq!(it.backend.complete_many(port, &[]), Err(Refusal::IsClosed));
        assert_eq!(it.backend.counters(port).completions_refused, 2);
    }
}

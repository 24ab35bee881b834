//! The wrapper that most hosts want: a backend with its private buffers, and typed answers.

use crate::answers::{Done, DoneMany, Turn};
use crate::ffi::{ArchiveMismatch, Entry, Meter};
use crate::layout::{ring, ring_mut, PAGE_BYTES, PORT_GRANTS, RINGS_BYTES, RING_BYTES};
use crate::lender::{zeros, Lender};
use crate::names::{Name, Port};
use crate::terms::Refusal;

/// A backend that owns what its calls are lent: memory, rings, grants and the ports' meters.
///
/// Its rings are private. Where a guest writes its own ring at the same time,
/// [`crate::live::LiveBackend`] copies between the two, and [`crate::live::DirectBackend`] is lent the
/// guest's.
///
/// Each turn and each completion is handed to the meter of its port before it is answered, once, so
/// a meter counts what its port did since the backend was new or the meter was last taken.
///
/// Two backends are equal where all that they own is, meters too. A clone has the meters as they are
/// and goes on from there: whoever sums up both counts what came before twice.
///
/// ```
/// use kernelharp::{Backend, Port, Turn};
///
/// let mut backend = Backend::new()?;
/// let port = Port::try_from(0)?;
/// backend.open(port, b"\x03\x01\0\x01\0\x06\0\x03\0\x07\0\x04\0w5122008")?;
/// assert_eq!(backend.turn(), Turn::Idle);
/// backend.close(port)?;
/// let refusal = backend.close(port).unwrap_err();
/// assert_eq!(refusal.to_string(), "refusal 4: port closed");
/// # Ok::<(), Box<dyn std::error::Error>>(())
/// ```
#[derive(Clone, Debug, PartialEq, Eq)]
pub struct Backend {
    lender: Lender<Box<[u8; RINGS_BYTES]>>,
}

impl Backend {
    /// Eight closed ports; rings, grants and meters of zeros.
    pub fn new() -> Result<Backend, ArchiveMismatch> {
        let lender = Lender::new(zeros())?;
        Ok(Backend { lender })
    }

    /// A port's share of the rings, [`RING_BYTES`] long. The port's ring is at the begin of it, as long as
    /// its pages are ([`crate::Pages::bytes`]); no call reads or writes what is behind.
    pub fn ring(&self, port: Port) -> &[u8; RING_BYTES] {
        let ring = ring(&self.lender.rings[..], port.index());
        ring.try_into().expect("a part of that length")
    }

    /// The same, to be written.
    pub fn ring_mut(&mut self, port: Port) -> &mut [u8; RING_BYTES] {
        self.ring_and_grants_mut(port).0
    }

    /// The first page of a port's ring, to be written: the whole of a ring of one page, such as a
    /// [`crate::Guest`] has.
    pub fn page_mut(&mut self, port: Port) -> &mut [u8; PAGE_BYTES] {
        let page = &mut self.ring_mut(port)[..PAGE_BYTES];
        page.try_into().expect("a part of that length")
    }

    /// A port's grants, one byte to a frame: 1 the host may read the frame, 2 read and write,
    /// anything else neither.
    pub fn grants_mut(&mut self, port: Port) -> &mut [u8; PORT_GRANTS] {
        self.lender.grants_mut(port)
    }

    /// The same, to be read.
    pub(crate) fn grants(&self, port: Port) -> &[u8; PORT_GRANTS] {
        self.lender.grants(port)
    }

    /// A port's share of the rings and its grants, to be written together.
    pub(crate) fn ring_and_grants_mut(
        &mut self,
        port: Port,
    ) -> (&mut [u8; RING_BYTES], &mut [u8; PORT_GRANTS]) {
        let (rings, grants) = self.lender.rings_and_grants_mut(port);
        let ring = ring_mut(&mut rings[..], port.index());
        (ring.try_into().expect("a part of that length"), grants)
    }

    /// Eight closed ports and rings of zeros, as in a new one. Grants and meters stay.
    pub(crate) fn begin_anew(&mut self) {
        self.lender.empty_memory();
        self.lender.rings.fill(0);
    }

    /// A port's meter as it is now; it goes on counting. To be read whenever one likes: between two
    /// calls every answer is in it.
    pub fn meter(&self, port: Port) -> Meter {
        self.lender.meter(port)
    }

    /// Reads a port's meter and zeroes it in one step, at the end of a billing period, say. What a
    /// meter gave adds up: nothing is lost between two periods, and nothing is in both.
    ///
    /// Opening and closing leave meters alone. Where a port is billed by its guest, take the meter
    /// after the close: with nothing in flight, each request taken has its answer in it.
    ///
    /// ```
    /// use kernelharp::{Backend, Meter, Port, Turn};
    ///
    /// let mut backend = Backend::new()?;
    /// let port = Port::try_from(0)?;
    /// backend.open(port, b"\x03\x01\0\x01\0\x06\0\x03\0\x07\0\x04\0w5122008")?;
    /// let ring = backend.ring_mut(port);
    /// ring[64] = 9; // an operation that nobody knows
    /// ring[0] = 1; // req_prod
    /// assert!(matches!(backend.turn(), Turn::Answered { .. }));
    /// let bill = Meter { taken: 1, not_supported: 1, ..Meter::default() };
    /// assert_eq!(backend.meter(port), bill);
    /// assert_eq!(backend.take_meter(port), bill);
    /// assert_eq!(backend.meter(port), Meter::default());
    /// # Ok::<(), Box<dyn std::error::Error>>(())
    /// ```
    #[must_use = "what the meter counted is nowhere else"]
    pub fn take_meter(&mut self, port: Port) -> Meter {
        self.lender.take_meter(port)
    }

    /// Opens a closed port from a node sheet.
    pub fn open(&mut self, port: Port, sheet: &[u8]) -> Result<(), Refusal> {
        self.lender.open(port, sheet)
    }

    /// Closes a port with nothing in flight.
    pub fn close(&mut self, port: Port) -> Result<(), Refusal> {
        self.lender.close(port)
    }

    /// Serves the next port that has something to serve. It is never refused: the one refusal of a
    /// turn is about the lengths of buffers, and those are right here.
    pub fn turn(&mut self) -> Turn {
        self.lender.turn()
    }

    /// Answers a started request with the host's result: [`crate::Plan::expected_result`] when all
    /// went well, -95 for not supported, anything else for an error.
    pub fn complete(&mut self, name: Name, result: i32) -> Result<Done, Refusal> {
        self.lender.complete(name, result)
    }

    /// Answers many started requests of a port at once, as disk interrupts bring them: the responses
    /// stand in the order of the list, and the guest is notified once for all of them or not at all. A
    /// list has up to 64 entries, and may be empty, which does nothing.
    ///
    /// All are answered or none: a list is refused whole where [`Backend::complete`] would refuse one of its
    /// entries, or where a tag is in it twice ([`Refusal::NotBusy`]).
    ///
    /// ```
    /// use kernelharp::{Backend, Entry, Port, Status, Turn};
    ///
    /// let mut backend = Backend::new()?;
    /// let port = Port::try_from(0)?;
    /// backend.open(port, b"\x04\x01\0\x01\0\x03\0\x01\0\x06\0\x03\0\x07\0\x04\0w15122008")?;
    /// let ring = backend.ring_mut(port);
    /// (ring[64], ring[64 + 112]) = (3, 3); // two flushes
    /// ring[0] = 2; // req_prod
    /// let mut ended = Vec::new();
    /// while let Turn::Started(plan) = backend.turn() {
    ///     ended.push(Entry::of(plan.name, plan.expected_result()));
    /// }
    /// let done = backend.complete_many(port, &ended)?;
    /// assert_eq!(done.statuses(), [Status::Okay; 2]);
    /// # Ok::<(), Box<dyn std::error::Error>>(())
    /// ```
    pub fn complete_many(&mut self, port: Port, entries: &[Entry]) -> Result<DoneMany, Refusal> {
        self.lender.complete_many(port, entries)
    }
}

#[cfg(test)]
mod tests {
    use super::*;
    use crate::answers::Plan;
    use crate::layout::{write_u32, Abi, Pages, REQ_PROD, RSP_EVENT};
    use crate::names::Serial;
    use crate::sheet::Sheet;
    use crate::terms::Status;

    /// It fails a check where it has no segments.
    const READ: u8 = 0;
    const FLUSH: u8 = 3;
    const UNKNOWN: u8 = 9;
    const NOT_SUPPORTED: i32 = -95;
    const IO_ERROR: i32 = -5;

    fn port(number: u32) -> Port {
        Port::try_from(number).unwrap()
    }

    fn open(backend: &mut Backend, port: Port) {
        let sheet = Sheet {
            writable: true,
            flush: true,
            sector_size: 512,
            sectors: 2008,
            ..Sheet::default()
        };
        backend.open(port, &sheet.bytes()).unwrap();
        backend.ring_mut(port).fill(0);
    }

    /// Publishes a request of no segments, by its index since the opening.
    fn post(backend: &mut Backend, port: Port, index: u32, operation: u8) {
        let ring = backend.ring_mut(port);
        let slot = &mut ring[Abi::Bits64.slot_at(Pages::One, index)..][..Abi::Bits64.slot_bytes()];
        slot.fill(0);
        slot[0] = operation;
        write_u32(ring, REQ_PROD, index + 1);
    }

    /// Publishes a flush and starts it.
    fn started(backend: &mut Backend, port: Port, index: u32) -> Plan {
        post(backend, port, index, FLUSH);
        match backend.turn() {
            Turn::Started(plan) => plan,
            other => panic!("nothing was started: {other}"),
        }
    }

    /// Publishes a flush, starts it and completes it.
    fn flushed(backend: &mut Backend, port: Port, index: u32, result: i32) {
        let plan = started(backend, port, index);
        backend.complete(plan.name, result).map(drop).unwrap();
    }

    fn meters(backend: &Backend) -> Vec<Meter> {
        Port::all().map(|port| backend.meter(port)).collect()
    }

    #[track_caller]
    fn answered(backend: &mut Backend) -> Status {
        match backend.turn() {
            Turn::Answered { status, .. } => status,
            other => panic!("nothing was answered: {other}"),
        }
    }

    #[test]
    fn each_answer_raises_the_meter_of_its_port() {
        let (mut backend, served) = (Backend::new().unwrap(), port(5));
        open(&mut backend, served);
        post(&mut backend, served, 0, UNKNOWN);
        assert_eq!(answered(&mut backend), Status::NotSupported);
        assert_eq!(backend.meter(served), Meter::of([1, 0, 0, 1]));
        post(&mut backend, served, 1, READ);
        assert_eq!(answered(&mut backend), Status::Error);
        assert_eq!(backend.meter(served), Meter::of([2, 0, 1, 1]));
        let plan = started(&mut backend, served, 2);
        assert_eq!(backend.meter(served), Meter::of([3, 0, 1, 1]));
        let done = backend.complete(plan.name, plan.expected_result());
        assert_eq!(done.unwrap().status, Status::Okay);
        assert_eq!(backend.meter(served), Meter::of([3, 1, 1, 1]));
        flushed(&mut backend, served, 3, IO_ERROR);
        assert_eq!(backend.meter(served), Meter::of([4, 1, 2, 1]));
        flushed(&mut backend, served, 4, NOT_SUPPORTED);
        assert_eq!(backend.meter(served), Meter::of([5, 1, 2, 2]));
        for other in Port::all().filter(|&other| other != served) {
            assert_eq!(backend.meter(other), Meter::default(), "{other}");
        }
    }

    #[test]
    fn refusals_and_idle_turns_raise_nothing() {
        let (mut backend, served) = (Backend::new().unwrap(), port(0));
        open(&mut backend, served);
        flushed(&mut backend, served, 0, 0);
        let plan = started(&mut backend, served, 1);
        let before = meters(&backend);
        assert_eq!(backend.turn(), Turn::Idle);
        assert_eq!(backend.close(served), Err(Refusal::InFlight));
        let stale = Name {
            serial: Serial(0),
            ..plan.name
        };
        assert_eq!(backend.complete(stale, 0), Err(Refusal::NotBusy));
        let elsewhere = Name {
            port: port(1),
            ..plan.name
        };
        assert_eq!(backend.complete(elsewhere, 0), Err(Refusal::IsClosed));
        assert_eq!(meters(&backend), before);
    }

    /// The entries of requests with their results.
    fn entries(plans: &[Plan], results: &[i32]) -> Vec<Entry> {
        let ended = plans.iter().zip(results);
        ended
            .map(|(plan, &result)| Entry::of(plan.name, result))
            .collect()
    }

    /// Each entry counts, and of a refused list none does.
    #[test]
    fn a_list_raises_the_meter_by_its_entries() {
        let (mut backend, served) = (Backend::new().unwrap(), port(6));
        open(&mut backend, served);
        let plans: Vec<Plan> = (0..5)
            .map(|index| started(&mut backend, served, index))
            .collect();
        let list = entries(&plans, &[0, IO_ERROR, NOT_SUPPORTED, IO_ERROR]);
        let before = backend.clone();
        for (port, list, refusal) in [
            (port(5), vec![], Refusal::IsClosed),
            (port(5), list.repeat(17), Refusal::IsClosed),
            (served, list.repeat(17), Refusal::TooMany),
            (served, list.repeat(2), Refusal::NotBusy),
        ] {
            assert_eq!(backend.complete_many(port, &list), Err(refusal));
            assert_eq!(backend, before);
        }
        let done = backend.complete_many(served, &[]).unwrap();
        assert_eq!((done.statuses(), done.notify), (&[][..], false));
        assert_eq!(backend, before);
        let done = backend.complete_many(served, &list).unwrap();
        let statuses = [
            Status::Okay,
            Status::Error,
            Status::NotSupported,
            Status::Error,
        ];
        assert_eq!((done.port, done.statuses()), (served, &statuses[..]));
        assert_eq!(backend.meter(served), Meter::of([5, 1, 2, 1]));
        let again = backend.complete_many(served, &list[..1]);
        assert_eq!(again, Err(Refusal::NotBusy));
        assert_eq!(backend.meter(served), Meter::of([5, 1, 2, 1]));
    }

    /// The list of one is the completion, and a list its completions one by one, but for the notices.
    #[test]
    fn a_list_leaves_what_its_completions_leave() {
        let (mut backend, served) = (Backend::new().unwrap(), port(1));
        open(&mut backend, served);
        let plans: Vec<Plan> = (0..3)
            .map(|index| started(&mut backend, served, index))
            .collect();
        write_u32(backend.ring_mut(served), RSP_EVENT, 2);
        let (mut one, mut other) = (backend.clone(), backend.clone());
        let single = one.complete(plans[1].name, 0).unwrap();
        let listed = other.complete_many(served, &entries(&plans[1..2], &[0]));
        let listed = listed.unwrap();
        assert_eq!(listed.statuses(), [single.status]);
        assert_eq!((listed.port, listed.notify), (single.port, single.notify));
        assert_eq!(one, other);
        let (mut one_by_one, mut notices) = (backend.clone(), 0);
        for plan in &plans {
            notices += u32::from(one_by_one.complete(plan.name, 0).unwrap().notify);
        }
        let done = backend.complete_many(served, &entries(&plans, &[0; 3]));
        assert_eq!((done.unwrap().notify, notices), (true, 1));
        assert_eq!(backend, one_by_one);
    }

    #[test]
    fn a_broken_port_counts_its_completions_alone() {
        let (mut backend, broken) = (Backend::new().unwrap(), port(7));
        open(&mut backend, broken);
        let plan = started(&mut backend, broken, 0);
        post(&mut backend, broken, Pages::One.slots(), FLUSH);
        assert_eq!(backend.turn(), Turn::Overrun(broken));
        assert_eq!(backend.turn(), Turn::Idle);
        assert_eq!(backend.meter(broken), Meter::of([1, 0, 0, 0]));
        backend.complete(plan.name, IO_ERROR).map(drop).unwrap();
        assert_eq!(backend.meter(broken), Meter::of([1, 0, 1, 0]));
    }

    #[test]
    fn a_port_opened_anew_counts_on() {
        let (mut backend, port) = (Backend::new().unwrap(), port(3));
        for opening in 1..=3 {
            open(&mut backend, port);
            flushed(&mut backend, port, 0, 0);
            backend.close(port).unwrap();
            assert_eq!(backend.meter(port), Meter::of([opening, opening, 0, 0]));
        }
    }

    /// A request in flight at the end of a period is taken in one and answered in the next.
    #[test]
    fn meters_that_were_taken_add_up() {
        let (mut backend, [one, other]) = (Backend::new().unwrap(), [port(2), port(6)]);
        open(&mut backend, one);
        open(&mut backend, other);
        flushed(&mut backend, one, 0, 0);
        flushed(&mut backend, other, 0, 0);
        let plan = started(&mut backend, one, 1);
        assert_eq!(backend.take_meter(one), Meter::of([2, 1, 0, 0]));
        backend.complete(plan.name, 0).map(drop).unwrap();
        assert_eq!(backend.take_meter(one), Meter::of([0, 1, 0, 0]));
        assert_eq!(backend.take_meter(one), Meter::default());
        assert_eq!(backend.meter(other), Meter::of([1, 1, 0, 0]));
    }

    #[test]
    fn clones_have_the_meters_and_equal_ones_the_same() {
        let (mut backend, port) = (Backend::new().unwrap(), port(4));
        open(&mut backend, port);
        flushed(&mut backend, port, 0, 0);
        let mut clone = backend.clone();
        assert_eq!(clone, backend);
        assert_eq!(clone.take_meter(port), Meter::of([1, 1, 0, 0]));
        assert_ne!(clone, backend);
        assert_eq!(backend.meter(port), Meter::of([1, 1, 0, 0]));
    }
}

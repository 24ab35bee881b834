//! A backend over live rings.

use super::counters::{Books, Counters};
use super::looks::turn_by;
use super::references::{Grant, References};
use super::trace::{Call, Trace, Words};
use super::SharedRing;
use crate::answers::{Done, DoneMany, Responses, Turn};
use crate::backend::Backend;
use crate::ffi::{ArchiveMismatch, Entry, Meter};
use crate::layout::{Abi, Pages, PORTS, PORT_GRANTS};
use crate::names::{Name, Port};
use crate::terms::Refusal;
use std::fmt;

/// A [`Backend`] whose open ports have live rings. What it answers about notifying holds for them.
#[derive(Debug)]
pub struct LiveBackend {
    backend: Backend,
    /// One for each port that is open or broken.
    rings: [Option<SharedRing>; PORTS],
    references: References,
    trace: Trace,
    books: Books,
}

/// Why a port was not opened over a live ring.
#[derive(Clone, Copy, Debug, PartialEq, Eq)]
#[non_exhaustive]
pub enum NotOpened {
    /// The sheet asks for two pages, and one is mapped.
    TooFewPages,
    /// The open was refused.
    Refused(Refusal),
}

impl fmt::Display for NotOpened {
    fn fmt(&self, f: &mut fmt::Formatter) -> fmt::Result {
        match self {
            NotOpened::TooFewPages => f.write_str("a ring of two pages, of which one is mapped"),
            NotOpened::Refused(refusal) => refusal.fmt(f),
        }
    }
}

impl std::error::Error for NotOpened {}

impl From<Refusal> for NotOpened {
    fn from(refusal: Refusal) -> NotOpened {
        NotOpened::Refused(refusal)
    }
}

impl LiveBackend {
    /// Eight closed ports.
    pub fn new() -> Result<LiveBackend, ArchiveMismatch> {
        Ok(LiveBackend {
            backend: Backend::new()?,
            rings: [const { None }; PORTS],
            references: References::default(),
            trace: Trace::default(),
            books: Books::new(),
        })
    }

    /// For guests whose references may be 1,024 or more: asks `granted` what a port's guest has granted
    /// by a reference, of which any of 32 bits will do. Plans then have the guest's own references in
    /// their extents.
    ///
    /// It is asked for each segment of a request when the request is copied in: once as a rule, and again
    /// where the guest has moved its req_prod back meanwhile. A plan need not follow. So it looks up, and
    /// does nothing else.
    ///
    /// The grants of such a port are this backend's: it writes them by what it was told. A port keeps the
    /// hook that was set when it was opened; one that was opened before any was set goes on without.
    ///
    /// ```
    /// use kernelharp::live::{Grant, LiveBackend};
    ///
    /// let mut backend = LiveBackend::new()?;
    /// backend.set_granted(|_port, reference| match reference {
    ///     0..8 => Grant::None, // the toolstack's
    ///     0xFFFF_0000.. => Grant::Read,
    ///     _ => Grant::ReadWrite,
    /// });
    /// # Ok::<(), kernelharp::ArchiveMismatch>(())
    /// ```
    pub fn set_granted(&mut self, granted: impl FnMut(Port, u32) -> Grant + Send + 'static) {
        self.references.set_granted(Box::new(granted));
    }

    /// Hands on a trace, line by line: before each call what has changed in the private rings and the
    /// grants, then the call, then its answer as a comment. The program `replay` of the library's
    /// repository makes the same calls from these lines and answers each: with nothing else changed its
    /// answers are those of the comments.
    ///
    /// A trace is whole where this is set while every port is closed. Whenever a close leaves them so,
    /// the backend begins anew, and a comment says that a trace may begin below it. That is where a long
    /// trace is cut, and it has to be cut there: a list that goes on beyond such a comment has what went
    /// before still in its memory and rings.
    ///
    /// ```
    /// use kernelharp::live::LiveBackend;
    /// use kernelharp::Port;
    /// use std::sync::mpsc;
    ///
    /// let (lines, traced) = mpsc::channel();
    /// let mut backend = LiveBackend::new()?;
    /// backend.set_trace(move |line| lines.send(line.to_string()).unwrap());
    /// backend.grants_mut(Port::try_from(3)?)[5] = 2;
    /// let _ = backend.close(Port::try_from(1)?);
    /// let traced: Vec<String> = traced.try_iter().collect();
    /// assert_eq!(traced, ["g 3 5 2", "c 1", "# close refused 4"]);
    /// # Ok::<(), Box<dyn std::error::Error>>(())
    /// ```
    pub fn set_trace(&mut self, trace: impl FnMut(&str) + Send + 'static) {
        self.trace.begin(Box::new(trace));
    }

    /// A port's grants, as [`Backend::grants_mut`] has them.
    pub fn grants_mut(&mut self, port: Port) -> &mut [u8; PORT_GRANTS] {
        self.backend.grants_mut(port)
    }

    /// A port's meter as it is now, as [`Backend::meter`] has it.
    pub fn meter(&self, port: Port) -> Meter {
        self.backend.meter(port)
    }

    /// Reads a port's meter and zeroes it, as [`Backend::take_meter`] has it.
    #[must_use = "what the meter counted is nowhere else"]
    pub fn take_meter(&mut self, port: Port) -> Meter {
        self.backend.take_meter(port)
    }

    /// What a port has done since this backend was new.
    pub fn counters(&self, port: Port) -> Counters {
        self.books.of(port)
    }

    /// The counters as a table: a line of heads, then one for each port that was ever opened.
    pub fn counters_text(&self) -> String {
        self.books.text()
    }

    /// Opens a closed port over a ring, which isn't touched. Its layout, and how many of its pages are
    /// used, is as the sheet says; it counts from 0, though it was open before. A ring with fewer pages
    /// is told of before all else, and nothing has happened to the port then, as with a refusal; the ring
    /// itself goes, and is made anew from its mapping.
    pub fn open(
        &mut self,
        port: Port,
        sheet: &[u8],
        mut ring: SharedRing,
    ) -> Result<(), NotOpened> {
        let pages = Pages::of_sheet(sheet);
        if pages > ring.mapped() {
            return Err(NotOpened::TooFewPages);
        }
        self.trace
            .call(&mut self.backend, Call::Open(port, sheet), |backend| {
                backend.open(port, sheet)
            })?;
        ring.restart(Abi::of_sheet(sheet), pages, self.backend.ring_mut(port));
        self.rings[port.index()] = Some(ring);
        self.references.opened(port);
        self.books.opened(port);
        Ok(())
    }

    /// Closes a port with nothing in flight and gives its ring back. With the last of them the backend
    /// begins anew: all is as in a new one, but for grants, meters and counters.
    pub fn close(&mut self, port: Port) -> Result<SharedRing, Refusal> {
        self.trace
            .call(&mut self.backend, Call::Close(port), |backend| {
                backend.close(port)
            })?;
        self.references.closed(port, self.backend.grants_mut(port));
        self.books.closed(port);
        let ring = self.rings[port.index()].take();
        if self.rings.iter().all(Option::is_none) {
            self.backend.begin_anew();
            self.trace.begin_anew();
        }
        Ok(ring.expect("a port is opened with a ring"))
    }

    /// Leaves a port out of turns, or lets it in again. False where it is closed, and nothing happens.
    ///
    /// A turn is for all ports, so while others are served a guest that keeps publishing has always
    /// something in flight, and its port cannot be closed. Left out, it drains: no turn serves it and
    /// nothing is read of its ring before one, but what was started is completed as always, and then the
    /// port can be closed. The port of a guest that sends rubbish can be left out for a while, too.
    ///
    /// Nor is such a guest told when to notify the host. So once its port is let in take turns before you
    /// sleep: the first sees what waits by then. A port that is opened is let in, and one that is
    /// broken stays so whatever is said here.
    pub fn leave_out(&mut self, port: Port, out: bool) -> bool {
        let Some(ring) = &mut self.rings[port.index()] else {
            return false;
        };
        ring.leave_out(out, self.backend.ring_mut(port));
        true
    }

    /// Takes a turn. Idle is answered only after the second look: a host may then sleep until it is
    /// notified, and no request is left waiting but those of ports left out.
    pub fn turn(&mut self) -> Turn {
        let turn = turn_by(|| self.look());
        self.books.turned(&turn);
        turn
    }

    /// Answers a started request, as [`Backend::complete`] has it.
    pub fn complete(&mut self, name: Name, result: i32) -> Result<Done, Refusal> {
        self.complete_by(name.port, Call::Complete(name, result), |backend| {
            backend.complete(name, result)
        })
    }

    /// Answers many started requests of a port, as [`Backend::complete_many`] has it: their responses go
    /// out together, with one second look at rsp_event for all of them.
    pub fn complete_many(&mut self, port: Port, entries: &[Entry]) -> Result<DoneMany, Refusal> {
        self.complete_by(port, Call::List(port, entries), |backend| {
            backend.complete_many(port, entries)
        })
    }

    /// A completion or a list, with what it needs copied in and what it wrote copied out.
    fn complete_by<D: Responses + Words>(
        &mut self,
        port: Port,
        arguments: Call,
        call: impl FnOnce(&mut Backend) -> Result<D, Refusal>,
    ) -> Result<D, Refusal> {
        let LiveBackend { backend, rings, .. } = self;
        let ring = &mut rings[port.index()];
        if let Some(ring) = ring {
            ring.copy_rsp_event_in(backend.ring_mut(port));
        }
        let mut done = self.trace.call(backend, arguments, call);
        if let (Some(ring), Ok(done)) = (ring, &mut done) {
            let responses = done.statuses().len() as u32;
            let private = backend.ring(port);
            done.set_notify(ring.copy_responses_out(responses, private, done.notify()));
        }
        self.books.completed(port, &done);
        done
    }

    /// One turn, with what it needs copied in and what it wrote copied out.
    fn look(&mut self) -> Turn {
        let LiveBackend {
            backend,
            rings,
            references,
            ..
        } = self;
        for (port, ring) in Port::all().zip(rings.iter_mut()) {
            if let Some(ring) = ring {
                let (private, grants) = backend.ring_and_grants_mut(port);
                ring.copy_in_by(private, |request| {
                    references.translate(port, request, grants);
                });
            }
        }
        let mut turn = self.trace.call(backend, Call::Turn, Backend::turn);
        match &mut turn {
            Turn::Idle => {
                for (port, ring) in Port::all().zip(rings.iter()) {
                    if let Some(ring) = ring {
                        ring.copy_req_event_out(backend.ring(port));
                    }
                }
            }
            Turn::Started(plan) => {
                served(rings, plan.name.port).took_request();
                references.put_back(plan);
            }
            Turn::Answered { port, notify, .. } => {
                let ring = served(rings, *port);
                ring.took_request();
                *notify = ring.copy_response_out(backend.ring(*port), *notify);
            }
            Turn::Overrun(port) => served(rings, *port).overran(),
        }
        turn
    }
}

fn served(rings: &mut [Option<SharedRing>; PORTS], port: Port) -> &mut SharedRing {
    let ring = rings[port.index()].as_mut();
    ring.expect("only open ports are served, and those have a ring")
}

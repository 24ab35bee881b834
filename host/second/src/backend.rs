//! The backend: eight ports, and the calls.

use crate::answers::{Done, DoneMany, Turned};
use crate::entry::Entry;
use crate::layout::{
    check_length, share, share_mut, write_u32, ENTRIES, GRANTS_BYTES, PORTS, PORT_GRANTS,
    REQ_EVENT, RINGS_BYTES,
};
use crate::ring::Backlog;
use crate::session::Session;
use crate::sheet::read_sheet;
use crate::terms::{Refusal, Status};

/// What a completion names, and the host's result (rule 6.8).
#[derive(Clone, Copy, Debug, PartialEq, Eq)]
pub struct Completion {
    /// The port named.
    pub port: u32,
    /// The tag named.
    pub tag: u32,
    /// The serial named.
    pub serial: u32,
    /// The host's result.
    pub result: i32,
}

/// Rule 4.1.
#[derive(Clone, Debug, Default, PartialEq, Eq)]
enum Port {
    #[default]
    Closed,
    Open(Box<Session>),
    Broken(Box<Session>),
}

/// The backend. Refused calls leave it, and all lent bytes, as they are.
#[derive(Clone, Debug, Default, PartialEq, Eq)]
pub struct Backend {
    ports: [Port; PORTS],
    pointer: usize,
}

impl Backend {
    /// Rule 12.3: the empty backend.
    pub fn new() -> Backend {
        Backend::default()
    }

    /// Opens a port from a node sheet: refusals 2, 3, then the sheet's. No ring is touched.
    pub fn open(&mut self, port: u32, sheet: &[u8]) -> Result<(), Refusal> {
        let port = self.port_mut(port)?;
        if *port != Port::Closed {
            return Err(Refusal::NotClosed);
        }
        *port = Port::Open(Box::new(Session::new(read_sheet(sheet)?)));
        Ok(())
    }

    /// Closes a port that is open or broken: refusals 2, 4, 5.
    pub fn close(&mut self, port: u32) -> Result<(), Refusal> {
        let port = self.port_mut(port)?;
        match port {
            Port::Closed => Err(Refusal::IsClosed),
            Port::Open(session) | Port::Broken(session) if session.in_flight() > 0 => {
                Err(Refusal::InFlight)
            }
            Port::Open(_) | Port::Broken(_) => {
                *port = Port::Closed;
                Ok(())
            }
        }
    }

    /// Rules 5.2 to 5.4: which port is served, and where the pointer goes.
    pub fn turn(&mut self, rings: &mut [u8], grants: &[u8]) -> Result<Turned, Refusal> {
        check_length(rings, RINGS_BYTES)?;
        check_length(grants, GRANTS_BYTES)?;
        let Some((port, backlog)) = self.first_to_serve(rings) else {
            self.ask_for_events(rings);
            return Ok(Turned::Idle);
        };
        self.pointer = (port + 1) % PORTS;
        if backlog == Backlog::Overrun {
            return Ok(self.break_port(port));
        }
        let Port::Open(session) = &mut self.ports[port] else {
            unreachable!("only open ports are served")
        };
        let port_grants = &grants[PORT_GRANTS * port..][..PORT_GRANTS];
        Ok(session.serve(port as u32, share_mut(rings, port), port_grants))
    }

    /// Completes a started request: the list of one (rule 6.23).
    pub fn complete(&mut self, rings: &mut [u8], named: Completion) -> Result<Done, Refusal> {
        let entry = Entry {
            tag: named.tag.into(),
            serial: named.serial.into(),
            result: named.result.into(),
        };
        let mut status = Status::Okay;
        let notify = self.complete_list(rings, named.port, &[entry], |its| status = its)?;
        Ok(Done {
            port: named.port,
            status,
            notify,
        })
    }

    /// Completes a list of started requests of a port, three words to each.
    pub fn complete_many(
        &mut self,
        rings: &mut [u8],
        port: u32,
        words: &[u64],
    ) -> Result<DoneMany, Refusal> {
        let (entries, mut statuses) = (Entry::read_all(words)?, Vec::new());
        let notify = self.complete_list(rings, port, &entries, |its| statuses.push(its))?;
        Ok(DoneMany {
            port,
            statuses,
            notify,
        })
    }

    /// Refusals 1, 2, 4, 7, 6; or each entry's status in turn, and whether to notify.
    fn complete_list(
        &mut self,
        rings: &mut [u8],
        port: u32,
        entries: &[Entry],
        told: impl FnMut(Status),
    ) -> Result<bool, Refusal> {
        check_length(rings, RINGS_BYTES)?;
        let session = match self.port_mut(port)? {
            Port::Closed => return Err(Refusal::IsClosed),
            Port::Open(session) | Port::Broken(session) => session,
        };
        if entries.len() > ENTRIES {
            return Err(Refusal::TooMany);
        }
        session.complete(share_mut(rings, port as usize), entries, told)
    }

    /// No call: a port just opened as it is after so many requests that were taken and answered. To come
    /// to high indices by calls would take too long.
    pub fn skip(&mut self, port: usize, requests: u32) {
        if let Port::Open(session) = &mut self.ports[port] {
            session.taken = session.taken.wrapping_add(requests);
            session.answered = session.answered.wrapping_add(requests);
        }
    }

    /// Refusal 2.
    fn port_mut(&mut self, port: u32) -> Result<&mut Port, Refusal> {
        self.ports.get_mut(port as usize).ok_or(Refusal::NoPort)
    }

    /// Rule 4.13.
    fn first_to_serve(&self, rings: &[u8]) -> Option<(usize, Backlog)> {
        (0..PORTS)
            .map(|step| (self.pointer + step) % PORTS)
            .find_map(|port| {
                let Port::Open(session) = &self.ports[port] else {
                    return None;
                };
                match session.backlog(share(rings, port)) {
                    Backlog::Nothing => None,
                    backlog => Some((port, backlog)),
                }
            })
    }

    /// Rules 5.6 to 5.9.
    fn ask_for_events(&self, rings: &mut [u8]) {
        for (number, port) in self.ports.iter().enumerate() {
            if let Port::Open(session) = port {
                let event = session.taken.wrapping_add(1);
                write_u32(share_mut(rings, number), REQ_EVENT, event);
            }
        }
    }

    /// Rules 5.10 to 5.12.
    fn break_port(&mut self, port: usize) -> Turned {
        let place = &mut self.ports[port];
        if let Port::Open(session) = std::mem::take(place) {
            *place = Port::Broken(session);
        }
        Turned::Overrun { port: port as u32 }
    }
}

#[cfg(test)]
mod tests;

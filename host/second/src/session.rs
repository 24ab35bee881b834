//! What an open port keeps, and how it serves a request and answers one (sections 4 to 6).

use crate::answers::{Plan, Turned};
use crate::checks::{judge, Work};
use crate::entry::Entry;
use crate::layout::{read_u32, write_u32, REQ_PROD, RSP_EVENT, RSP_PROD};
use crate::request::Request;
use crate::ring::{backlog, response_bytes, Backlog};
use crate::sheet::Disk;
use crate::terms::{Operation, Refusal, Status};

/// What a busy tag keeps (rule 5.20).
#[derive(Clone, Debug, PartialEq, Eq)]
struct Started {
    id: u64,
    operation: Operation,
    serial: u32,
    expected: i32,
}

impl Started {
    /// Rule 6.10.
    fn status(&self, result: i64) -> Status {
        if result == i64::from(self.expected) {
            Status::Okay
        } else if result == -95 {
            Status::NotSupported
        } else {
            Status::Error
        }
    }
}

/// Rule 6.9.
fn expected_result(work: &Work) -> i32 {
    match work.operation {
        Operation::Read | Operation::Write | Operation::Barrier => {
            i32::try_from(work.count).expect("eleven segments of eight sectors at most")
        }
        Operation::Flush | Operation::Discard => 0,
    }
}

/// What a port that is open or broken keeps.
#[derive(Clone, Debug, PartialEq, Eq)]
pub struct Session {
    disk: Disk,
    /// C, requests taken.
    pub taken: u32,
    /// R, responses given.
    pub answered: u32,
    /// The tags, as many as the ring has slots; a free one is `None`.
    tags: Vec<Option<Started>>,
}

impl Session {
    /// Rules 4.2 and 4.3: a port just opened.
    pub fn new(disk: Disk) -> Session {
        let tags = (0..disk.slots).map(|_| None).collect();
        Session {
            disk,
            taken: 0,
            answered: 0,
            tags,
        }
    }

    /// Rule 4.8.
    pub fn in_flight(&self) -> u32 {
        self.tags.iter().flatten().count() as u32
    }

    pub fn backlog(&self, ring: &[u8]) -> Backlog {
        let (req_prod, in_flight) = (read_u32(ring, REQ_PROD), self.in_flight());
        backlog(self.disk.slots, req_prod, self.taken, in_flight)
    }

    /// Where the slot of an index begins.
    fn slot_at(&self, index: u32) -> usize {
        self.disk.layout.slot_at(self.disk.slots, index)
    }

    /// Rules 5.15 to 5.19: a request is taken and judged.
    pub fn serve(&mut self, port: u32, ring: &mut [u8], grants: &[u8]) -> Turned {
        let request = Request::take(ring, &self.disk.layout, self.slot_at(self.taken));
        let serial = self.taken;
        self.taken = serial.wrapping_add(1);
        match judge(&request, &self.disk, grants) {
            Ok(work) => Turned::Started(self.start(port, serial, request.id, work)),
            Err(reason) => {
                let (status, old) = (reason.status(), self.answered);
                self.respond(ring, request.id, request.operation, status);
                Turned::Answered {
                    port,
                    reason,
                    status,
                    notify: self.publish(ring, old),
                }
            }
        }
    }

    /// Rule 4.10: the lowest free tag is used.
    fn start(&mut self, port: u32, serial: u32, id: u64, work: Work) -> Plan {
        let tag = self
            .tags
            .iter()
            .position(Option::is_none)
            .expect("a request waits only while there is a free tag");
        self.tags[tag] = Some(Started {
            id,
            operation: work.operation,
            serial,
            expected: expected_result(&work),
        });
        Plan {
            port,
            tag: tag as u32,
            serial,
            operation: work.operation,
            start: work.start,
            count: work.count,
            secure: work.secure,
            extents: work.extents,
        }
    }

    /// Rules 6.1 to 6.3: the response in its slot. It is not yet published.
    fn respond(&mut self, ring: &mut [u8], id: u64, operation: u8, status: Status) {
        let response = &response_bytes(id, operation, status)[..self.disk.layout.response_bytes];
        ring[self.slot_at(self.answered)..][..response.len()].copy_from_slice(response);
        self.answered = self.answered.wrapping_add(1);
    }

    /// Rules 6.4, 6.19 and 6.20: rsp_prod, for all responses since R was `old`, and whether to notify.
    fn publish(&self, ring: &mut [u8], old: u32) -> bool {
        let new = self.answered;
        write_u32(ring, RSP_PROD, new);
        let behind = new.wrapping_sub(read_u32(ring, RSP_EVENT));
        behind < new.wrapping_sub(old)
    }

    /// Rules 6.16 to 6.21: every entry is done and its status told, or with refusal 6 none. Gives whether
    /// to notify.
    pub fn complete(
        &mut self,
        ring: &mut [u8],
        entries: &[Entry],
        mut told: impl FnMut(Status),
    ) -> Result<bool, Refusal> {
        let sound = (0..entries.len()).all(|at| {
            let (entry, before) = (&entries[at], &entries[..at]);
            self.names_request(entry) && before.iter().all(|other| other.tag != entry.tag)
        });
        if !sound {
            return Err(Refusal::NotBusy);
        }
        if entries.is_empty() {
            return Ok(false);
        }
        let old = self.answered;
        for entry in entries {
            told(self.end(ring, entry));
        }
        Ok(self.publish(ring, old))
    }

    /// Whether an entry's tag is busy with its serial.
    fn names_request(&self, entry: &Entry) -> bool {
        let tag = usize::try_from(entry.tag).ok();
        match tag.and_then(|tag| self.tags.get(tag)) {
            Some(Some(started)) => u64::from(started.serial) == entry.serial,
            _ => false,
        }
    }

    /// Rules 6.10 to 6.12: the response to the request that an entry names, whose tag is free from now on.
    fn end(&mut self, ring: &mut [u8], entry: &Entry) -> Status {
        let place = &mut self.tags[entry.tag as usize];
        let started = place.take().expect("every entry was looked at");
        let status = started.status(entry.result);
        self.respond(ring, started.id, started.operation as u8, status);
        status
    }
}

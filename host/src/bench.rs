//! A bench: both programs with the buffers that they are lent.

use crate::{Ask, Both};
use kernelharp::layout::{
    ring, write_u32, GRANTS_BYTES, PORTS, PORT_GRANTS, REQ_PROD, RINGS_BYTES, RING_BYTES,
};
use kernelharp::Completion;
use second::{Done, DoneMany, Plan, Reason, Refusal, Turned};

/// A backend with its buffers; the guests' own req_prod per port.
#[derive(Clone)]
pub struct Bench {
    /// Both programs.
    pub backend: Both,
    /// The rings that they are lent.
    pub rings: Vec<u8>,
    /// The grants that they are lent.
    pub grants: Vec<u8>,
    produced: [u32; PORTS],
}

impl Default for Bench {
    fn default() -> Bench {
        Bench::new()
    }
}

impl Bench {
    /// An empty backend; every frame may be read and written.
    pub fn new() -> Bench {
        Bench {
            backend: Both::new(),
            rings: vec![0; RINGS_BYTES],
            grants: vec![2; GRANTS_BYTES],
            produced: [0; PORTS],
        }
    }

    /// A backend with port 0 open, which stands at C = R = `index`.
    pub fn open_at(sheet: &[u8], index: u32) -> Bench {
        let mut bench = Bench::open(sheet);
        bench.backend.skip(0, index);
        bench.set_req_prod(0, index);
        bench
    }

    /// A backend with port 0 open.
    pub fn open(sheet: &[u8]) -> Bench {
        let mut bench = Bench::new();
        assert_eq!(bench.backend.open(0, sheet), Ok(()));
        bench
    }

    /// Sets the grant byte of a frame.
    pub fn grant(&mut self, port: usize, frame: usize, grant: u8) {
        self.grants[PORT_GRANTS * port + frame] = grant;
    }

    /// A port's share of the rings.
    pub fn ring(&self, port: usize) -> &[u8] {
        ring(&self.rings, port)
    }

    /// Writes a number on a port's ring.
    pub fn set_u32(&mut self, port: usize, at: usize, value: u32) {
        write_u32(&mut self.rings, RING_BYTES * port + at, value);
    }

    /// Writes req_prod; the guest goes on from there.
    pub fn set_req_prod(&mut self, port: usize, value: u32) {
        self.produced[port] = value;
        self.set_u32(port, REQ_PROD, value);
    }

    /// A slot of a port's ring.
    pub fn slot(&self, port: usize, index: u32) -> &[u8] {
        let kind = self.backend.ring(port);
        &self.ring(port)[kind.slot_at(index)..][..kind.abi.slot_bytes()]
    }

    /// Puts a request into a slot of a port's ring.
    pub fn put(&mut self, port: usize, index: u32, ask: &Ask) {
        let kind = self.backend.ring(port);
        let at = RING_BYTES * port + kind.slot_at(index);
        let bytes = ask.bytes(kind.abi);
        self.rings[at..][..bytes.len()].copy_from_slice(&bytes);
    }

    /// Puts a request where the guest's next one belongs.
    pub fn post(&mut self, port: usize, ask: &Ask) {
        self.put(port, self.produced[port], ask);
        self.set_req_prod(port, self.produced[port].wrapping_add(1));
    }

    /// Takes a turn.
    pub fn turn(&mut self) -> Turned {
        self.backend
            .turn(&mut self.rings, &self.grants)
            .expect("buffers of the due length")
    }

    /// Posts a request on port 0 and serves it.
    pub fn serve(&mut self, ask: &Ask) -> Result<Plan, Reason> {
        self.post(0, ask);
        self.serve_next()
    }

    /// Serves a request that was posted.
    pub fn serve_next(&mut self) -> Result<Plan, Reason> {
        match self.turn() {
            Turned::Started(plan) => Ok(plan),
            Turned::Answered { reason, status, .. } => {
                assert_eq!(status, reason.status());
                Err(reason)
            }
            other => panic!("nothing was served: {other:?}"),
        }
    }

    /// The number of the reason, or 0 for a start.
    pub fn number(&mut self, ask: &Ask) -> u32 {
        self.serve(ask).map_or_else(|reason| reason as u32, |_| 0)
    }

    /// Completes a request.
    pub fn complete(
        &mut self,
        port: u32,
        tag: u32,
        serial: u32,
        result: i32,
    ) -> Result<Done, Refusal> {
        let named = Completion {
            port,
            tag,
            serial,
            result,
        };
        self.backend.complete(&mut self.rings, named)
    }

    /// Completes a list of requests, by the words of its entries.
    pub fn complete_many(&mut self, port: u32, entries: &[u64]) -> Result<DoneMany, Refusal> {
        self.backend.complete_many(&mut self.rings, port, entries)
    }

    /// Makes a call that must be refused and leave backend and buffers as they were. Gives the
    /// refusal's number.
    pub fn refused<T: std::fmt::Debug>(
        &mut self,
        call: impl FnOnce(&mut Bench) -> Result<T, Refusal>,
    ) -> u32 {
        let before = self.clone();
        let refusal = call(self).expect_err("the call was not refused");
        assert_eq!(self.backend, before.backend, "{refusal:?}");
        assert_eq!(self.rings, before.rings, "{refusal:?}");
        assert_eq!(self.grants, before.grants, "{refusal:?}");
        refusal as u32
    }

    /// [`Bench::refused`] of an open.
    pub fn refused_open(&mut self, port: u32, sheet: &[u8]) -> u32 {
        self.refused(|bench| bench.backend.open(port, sheet))
    }

    /// [`Bench::refused`] of a close.
    pub fn refused_close(&mut self, port: u32) -> u32 {
        self.refused(|bench| bench.backend.close(port))
    }

    /// [`Bench::refused`] of a completion.
    pub fn refused_complete(&mut self, port: u32, tag: u32, serial: u32) -> u32 {
        self.refused(|bench| bench.complete(port, tag, serial, 8))
    }

    /// [`Bench::refused`] of a list of completions.
    pub fn refused_list(&mut self, port: u32, entries: &[u64]) -> u32 {
        self.refused(|bench| bench.complete_many(port, entries))
    }
}

//! What guests, and the host in the grants, write between calls.

use super::{Generator, Guest, Manner, Pace};
use crate::requests::any_request;
use crate::{Buffer, Ring, World, Write};
use history::State;
use kernelharp::layout::{
    read_u32, ring, write_u32, Pages, GRANTS_BYTES, HEADER_BYTES, PAGE_BYTES, PORTS, PORT_GRANTS,
    REQ_EVENT, REQ_PROD, RING_BYTES, RSP_EVENT, RSP_PROD,
};

/// How far req_prod is ahead where it is behind.
const BEHIND: [u32; 5] = [
    u32::MAX,
    u32::MAX - 31,
    u32::MAX - 32,
    u32::MAX - 63,
    u32::MAX - 64,
];

/// Where it is ahead: around both sizes, and far.
const AHEAD: [u32; 7] = [32, 33, 64, 65, 1 << 31, 0x0100_0000, 0x0001_0001];

impl Generator {
    pub(super) fn write_grants(&mut self, writes: &mut Vec<Write>) {
        let (at, length) = if !self.begun_grants {
            self.begun_grants = true;
            (0, GRANTS_BYTES)
        } else if self.random.chance(3) {
            (self.random.index(GRANTS_BYTES - 4), 4)
        } else {
            return;
        };
        let bytes = (0..length).map(|_| self.any_grant()).collect();
        let buffer = Buffer::Grants;
        writes.push(Write { buffer, at, bytes });
    }

    fn any_grant(&mut self) -> u8 {
        match self.random.index(10) {
            0..=4 => 2,
            5..=7 => 1,
            8 => self.random.pick(&[0, 3]),
            _ => self.random.byte(),
        }
    }

    /// After an opening a guest starts with a clean header; some leave it as it was. What is behind the
    /// ring may hold anything.
    pub(super) fn set_up_rings(&mut self, world: &World, writes: &mut Vec<Write>) {
        for port in 0..PORTS {
            if !std::mem::take(&mut self.guests[port].fresh) {
                continue;
            }
            let leaves_header = match self.guests[port].manner {
                Manner::Polite => false,
                Manner::Careless => self.random.chance(10),
                Manner::Hostile => self.random.chance(25),
            };
            let Guest {
                ring: kind, taken, ..
            } = self.guests[port];
            if leaves_header {
                self.guests[port].produced = read_u32(ring(world.rings(), port), REQ_PROD);
            } else {
                self.guests[port].produced = taken;
                write_ring(writes, port, 0, &header_at(taken));
            }
            if kind.pages == Pages::One {
                let mut behind = vec![0; RING_BYTES - PAGE_BYTES];
                self.random.fill(&mut behind);
                write_ring(writes, port, PAGE_BYTES, &behind);
            }
        }
    }

    pub(super) fn guests_write(&mut self, world: &World, writes: &mut Vec<Write>) {
        let acts = match self.pace {
            Pace::Busy => self.random.index(4),
            Pace::Slow => usize::from(self.random.chance(20)),
            Pace::Quiet => usize::from(self.random.chance(2)),
            Pace::Lone(_) => self.random.index(2),
        };
        for _ in 0..acts {
            let port = match self.pace {
                Pace::Lone(port) => port,
                _ => self.random.index(PORTS),
            };
            // A ring just set up must not be read as it was before.
            if writes.iter().any(|write| touches_share(write, port)) {
                continue;
            }
            match self.guests[port].manner {
                Manner::Polite => self.act_politely(world, port, 8, writes),
                Manner::Careless if self.random.chance(3) => self.play_with_index(port, writes),
                Manner::Careless if self.random.chance(10) => self.scribble(port, writes),
                Manner::Careless => self.act_politely(world, port, 60, writes),
                Manner::Hostile if self.random.chance(12) => self.play_with_index(port, writes),
                Manner::Hostile if self.random.chance(40) => self.scribble(port, writes),
                Manner::Hostile if self.random.chance(2) => self.flood(port, writes),
                Manner::Hostile => self.act_politely(world, port, 75, writes),
            }
        }
    }

    /// Mostly a guest has just asked for the event of a response around those that a list is to give.
    pub(super) fn ask_for_event(&mut self, port: u32, responses: u32, writes: &mut Vec<Write>) {
        let port = port as usize;
        if port >= PORTS || self.random.chance(10) {
            return;
        }
        let ahead = match self.random.index(8) {
            0 => 0,
            1 => 1,
            2 => self.random.below(u64::from(responses) + 1) as u32,
            3 => responses,
            4 => responses + 1,
            5 => responses + 2 + self.random.below(70) as u32,
            6 => u32::MAX - self.random.below(3) as u32,
            _ => self.random.word() as u32,
        };
        let event = self.guests[port].answered().wrapping_add(ahead);
        write_ring(writes, port, RSP_EVENT, &event.to_le_bytes());
    }

    /// Posts requests as far as there is room, or says when it wants to be told of responses.
    fn act_politely(&mut self, world: &World, port: usize, faulty: u64, writes: &mut Vec<Write>) {
        if self.guests[port].state != State::Open {
            return;
        }
        let rsp_prod = read_u32(ring(world.rings(), port), RSP_PROD);
        if self.random.chance(40) {
            let event = rsp_prod.wrapping_add(self.random.pick(&[1, 1, 1, 2, 8, 0]));
            write_ring(writes, port, RSP_EVENT, &event.to_le_bytes());
        }
        let outstanding = self.guests[port].produced.wrapping_sub(rsp_prod);
        let room = self.guests[port].ring.slots().saturating_sub(outstanding);
        let amount = match self.random.index(12) {
            0 => room,
            1..=3 => room.min(1 + self.random.below(6) as u32),
            _ => room.min(1),
        };
        self.post(world, port, amount, faulty, writes);
    }

    fn post(
        &mut self,
        world: &World,
        port: usize,
        amount: u32,
        faulty: u64,
        writes: &mut Vec<Write>,
    ) {
        let ring = self.ring_used(port);
        let Guest { disk, produced, .. } = &mut self.guests[port];
        let Some(disk) = disk else { return };
        let grants = &world.grants()[PORT_GRANTS * port..][..PORT_GRANTS];
        for _ in 0..amount {
            let slot = any_request(&mut self.random, ring.abi, disk, grants, faulty);
            write_ring(writes, port, ring.slot_at(*produced), &slot);
            *produced = produced.wrapping_add(1);
        }
        write_ring(writes, port, REQ_PROD, &produced.to_le_bytes());
    }

    /// The ring that requests are written to. A hostile guest may use one that its port has not.
    fn ring_used(&mut self, port: usize) -> Ring {
        let guest = &self.guests[port];
        if guest.manner == Manner::Hostile && self.random.chance(20) {
            self.random.pick(&Ring::ALL)
        } else {
            guest.ring
        }
    }

    /// Sets req_prod to something at or beyond the line: just full, one too many, behind, far
    /// ahead, around the wrap.
    fn play_with_index(&mut self, port: usize, writes: &mut Vec<Write>) {
        let (taken, room) = (self.guests[port].taken, self.guests[port].room());
        let ahead = match self.random.index(10) {
            0..=3 => room,
            4 | 5 => room + 1,
            6 => self.random.pick(&BEHIND),
            7 => self.random.pick(&AHEAD),
            8 => 0u32.wrapping_sub(taken).wrapping_sub(1),
            _ => self.random.word() as u32,
        };
        let produced = taken.wrapping_add(ahead);
        self.guests[port].produced = produced;
        write_ring(writes, port, REQ_PROD, &produced.to_le_bytes());
    }

    /// Writes over requests already taken, by the places of any ring, over the backend's own header
    /// words, or anywhere.
    fn scribble(&mut self, port: usize, writes: &mut Vec<Write>) {
        let ring = self.random.pick(&Ring::ALL);
        let at = match self.random.index(4) {
            0 => ring.slot_at(self.random.word() as u32),
            1 => self.random.pick(&[REQ_EVENT, RSP_PROD, RSP_EVENT, 16]),
            2 => ring.slot_at(self.guests[port].taken.wrapping_sub(1)),
            _ => HEADER_BYTES + self.random.index(RING_BYTES - HEADER_BYTES),
        };
        let length = if at < HEADER_BYTES { 4 } else { 24 };
        let mut bytes = vec![0; length.min(RING_BYTES - at)];
        self.random.fill(&mut bytes);
        write_ring(writes, port, at, &bytes);
    }

    /// Random bytes in all of the share behind the header, and as many requests as there is room for.
    fn flood(&mut self, port: usize, writes: &mut Vec<Write>) {
        let mut slots = [0; RING_BYTES - HEADER_BYTES];
        self.random.fill(&mut slots);
        write_ring(writes, port, HEADER_BYTES, &slots);
        let guest = &mut self.guests[port];
        guest.produced = guest.taken.wrapping_add(guest.room());
        let produced = guest.produced;
        write_ring(writes, port, REQ_PROD, &produced.to_le_bytes());
    }
}

/// The header of an unused ring, whose indices begin there.
fn header_at(index: u32) -> [u8; HEADER_BYTES] {
    let mut header = [0; HEADER_BYTES];
    write_u32(&mut header, REQ_PROD, index);
    write_u32(&mut header, RSP_PROD, index);
    write_u32(&mut header, REQ_EVENT, index.wrapping_add(1));
    write_u32(&mut header, RSP_EVENT, index.wrapping_add(1));
    header
}

fn touches_share(write: &Write, port: usize) -> bool {
    write.buffer == Buffer::Rings && write.at / RING_BYTES == port
}

fn write_ring(writes: &mut Vec<Write>, port: usize, at: usize, bytes: &[u8]) {
    writes.push(Write {
        buffer: Buffer::Rings,
        at: RING_BYTES * port + at,
        bytes: bytes.to_vec(),
    });
}

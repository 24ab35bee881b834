//! What the programs are measured on: full rings of reads.

use frontend::Request;
use kernelharp::layout::{
    ring, ring_mut, write_u32, GRANTS_BYTES, HEADER_BYTES, REQ_PROD, RINGS_BYTES, RING_BYTES,
    RSP_EVENT,
};
use kernelharp::{Abi, Operation, Pages, Segment, Sheet};
use std::fmt;

const READ: u8 = Operation::Read as u8;

/// The rings of the open ports.
#[derive(Clone, Copy)]
pub enum Rings {
    /// All have one layout and one page.
    All(Abi),
    /// Each has another layout than the port before it, and one page.
    Both,
    /// All have one layout and two pages.
    TwoPages(Abi),
}

impl Rings {
    pub const BITS64: Rings = Rings::All(Abi::Bits64);
    const BITS32: Rings = Rings::All(Abi::Bits32);
    pub const BITS64_TWO_PAGES: Rings = Rings::TwoPages(Abi::Bits64);
    const BITS32_TWO_PAGES: Rings = Rings::TwoPages(Abi::Bits32);

    /// The ones that print so.
    pub fn of(text: &str) -> Option<Rings> {
        let every = [
            Rings::BITS64,
            Rings::BITS32,
            Rings::Both,
            Rings::BITS64_TWO_PAGES,
            Rings::BITS32_TWO_PAGES,
        ];
        every.into_iter().find(|rings| rings.to_string() == text)
    }

    fn of_port(self, port: usize) -> Abi {
        match self {
            Rings::All(abi) | Rings::TwoPages(abi) => abi,
            Rings::Both => Abi::ALL[port % Abi::ALL.len()],
        }
    }

    fn pages(self) -> Pages {
        match self {
            Rings::All(_) | Rings::Both => Pages::One,
            Rings::TwoPages(_) => Pages::Two,
        }
    }
}

impl fmt::Display for Rings {
    fn fmt(&self, f: &mut fmt::Formatter) -> fmt::Result {
        match self {
            Rings::All(abi) => abi.fmt(f),
            Rings::Both => f.write_str("both"),
            Rings::TwoPages(abi) => write!(f, "{abi}-two-page"),
        }
    }
}

/// How many segments a read has, how many ports are open, from port 0 on, and their rings; the disks'
/// sector size, and how many sectors a segment has.
#[derive(Clone, Copy)]
pub struct Load {
    pub segments: usize,
    pub ports: usize,
    pub rings: Rings,
    pub sector_size: u32,
    pub length: usize,
}

/// The full load first; then fewer segments, then fewer ports, then other guests, then larger rings.
pub const LOADS: [Load; 9] = [
    Load::new(11, 8, Rings::BITS64),
    Load::new(4, 8, Rings::BITS64),
    Load::new(1, 8, Rings::BITS64),
    Load::new(11, 4, Rings::BITS64),
    Load::new(11, 1, Rings::BITS64),
    Load::new(11, 8, Rings::BITS32),
    Load::new(11, 8, Rings::Both),
    Load::new(11, 8, Rings::BITS64_TWO_PAGES),
    Load::new(11, 8, Rings::BITS32_TWO_PAGES),
];

/// The sectors of a frame.
const FRAME_SECTORS: usize = 8;

impl Load {
    /// Whole frames, on disks of the smallest sectors.
    pub const fn new(segments: usize, ports: usize, rings: Rings) -> Load {
        Load {
            segments,
            ports,
            rings,
            sector_size: 512,
            length: FRAME_SECTORS,
        }
    }

    /// The same on other disks, with segments of `length` sectors, which divides a frame.
    pub fn on(self, sector_size: u32, length: usize) -> Load {
        assert_eq!(FRAME_SECTORS % length, 0, "segments that fill frames");
        Load {
            sector_size,
            length,
            ..self
        }
    }

    /// A writable disk of 1,048,576 sectors, as a node sheet.
    pub fn sheet(self, port: usize) -> Vec<u8> {
        let sheet = Sheet {
            writable: true,
            sector_size: self.sector_size,
            sectors: 1_048_576,
            abi: self.rings.of_port(port),
            pages: self.rings.pages(),
            ..Sheet::default()
        };
        sheet.bytes()
    }

    /// What names it: segments, ports and rings.
    pub fn words(self) -> [String; 3] {
        let Load {
            segments,
            ports,
            rings,
            ..
        } = self;
        [segments.to_string(), ports.to_string(), rings.to_string()]
    }

    /// How many slots a ring has.
    fn slots(self) -> u32 {
        self.rings.pages().slots()
    }

    /// How many requests fill the rings.
    pub fn requests(self) -> usize {
        self.slots() as usize * self.ports
    }

    /// A full ring, the header left zero.
    fn full_ring(self, port: usize) -> [u8; RING_BYTES] {
        let (mut ring, abi) = ([0; RING_BYTES], self.rings.of_port(port));
        for index in 0..self.slots() {
            let number = u64::from(self.slots()) * port as u64 + u64::from(index);
            let segments: Vec<Segment> = (0..self.segments)
                .map(|segment| self.segment(index, segment))
                .collect();
            let read = Request::segmented(READ, 0x1_0001 * number, 88 * number, &segments);
            let at = abi.slot_at(self.rings.pages(), index);
            ring[at..][..abi.slot_bytes()].copy_from_slice(&read.slot(abi));
        }
        ring
    }

    /// A segment of the read in a slot. Each has a frame to itself, 352 frames to a port or with two
    /// pages 704, and begins where the one before it ended in its own.
    fn segment(self, slot: u32, segment: usize) -> Segment {
        let first = self.length * segment % FRAME_SECTORS;
        Segment {
            frame: 11 * slot + segment as u32,
            first: first as u8,
            last: (first + self.length - 1) as u8,
        }
    }
}

/// Pages begin where real ones do, so that no program has better places than the other.
#[derive(Clone, PartialEq, Eq)]
#[repr(align(4096))]
struct Aligned([u8; RINGS_BYTES]);

/// The buffers lent to one program.
#[derive(Clone)]
pub struct Lent {
    load: Load,
    full: Box<Aligned>,
    rings: Box<Aligned>,
    grants: Vec<u8>,
    /// How often the rings were filled.
    rounds: u32,
}

impl Lent {
    /// Empty rings; every frame may be read and written.
    pub fn new(load: Load) -> Lent {
        let mut full = Box::new(Aligned([0; RINGS_BYTES]));
        for port in 0..load.ports {
            ring_mut(&mut full.0, port).copy_from_slice(&load.full_ring(port));
        }
        Lent {
            load,
            full,
            rings: Box::new(Aligned([0; RINGS_BYTES])),
            grants: vec![2; GRANTS_BYTES],
            rounds: 0,
        }
    }

    /// Fills every slot of the open ports; each guest asks to be notified of its next response.
    pub fn refill(&mut self) {
        let answered = self.load.slots().wrapping_mul(self.rounds);
        let slots = HEADER_BYTES..self.load.rings.pages().bytes();
        for port in 0..self.load.ports {
            let full = ring(&self.full.0, port);
            let ring = ring_mut(&mut self.rings.0, port);
            ring[slots.clone()].copy_from_slice(&full[slots.clone()]);
            write_u32(ring, REQ_PROD, answered.wrapping_add(self.load.slots()));
            write_u32(ring, RSP_EVENT, answered.wrapping_add(1));
        }
        self.rounds += 1;
    }

    /// The rings and the grants, as a call is lent them.
    pub fn lend(&mut self) -> (&mut [u8], &[u8]) {
        (&mut self.rings.0, &self.grants)
    }

    pub fn same_rings(&self, other: &Lent) -> bool {
        self.rings == other.rings
    }
}

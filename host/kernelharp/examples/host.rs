//! A host of one port with a guest beside it, which writes eight sectors and reads them back through a
//! live ring page. The disk is a vector, and the guest's frames are arrays.

use kernelharp::live::{LiveBackend, LiveGuest, Mapping, SharedRing, PAGE_WORDS};
use kernelharp::{Abi, Extent, Operation, Plan, Port, Request, Segment, Sheet, Turn};
use std::error::Error;
use std::sync::atomic::AtomicU32;

const SECTOR: usize = 512;
const FRAME: usize = 4096;

/// The guest's ring page. Between two domains each side has it mapped: `Mapping::new`.
static PAGE: [AtomicU32; PAGE_WORDS] = [const { AtomicU32::new(0) }; PAGE_WORDS];

struct Host {
    backend: LiveBackend,
    disk: Vec<u8>,
    /// The guest's frames by their references, as this host has them mapped.
    frames: [[u8; FRAME]; 2],
}

fn main() -> Result<(), Box<dyn Error>> {
    let mut guest = LiveGuest::new(Mapping::of_atomics(&PAGE))?;
    let port = Port::try_from(0)?;
    let mut host = Host::new(port)?;
    host.serve()?; // an open counts as an event

    let (start, from, to) = (2000, [whole(0)], [whole(1)]);
    let write = Request::Write {
        id: 1,
        start,
        segments: &from,
    };
    let read = Request::Read {
        id: 2,
        start,
        segments: &to,
    };
    for request in [write, read] {
        let notify = guest.put(&request)?;
        println!("a request is put; the host is to be notified: {notify}");
        host.serve()?;
        let response = guest.collect()?.ok_or("no response")?;
        println!("the guest has its response: {response}");
    }
    assert_eq!(host.frames[1], [7; FRAME], "what was written is read");

    host.backend.close(port)?;
    println!("{port}: {}", host.backend.take_meter(port)); // for the bill
    println!("{}", host.backend.counters(port).json()); // for those who watch it
    Ok(())
}

/// All sectors of a frame.
fn whole(frame: u32) -> Segment {
    Segment {
        frame,
        first: 0,
        last: 7,
    }
}

impl Host {
    /// A disk of 2,008 sectors, and a port open for it.
    fn new(port: Port) -> Result<Host, Box<dyn Error>> {
        let mut host = Host {
            backend: LiveBackend::new()?,
            disk: vec![0; SECTOR * 2008],
            frames: [[7; FRAME], [0; FRAME]],
        };
        let sheet = Sheet {
            writable: true,
            sector_size: 512,
            sectors: 2008,
            ..Sheet::default()
        };
        let ring = SharedRing::one_page(Mapping::of_atomics(&PAGE), Abi::Bits64);
        host.backend.open(port, &sheet.bytes(), ring)?;
        // The guest lets the host read frame 0, and read and write frame 1.
        host.backend.grants_mut(port)[..2].copy_from_slice(&[1, 2]);
        Ok(host)
    }

    /// Takes turns until it may sleep.
    fn serve(&mut self) -> Result<(), Box<dyn Error>> {
        loop {
            match self.backend.turn() {
                Turn::Idle => return Ok(()), // here a host waits for its guests' events
                Turn::Started(plan) => {
                    let result = self.carry_out(&plan);
                    let done = self.backend.complete(plan.name, result)?;
                    println!("{plan}\n{done}");
                }
                other => println!("{other}"),
            }
        }
    }

    /// The I/O of a read or a write, extent by extent.
    fn carry_out(&mut self, plan: &Plan) -> i32 {
        for extent in plan.extents() {
            let Extent {
                frame,
                first_sector,
                length,
                disk_sector,
            } = *extent;
            let bytes = SECTOR * usize::from(length);
            let on_disk = &mut self.disk[SECTOR * disk_sector as usize..][..bytes];
            let frame = &mut self.frames[frame as usize];
            let in_frame = &mut frame[SECTOR * usize::from(first_sector)..][..bytes];
            match plan.operation {
                Operation::Read => in_frame.copy_from_slice(on_disk),
                _ => on_disk.copy_from_slice(in_frame),
            }
        }
        plan.expected_result()
    }
}

//! The two ways to lend the guests' rings to the library.

use frontend::{row, GuestRing};
use kernelharp::layout::{PORTS, PORT_GRANTS};
use kernelharp::live::{DirectBackend, LiveBackend, Row};
use kernelharp::{ArchiveMismatch, Done, DoneMany, Entry, Meter, Name, Port, Refusal, Sheet, Turn};
use std::fmt;

/// One of them.
#[derive(Clone, Copy, Debug, PartialEq, Eq)]
pub enum Way {
    /// What a call reads is copied in, and what it wrote is copied out.
    Copies,
    /// The guests' pages themselves are lent.
    Pages,
}

impl Way {
    pub const ALL: [Way; 2] = [Way::Copies, Way::Pages];
}

impl fmt::Display for Way {
    fn fmt(&self, f: &mut fmt::Formatter) -> fmt::Result {
        f.pad(match self {
            Way::Copies => "private copies",
            Way::Pages => "live pages",
        })
    }
}

/// The rings of all guests.
pub type Rings = [&'static GuestRing; PORTS];

/// The library, with rings lent in either way.
pub enum Lent {
    Copies(Box<LiveBackend>),
    Pages(Box<DirectBackend>),
}

impl Lent {
    /// Eight closed ports, and where their guests' rings are to be.
    pub fn new(way: Way) -> Result<(Lent, Rings), ArchiveMismatch> {
        Ok(match way {
            Way::Copies => {
                let rings = std::array::from_fn(|_| GuestRing::new());
                (Lent::Copies(Box::new(LiveBackend::new()?)), rings)
            }
            Way::Pages => {
                let row = row();
                let backend = DirectBackend::new(Row::of_atomics(row))?;
                let rings = std::array::from_fn(|port| GuestRing::in_row(row, port));
                (Lent::Pages(Box::new(backend)), rings)
            }
        })
    }

    /// Opens a port over a ring, which is one of those that `new` gave.
    pub fn open(
        &mut self,
        port: Port,
        sheet: &Sheet,
        ring: &'static GuestRing,
    ) -> Result<(), String> {
        let opened = match self {
            Lent::Copies(backend) => {
                let ring = ring.shared(sheet.abi, sheet.pages);
                let opened = backend.open(port, &sheet.bytes(), ring);
                opened.map_err(|fault| fault.to_string())
            }
            Lent::Pages(backend) => {
                let opened = backend.open(port, &sheet.bytes());
                opened.map_err(|refusal| refusal.to_string())
            }
        };
        opened.map_err(|fault| format!("open of {port}: {fault}"))
    }

    pub fn close(&mut self, port: Port) -> Result<(), Refusal> {
        match self {
            Lent::Copies(backend) => backend.close(port).map(drop),
            Lent::Pages(backend) => backend.close(port),
        }
    }

    pub fn turn(&mut self) -> Turn {
        match self {
            Lent::Copies(backend) => backend.turn(),
            Lent::Pages(backend) => backend.turn(),
        }
    }

    pub fn complete(&mut self, name: Name, result: i32) -> Result<Done, Refusal> {
        match self {
            Lent::Copies(backend) => backend.complete(name, result),
            Lent::Pages(backend) => backend.complete(name, result),
        }
    }

    pub fn complete_many(&mut self, port: Port, entries: &[Entry]) -> Result<DoneMany, Refusal> {
        match self {
            Lent::Copies(backend) => backend.complete_many(port, entries),
            Lent::Pages(backend) => backend.complete_many(port, entries),
        }
    }

    pub fn grants_mut(&mut self, port: Port) -> &mut [u8; PORT_GRANTS] {
        match self {
            Lent::Copies(backend) => backend.grants_mut(port),
            Lent::Pages(backend) => backend.grants_mut(port),
        }
    }

    pub fn take_meter(&mut self, port: Port) -> Meter {
        match self {
            Lent::Copies(backend) => backend.take_meter(port),
            Lent::Pages(backend) => backend.take_meter(port),
        }
    }
}

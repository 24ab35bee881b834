//! A program that sees other bytes wherever no call may look.

use generate::{Core, List, Ring};
use kernelharp::layout::{ring_mut, PORTS, RINGS_BYTES};
use kernelharp::words::{DoneWords, ManyWords, TurnWords};
use kernelharp::{Completion, Meter};

/// A program that is lent rings whose bytes are all others behind a ring of one page, and in the share of a
/// closed port. Beside the same program with the rings as they are, it must answer alike and leave the
/// same: then nothing there is read or written.
pub struct Twin<C> {
    /// The program.
    pub core: C,
    /// The rings of the ports that are not closed.
    rings: [Option<Ring>; PORTS],
}

impl<C: Core> Twin<C> {
    /// A program whose ports are closed.
    pub fn new(core: C) -> Twin<C> {
        Twin {
            core,
            rings: [None; PORTS],
        }
    }

    /// Makes a call on rings with the other bytes, which go back the same way.
    fn lend(&mut self, rings: &mut [u8], call: impl FnOnce(&mut C, &mut [u8]) -> u32) -> u32 {
        let mut lent = rings.to_vec();
        self.complement(&mut lent);
        let code = call(&mut self.core, &mut lent);
        self.complement(&mut lent);
        rings.copy_from_slice(&lent);
        code
    }

    /// Makes others of the bytes where no call may look. Rings of another length are no rings.
    fn complement(&self, rings: &mut [u8]) {
        if rings.len() != RINGS_BYTES {
            return;
        }
        for (port, kind) in self.rings.iter().enumerate() {
            let used = kind.map_or(0, |kind| kind.pages.bytes());
            let behind = &mut ring_mut(rings, port)[used..];
            behind.iter_mut().for_each(|byte| *byte = !*byte);
        }
    }
}

impl<C: Core> Core for Twin<C> {
    fn open(&mut self, port: u32, sheet: &[u8]) -> u32 {
        let code = self.core.open(port, sheet);
        if code == 0 {
            self.rings[port as usize] = Some(Ring::of_sheet(sheet));
        }
        code
    }

    fn close(&mut self, port: u32) -> u32 {
        let code = self.core.close(port);
        if code == 0 {
            self.rings[port as usize] = None;
        }
        code
    }

    fn turn(&mut self, rings: &mut [u8], grants: &[u8], answer: &mut TurnWords) -> u32 {
        self.lend(rings, |core, rings| core.turn(rings, grants, answer))
    }

    fn complete(&mut self, rings: &mut [u8], named: Completion, answer: &mut DoneWords) -> u32 {
        self.lend(rings, |core, rings| core.complete(rings, named, answer))
    }

    fn complete_many(&mut self, rings: &mut [u8], list: List, answer: &mut ManyWords) -> u32 {
        self.lend(rings, |core, rings| core.complete_many(rings, list, answer))
    }

    fn meter_turn(&self, meter: &mut Meter, returned: u32, answer: &TurnWords) {
        self.core.meter_turn(meter, returned, answer);
    }

    fn meter_completion(&self, meter: &mut Meter, returned: u32, answer: &DoneWords) {
        self.core.meter_completion(meter, returned, answer);
    }

    fn meter_many(&self, meter: &mut Meter, returned: u32, answer: &ManyWords) {
        self.core.meter_many(meter, returned, answer);
    }

    fn skip(&mut self, port: usize, requests: u32) {
        self.core.skip(port, requests);
    }

    fn memory(&self) -> &[u64] {
        self.core.memory()
    }
}

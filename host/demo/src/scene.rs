//! A scene of the incident: a volume, the guest of the first zone's board, and who serves it.

use crate::batch::{Batch, Job};
use crate::disk::Disk;
use crate::frames::{begin_of, Frames};
use crate::lent::{Lent, Way};
use crate::old_worker::OldWorker;
use crate::serve::{Ours, Served, Server};
use crate::volume::Volume;
use frontend::{Frontend, GuestRing};
use generate::Random;
use kernelharp::{Abi, Pages, Port};
use std::fmt;
use std::path::Path;
use std::rc::Rc;

/// The layout of the guest's ring, which has one page.
pub const ABI: Abi = Abi::Bits64;
/// The last id before those of two neighbours.
const BEFORE_SEVEN: u64 = 6;

/// Who serves the guest.
#[derive(Clone, Copy, Debug, PartialEq, Eq)]
pub enum Who {
    Old,
    Ours(Way),
}

impl Who {
    pub const ALL: [Who; 3] = [Who::Old, Who::Ours(Way::Copies), Who::Ours(Way::Pages)];
}

impl fmt::Display for Who {
    fn fmt(&self, f: &mut fmt::Formatter) -> fmt::Result {
        match self {
            Who::Old => f.pad("old worker"),
            Who::Ours(way) => way.fmt(f),
        }
    }
}

/// A volume, the guest of the first zone, and who serves it.
pub struct Scene {
    pub volume: Volume,
    pub ring: &'static GuestRing,
    front: Frontend,
    frames: Rc<Frames>,
    random: Random,
    next_id: u64,
    pub server: Box<dyn Server>,
}

impl Scene {
    pub fn new(folder: &Path, part: &str, who: Who, seed: u64) -> Result<Scene, String> {
        let path = folder.join(format!("{part}-{who}"));
        let volume = Volume::create(&path, seed);
        let volume = volume.map_err(|fault| format!("{}: {fault}", path.display()))?;
        let mut random = Random::new(seed);
        let frames = Rc::new(Frames::new(begin_of(0), &mut random));
        let (server, ring) = server(who, &volume, &frames)?;
        Ok(Scene {
            volume,
            ring,
            front: Frontend::new(ring, ABI, Pages::One),
            frames,
            random,
            next_id: BEFORE_SEVEN,
            server,
        })
    }

    /// Makes requests of the first zone's board, with their bytes in its frames.
    pub fn make(&mut self, make: impl FnOnce(&mut Batch)) -> Vec<Job> {
        let mut batch = Batch {
            profile: &self.volume.first.profile,
            model: &mut self.volume.first.model,
            frames: &self.frames,
            random: &mut self.random,
            next_id: &mut self.next_id,
            jobs: Vec::new(),
            touched: Vec::new(),
        };
        make(&mut batch);
        batch.jobs
    }

    /// Puts requests, and publishes them together.
    pub fn put(&mut self, jobs: &[Job]) {
        for job in jobs {
            self.front.put(&job.wish.plain());
        }
        // The server looks without a notice.
        let _ = self.front.publish();
    }

    /// Takes a request that has to be started, and lets the guest do something between check and use.
    pub fn serve(&mut self, mut meanwhile: impl FnMut()) -> Result<(u64, u64), String> {
        match self.server.serve(&mut meanwhile)? {
            Some(Served::Written { checked, used }) => Ok((checked, used)),
            other => Err(format!("a sound write was not started: {other:?}")),
        }
    }

    /// The ids of all responses that are there.
    pub fn collect(&mut self) -> Vec<u64> {
        std::iter::from_fn(|| self.front.response())
            .map(|response| response.id)
            .collect()
    }

    /// How many sectors of the first and of the second zone's disk are not as they ought to be.
    pub fn lost(&self) -> Result<[usize; 2], String> {
        let lost = |slice| self.volume.lost(slice).map_err(|fault| fault.to_string());
        Ok([lost(&self.volume.first)?, lost(&self.volume.second)?])
    }
}

/// Who serves a guest on the volume, and the ring for it.
fn server(
    who: Who,
    volume: &Volume,
    frames: &Rc<Frames>,
) -> Result<(Box<dyn Server>, &'static GuestRing), String> {
    let first = &volume.first;
    let file = volume.file.try_clone().map_err(|fault| fault.to_string())?;
    let way = match who {
        Who::Ours(way) => way,
        Who::Old => {
            let ring = GuestRing::new();
            let worker = OldWorker {
                ring,
                frames: frames.clone(),
                volume: file,
                slice: first.begin..first.profile.sheet.sectors,
                req_cons: 0,
            };
            return Ok((Box::new(worker), ring));
        }
    };
    let (lent, rings) = Lent::new(way).map_err(|fault| fault.to_string())?;
    let port = Port::try_from(0).expect("there is one");
    let disk = Disk::slice(file, first.begin, &first.profile);
    let sheet = &first.profile.sheet;
    let ours = Ours::new(lent, port, sheet, rings[0], (frames.clone(), disk))?;
    Ok((Box::new(ours), rings[0]))
}

/// Where the start of a slot's request begins.
pub fn start_at(index: u32) -> usize {
    ABI.slot_at(Pages::One, index) + ABI.start_at()
}

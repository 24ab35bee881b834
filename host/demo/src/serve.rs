//! Who serves a guest in the incident: something that takes its requests, and the library as that.

use crate::disk::Disk;
use crate::frames::{grants, Frames};
use crate::host::join;
use crate::lent::Lent;
use frontend::GuestRing;
use kernelharp::layout::EXTENTS;
use kernelharp::{Name, Operation, Plan, Port, Reason, Run, Sheet, Turn};
use std::collections::VecDeque;
use std::rc::Rc;

/// What became of a request.
#[derive(Clone, Copy, Debug, PartialEq, Eq)]
pub enum Served {
    /// It failed its checks: nothing was moved.
    Refused,
    /// The guest's bytes were written, from a sector of its disk on.
    Written {
        /// The start that passed the checks.
        checked: u64,
        /// The start that the bytes went to.
        used: u64,
    },
}

/// A host of one guest.
pub trait Server {
    /// Takes a request and checks it, lets the guest do something meanwhile, and carries the request out.
    /// None waits: none is taken.
    fn serve(&mut self, meanwhile: &mut dyn FnMut()) -> Result<Option<Served>, String>;

    /// Answers a request that was carried out, the oldest one.
    fn answer(&mut self) -> Result<(), String>;
}

/// A host that goes by the library, the guest's disk a slice of a volume.
pub struct Ours {
    lent: Lent,
    frames: Rc<Frames>,
    disk: Disk,
    /// Carried out and not yet answered.
    ended: VecDeque<(Name, i32)>,
}

impl Ours {
    /// Opens the guest's port.
    pub fn new(
        mut lent: Lent,
        port: Port,
        sheet: &Sheet,
        ring: &'static GuestRing,
        (frames, disk): (Rc<Frames>, Disk),
    ) -> Result<Ours, String> {
        *lent.grants_mut(port) = grants();
        lent.open(port, sheet, ring)?;
        Ok(Ours {
            lent,
            frames,
            disk,
            ended: VecDeque::new(),
        })
    }

    fn carry_out(&mut self, plan: &Plan) -> Result<Served, String> {
        let mut runs = [Run::default(); EXTENTS];
        let runs = join(plan, &self.frames, &mut runs)?;
        let used = runs.first().map(|run| run.sector);
        let (Some(used), Operation::Write) = (used, plan.operation) else {
            return Err(format!("{plan} is no write"));
        };
        let result = self.disk.carry_out(plan, runs, &self.frames);
        self.ended.push_back((plan.name, result));
        Ok(Served::Written {
            checked: plan.start,
            used,
        })
    }
}

impl Server for Ours {
    fn serve(&mut self, meanwhile: &mut dyn FnMut()) -> Result<Option<Served>, String> {
        match self.lent.turn() {
            Turn::Idle => Ok(None),
            Turn::Started(plan) => {
                meanwhile();
                self.carry_out(&plan).map(Some)
            }
            Turn::Answered {
                reason: Reason::PastEnd,
                ..
            } => Ok(Some(Served::Refused)),
            other => Err(format!("a write was answered with {other}")),
        }
    }

    fn answer(&mut self) -> Result<(), String> {
        let (name, result) = self.ended.pop_front().ok_or("nothing to answer")?;
        let done = self.lent.complete(name, result);
        // The guest looks without a notice.
        done.map(drop)
            .map_err(|refusal| format!("completion of {name}: {refusal}"))
    }
}

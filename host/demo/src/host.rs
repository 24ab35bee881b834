//! The host: turns, the I/O of the plans, completions; opening, draining and closing ports.

use crate::disk::Disk;
use crate::frames::{grants, Frames};
use crate::lent::Lent;
use crate::link::{Link, State, BOUND};
use crate::profile::{Profile, Role};
use crate::report::{Counts, Progress};
use crate::waits::MOST_TURNS;
use frontend::EventChannel;
use generate::Random;
use kernelharp::layout::{ENTRIES, EXTENTS, PORTS};
use kernelharp::{
    Abi, Entry, Extent, Name, Operation, Pages, Plan, Port, Refusal, Run, Sheet, Status, Turn,
};

/// Turns in a row before the host goes on with the I/O.
const BURST: usize = 64;
/// Of a hundred calls that complete something, how many are made once more, or an old one is.
const DOUBLED: u64 = 10;
/// Turns of a billing period.
const PERIOD: u64 = 500;

/// The host of eight guests.
pub struct Host<'a> {
    backend: Lent,
    profiles: &'a [Profile],
    links: &'a [Link],
    bell: &'a EventChannel,
    disks: &'a mut [Disk],
    random: Random,
    /// Started and not yet carried out, by port, in the order of their starts.
    held: [Vec<Plan>; PORTS],
    /// One completed request of each port since its opening.
    past: [Option<Name>; PORTS],
    broken: [bool; PORTS],
    pub counts: Counts,
}

impl<'a> Host<'a> {
    pub fn new(
        profiles: &'a [Profile],
        links: &'a [Link],
        bell: &'a EventChannel,
        disks: &'a mut [Disk],
        backend: Lent,
        random: Random,
    ) -> Host<'a> {
        Host {
            backend,
            profiles,
            links,
            bell,
            disks,
            random,
            held: Default::default(),
            past: [None; PORTS],
            broken: [false; PORTS],
            counts: Counts::default(),
        }
    }

    /// Serves until every guest has finished.
    pub fn run(&mut self, progress: &mut Progress) -> Result<(), String> {
        loop {
            for port in Port::all() {
                self.attend(port)?;
            }
            let mut states = self.links.iter().map(Link::state);
            if states.all(|state| state == State::Finished) {
                self.bill(Port::all());
                return Ok(());
            }
            let idle = self.take_turns()?;
            self.carry_out_some()?;
            self.end_period_if_due();
            progress.show(self.links, &self.counts);
            // The backend's idle is that of a second look, so it is safe to sleep now.
            if idle && self.held.iter().all(Vec::is_empty) {
                self.counts.sleeps += 1;
                if !self.bell.wait(BOUND) {
                    return Err("the host slept, and nobody rang".to_string());
                }
            }
        }
    }

    /// Opens a port whose guest is ready, and closes one that is broken or no longer wanted.
    fn attend(&mut self, port: Port) -> Result<(), String> {
        let link = &self.links[port.index()];
        match link.state() {
            State::Initialised(abi, pages) => {
                self.open(port, abi, pages)?;
                link.go(State::Connected, &link.to_guest);
            }
            State::Connected if self.broken[port.index()] => {
                self.drain_and_close(port)?;
                link.go(State::Closed, &link.to_guest);
            }
            State::Closing => {
                self.drain_and_close(port)?;
                link.go(State::Finished, &link.to_guest);
            }
            State::Connected | State::Closed | State::Finished => {}
        }
        Ok(())
    }

    /// The disk is the host's to describe, the ring the guest's.
    fn open(&mut self, port: Port, abi: Abi, pages: Pages) -> Result<(), String> {
        let disk = self.profiles[port.index()].sheet;
        *self.backend.grants_mut(port) = grants();
        let sheet = Sheet { abi, pages, ..disk };
        self.backend
            .open(port, &sheet, self.links[port.index()].ring)?;
        // The hostile guest's indices tell nothing of its waits.
        if self.profiles[port.index()].role != Role::Hostile {
            self.counts.waits.open(port);
        }
        Ok(())
    }

    fn drain_and_close(&mut self, port: Port) -> Result<(), String> {
        self.carry_out(port, self.held[port.index()].len())?;
        let closed = self.backend.close(port);
        closed.map_err(|refusal| format!("close of {port}: {refusal}"))?;
        self.counts.waits.close(port);
        self.broken[port.index()] = false;
        // Serials begin anew: an old completion could name a new request.
        self.past[port.index()] = None;
        Ok(())
    }

    /// Takes turns until one is idle, or enough. Says whether one was idle.
    fn take_turns(&mut self) -> Result<bool, String> {
        for _ in 0..BURST {
            self.counts.turns += 1;
            self.counts.waits.look(self.links);
            match self.backend.turn() {
                Turn::Idle => {
                    self.counts.idle += 1;
                    return Ok(true);
                }
                Turn::Started(plan) => {
                    self.served(plan.name.port)?;
                    let port = plan.name.port.index();
                    check_boundaries(&plan, self.profiles[port].unit())?;
                    self.counts.ports[port].own.count_taken();
                    self.held[port].push(plan);
                }
                Turn::Answered {
                    port,
                    reason,
                    status,
                    notify,
                } => {
                    self.served(port)?;
                    self.counts.ports[port.index()].count_refused(reason, status);
                    self.notify_if(notify, port);
                }
                Turn::Overrun(port) => {
                    self.counts.ports[port.index()].overruns += 1;
                    self.broken[port.index()] = true;
                    return Ok(false);
                }
                other => return Err(format!("the host knows no such answer: {other}")),
            }
        }
        Ok(false)
    }

    /// Sees that a port did not wait too long for its turn.
    fn served(&mut self, port: Port) -> Result<(), String> {
        match self.counts.waits.serve(port) {
            0..=MOST_TURNS => Ok(()),
            turns => Err(format!("{port} waited for {turns} turns")),
        }
    }

    /// Does some of the I/O held, from any port.
    fn carry_out_some(&mut self) -> Result<(), String> {
        for port in Port::all() {
            let held = self.held[port.index()].len();
            let some = self.random.index(held + 1).max(held.min(1));
            self.carry_out(port, some)?;
        }
        Ok(())
    }

    /// Does so much of a port's I/O, and completes it in one call, as a disk's interrupt brings it.
    fn carry_out(&mut self, port: Port, plans: usize) -> Result<(), String> {
        let ended = (0..plans).map(|_| self.carry_out_one(port));
        let ended = ended.collect::<Result<Vec<Ended>, String>>()?;
        let Some((last, _)) = ended.last() else {
            return Ok(());
        };
        let (statuses, notify) = self.complete(port, &ended)?;
        let counts = &mut self.counts.ports[port.index()];
        counts.count_call(ended.len(), notify);
        for ((plan, result), status) in ended.iter().zip(statuses) {
            counts.count_completed(plan, *result, status);
        }
        self.notify_if(notify, port);
        if self.random.chance(DOUBLED) {
            self.complete_again(last.name)?;
            self.list_again(port, &ended)?;
        }
        Ok(())
    }

    /// Completes plans of a port: several by a list, one by itself. Gives their statuses, and whether to
    /// notify.
    fn complete(&mut self, port: Port, ended: &[Ended]) -> Result<(Vec<Status>, bool), String> {
        if let [(plan, result)] = ended {
            let done = self.backend.complete(plan.name, *result);
            let done = done.map_err(|refusal| format!("completion of {plan}: {refusal}"))?;
            return Ok((vec![done.status], done.notify));
        }
        let done = self.backend.complete_many(port, &entries(ended));
        let done = done.map_err(|refusal| format!("list of {port}: {refusal}"))?;
        Ok((done.statuses().to_vec(), done.notify))
    }

    /// Carries out one plan of a port that has some, in any order but across a barrier: what was
    /// started before a barrier is done before it, and what was started after it, after it.
    fn carry_out_one(&mut self, port: Port) -> Result<Ended, String> {
        let held = &mut self.held[port.index()];
        let is_barrier = |plan: &Plan| plan.operation == Operation::Barrier;
        let before = held.iter().position(is_barrier).unwrap_or(held.len());
        let plan = held.remove(self.random.index(before.max(1)));
        let frames = &self.links[port.index()].frames;
        let mut runs = [Run::default(); EXTENTS];
        let runs = join(&plan, frames, &mut runs)?;
        let result = self.disks[port.index()].carry_out(&plan, runs, frames);
        Ok((plan, result))
    }

    /// Completes a request a second time, and an older one too: both must be refused.
    fn complete_again(&mut self, newest: Name) -> Result<(), String> {
        let port = newest.port.index();
        let past = self.past[port].replace(newest);
        for name in past.into_iter().chain([newest]) {
            let doubled = self.backend.complete(name, 0);
            if doubled != Err(Refusal::NotBusy) {
                return Err(format!("{name} completed again: {doubled:?}"));
            }
            self.counts.ports[port].completions_refused += 1;
        }
        Ok(())
    }

    /// Makes a list a second time, with what has been started since in front of it: refused whole.
    fn list_again(&mut self, port: Port, ended: &[Ended]) -> Result<(), String> {
        let held = self.held[port.index()].first();
        let mut list: Vec<Entry> = held
            .map(|plan| Entry::of(plan.name, 0))
            .into_iter()
            .collect();
        list.extend(entries(&ended[..ended.len().min(ENTRIES - 1)]));
        let doubled = self.backend.complete_many(port, &list);
        if doubled != Err(Refusal::NotBusy) {
            return Err(format!("a list of {port} made again: {doubled:?}"));
        }
        self.counts.ports[port.index()].completions_refused += 1;
        Ok(())
    }

    /// Half of the ports are billed at the end of each period, with requests in flight and all, the
    /// others at the end of the run alone, over all their openings.
    fn end_period_if_due(&mut self) {
        if self.counts.turns >= PERIOD * (self.counts.periods + 1) {
            self.counts.periods += 1;
            self.bill(Port::all().step_by(2));
        }
    }

    /// Takes the ports' meters.
    fn bill(&mut self, ports: impl Iterator<Item = Port>) {
        for port in ports {
            let meter = self.backend.take_meter(port);
            self.counts.ports[port.index()].metered.add(&meter);
        }
    }

    fn notify_if(&self, notify: bool, port: Port) {
        if notify {
            self.links[port.index()].to_guest.notify();
        }
    }
}

/// A plan that was carried out, and the result to complete it with.
type Ended = (Plan, i32);

fn entries(ended: &[Ended]) -> Vec<Entry> {
    let entries = ended.iter();
    entries
        .map(|(plan, result)| Entry::of(plan.name, *result))
        .collect()
}

/// What lies together both in the machine and on the disk, for one disk call each.
pub fn join<'runs>(
    plan: &Plan,
    frames: &Frames,
    runs: &'runs mut [Run],
) -> Result<&'runs [Run], String> {
    let extents = plan.extents().iter();
    let machine_frames: Vec<u64> = extents.map(|it| frames.machine_frame(it.frame)).collect();
    let joined = plan.join(&machine_frames, runs);
    joined.map_err(|refusal| format!("joining of {plan}: {refusal}"))
}

/// No medium reads or writes a part of one of its sectors.
fn check_boundaries(plan: &Plan, unit: u64) -> Result<(), String> {
    let whole = |extent: &Extent| {
        let (first, length) = (extent.first_sector.into(), extent.length.into());
        [first, length, extent.disk_sector]
            .iter()
            .all(|number| number % unit == 0)
    };
    if plan.extents().iter().all(whole) {
        Ok(())
    } else {
        Err(format!("{plan} asks for parts of a sector"))
    }
}

#[cfg(test)]
mod tests {
    use super::*;
    use kernelharp::words::{extent, kind, turn, TURN_WORDS};

    /// A read of two extents.
    fn plan_of(extents: [[u64; extent::WORDS]; 2]) -> Plan {
        let mut words = [0; TURN_WORDS];
        (words[turn::KIND], words[turn::COUNT]) = (kind::STARTED, 8);
        words[turn::EXTENT_COUNT] = 2;
        words[turn::EXTENTS..][..2 * extent::WORDS].copy_from_slice(extents.as_flattened());
        let Some(Turn::Started(plan)) = Turn::from_words(&words) else {
            panic!("a start")
        };
        plan
    }

    #[test]
    fn a_plan_of_two_halves_is_found() {
        let plan = plan_of([[5, 0, 4, 0], [5, 4, 4, 4]]);
        check_boundaries(&plan, 4).unwrap();
        let fault = check_boundaries(&plan, 8).unwrap_err();
        assert!(fault.ends_with(" asks for parts of a sector"), "{fault}");
    }

    /// The lengths of the runs of two extents in frames 5 and 6, the first of which has a number.
    fn joined(number: u64, extents: [[u64; extent::WORDS]; 2]) -> Result<Vec<u64>, String> {
        let frames = Frames::new(number - 5, &mut Random::new(1));
        let mut runs = [Run::default(); EXTENTS];
        let joined = join(&plan_of(extents), &frames, &mut runs)?;
        Ok(joined.iter().map(|run| run.length).collect())
    }

    #[test]
    fn extents_of_neighbouring_frames_are_joined() {
        let whole = [[5, 0, 8, 0], [6, 0, 8, 8]];
        assert_eq!(joined(70, whole), Ok(vec![16]));
        // The machine's last frame has no next.
        assert_eq!(joined(u64::MAX, whole), Ok(vec![8, 8]));
        assert_eq!(joined(70, [[5, 0, 4, 0], [6, 0, 8, 4]]), Ok(vec![4, 8]));
    }

    #[test]
    fn a_plan_that_is_not_joined_is_a_fault() {
        let fault = joined(70, [[5, 0, 8, 0], [6, 0, 8, 9]]).unwrap_err();
        assert!(fault.starts_with("joining of port 0, "), "{fault}");
    }
}

//! One run: images, links, the host and its guests put together, and what must hold of them.

use crate::disk::Disk;
use crate::frames::{begin_of, Frames};
use crate::guest::{End, Guest};
use crate::host::Host;
use crate::hostile::Hostile;
use crate::lent::{Lent, Rings, Way};
use crate::link::{Link, State, BOUND};
use crate::pattern::Model;
use crate::profile::{profiles, Profile, Role};
use crate::report::{Checks, Counts, Progress};
use crate::tally::Tally;
use frontend::EventChannel;
use generate::Random;
use kernelharp::layout::PORTS;
use std::fs;
use std::path::Path;
use std::sync::atomic::Ordering;
use std::thread;

/// What a run is of.
#[derive(Clone, Copy, Debug)]
pub struct Course {
    pub way: Way,
    pub seed: u64,
    pub rounds: u64,
    /// Whether the hostile guest does anything.
    pub hostile: bool,
}

impl Course {
    /// A random source for each part of the run.
    fn random(&self, part: usize) -> Random {
        let run = self.seed.wrapping_mul(2).wrapping_add(self.way as u64);
        Random::new(run.wrapping_mul(16).wrapping_add(part as u64))
    }
}

/// What a run ends with.
#[derive(Debug, Default)]
pub struct Outcome {
    pub counts: Counts,
    pub ends: Vec<End>,
    /// Disk calls that moved bytes, and how many one to each extent would have been.
    pub calls: u64,
    pub extents: u64,
    /// Bytes of the images that were held against the guests' models.
    pub bytes: u64,
}

impl Outcome {
    /// What the guests checked, by port.
    pub fn checks(&self) -> impl Iterator<Item = &Checks> {
        self.ends.iter().map(|end| &end.checks)
    }
}

/// Runs it on images in a new folder. An error is a check that did not hold.
pub fn run(folder: &Path, course: Course) -> Result<Outcome, String> {
    let profiles = profiles();
    let models = models(course.seed, &profiles);
    fs::create_dir(folder).map_err(|fault| format!("{}: {fault}", folder.display()))?;
    let mut disks = disks(folder, &profiles, &models)?;
    let (counts, ends) = play(&profiles, &mut disks, models, course)?;
    check_secure(&counts, &ends)?;
    check_meters(&counts, &ends)?;
    let bytes = verify(&disks, &ends)?;
    fs::remove_dir_all(folder).map_err(|fault| format!("{}: {fault}", folder.display()))?;
    Ok(Outcome {
        bytes,
        calls: disks.iter().map(|disk| disk.calls).sum(),
        extents: disks.iter().map(|disk| disk.extents).sum(),
        counts,
        ends,
    })
}

/// Lets the guests live, each in a thread, and serves them in this one.
fn play(
    profiles: &[Profile],
    disks: &mut [Disk],
    models: Vec<Model>,
    course: Course,
) -> Result<(Counts, Vec<End>), String> {
    let (bell, mut progress) = (EventChannel::new(), Progress::new(course.rounds));
    let (backend, rings) = Lent::new(course.way).map_err(|fault| fault.to_string())?;
    let links = links(profiles, rings, course.random(PORTS + 1));
    let random = course.random(PORTS);
    let mut host = Host::new(profiles, &links, &bell, disks, backend, random);
    // A ring is set up before its port is opened.
    let mut players = Vec::new();
    for (port, model) in models.into_iter().enumerate() {
        players.push(Player::new(
            &profiles[port],
            (&links, port),
            &bell,
            model,
            course,
        )?);
    }
    let (served, ends) = thread::scope(|scope| {
        let guests: Vec<_> = players
            .into_iter()
            .map(|player| scope.spawn(move || player.run(course.rounds)))
            .collect();
        let served = host.run(&mut progress);
        let joined = guests.into_iter().map(|guest| guest.join());
        let panicked = || Err("a guest panicked".to_string());
        let ends: Vec<_> = joined
            .map(|end| end.unwrap_or_else(|_| panicked()))
            .collect();
        (served, ends)
    });
    progress.end();
    served?;
    let ends: Result<Vec<End>, String> = ends.into_iter().collect();
    Ok((host.counts, ends?))
}

/// The guests' connections, their frames spread over the machine's memory.
fn links(profiles: &[Profile], rings: Rings, mut random: Random) -> [Link; PORTS] {
    std::array::from_fn(|port| {
        let sheet = profiles[port].sheet;
        let frames = Frames::new(begin_of(port), &mut random);
        Link::new(rings[port], sheet.abi, sheet.pages, frames)
    })
}

/// A guest of any kind.
enum Player<'a> {
    Sound(Guest<'a>),
    Hostile(Hostile<'a>),
    /// Connects, and asks for nothing.
    Silent(&'a Link, &'a EventChannel),
}

impl<'a> Player<'a> {
    fn new(
        profile: &'a Profile,
        (links, port): (&'a [Link], usize),
        bell: &'a EventChannel,
        model: Model,
        course: Course,
    ) -> Result<Player<'a>, String> {
        let (link, random) = (&links[port], course.random(port));
        Ok(match profile.role {
            Role::Hostile if !course.hostile => Player::Silent(link, bell),
            Role::Hostile => {
                let ring = (profile.sheet.abi, profile.sheet.pages);
                Player::Hostile(Hostile::new(link, links, bell, ring, random))
            }
            _ => Player::Sound(Guest::new(profile, link, bell, model, random)?),
        })
    }

    fn run(self, rounds: u64) -> Result<End, String> {
        match self {
            Player::Sound(guest) => guest.run(rounds),
            Player::Hostile(hostile) => hostile.run(rounds),
            Player::Silent(link, bell) => {
                let opened = link.state() == State::Connected || link.to_guest.wait(BOUND);
                link.rounds.store(rounds, Ordering::Relaxed);
                link.go(State::Closing, bell);
                let opened = opened.then(End::default);
                opened.ok_or_else(|| "silent: its port was not opened".to_string())
            }
        }
    }
}

/// What the disks hold at first: zeros, or where nothing can be written, a pattern.
fn models(seed: u64, profiles: &[Profile]) -> Vec<Model> {
    let numbered = profiles.iter().enumerate();
    let models = numbered.map(|(port, profile)| {
        let version = u32::from(!profile.sheet.writable);
        Model::new(seed, port, profile.sheet.sectors, version)
    });
    models.collect()
}

fn disks(folder: &Path, profiles: &[Profile], models: &[Model]) -> Result<Vec<Disk>, String> {
    let mut disks = Vec::new();
    for (port, (profile, model)) in profiles.iter().zip(models).enumerate() {
        let path = folder.join(format!("disk-{port}"));
        let disk = Disk::create(&path, profile, model);
        disks.push(disk.map_err(|fault| format!("{}: {fault}", path.display()))?);
    }
    Ok(disks)
}

/// Holds the plans with the secure mark against the secure discards that the guests are due.
fn check_secure(counts: &Counts, ends: &[End]) -> Result<(), String> {
    for (port, (counts, end)) in counts.ports.iter().zip(ends).enumerate() {
        let (done, due) = (counts.secure, end.checks.secure);
        if end.model.is_some() && done != due {
            return Err(format!("port {port}: {done} secure discards, {due} due"));
        }
    }
    Ok(())
}

/// Holds what the meters said against the host's own count, and the guest's where it has one.
fn check_meters(counts: &Counts, ends: &[End]) -> Result<(), String> {
    for (port, (counts, end)) in counts.ports.iter().zip(ends).enumerate() {
        check_meter(port, counts.metered, "host", counts.own)?;
        if end.model.is_some() {
            check_meter(port, counts.metered, "guest", end.checks.own)?;
        }
    }
    Ok(())
}

fn check_meter(port: usize, metered: Tally, whose: &str, own: Tally) -> Result<(), String> {
    if metered == own {
        return Ok(());
    }
    Err(format!("meter {port}: {metered}; by its {whose}: {own}"))
}

/// Holds every image against its guest's model. Gives how many bytes were checked.
fn verify(disks: &[Disk], ends: &[End]) -> Result<u64, String> {
    let mut bytes = 0;
    for (port, (disk, end)) in disks.iter().zip(ends).enumerate() {
        let checked = disk.verify(end.model.as_ref());
        bytes += checked.map_err(|fault| format!("disk {port}: {fault}"))?;
    }
    Ok(bytes)
}

#[cfg(test)]
mod tests {
    use super::*;
    use crate::Folder;

    const COURSE: Course = Course {
        way: Way::Pages,
        seed: 1,
        rounds: 3,
        hostile: true,
    };

    /// Guests that have checked nothing.
    fn ends() -> Vec<End> {
        let models = models(1, &profiles()).into_iter();
        let ends = models.map(|model| End {
            model: Some(model),
            ..End::default()
        });
        ends.collect()
    }

    /// The images hold another pattern than the guests know of.
    #[test]
    fn a_guest_finds_bytes_that_it_did_not_write() {
        let (folder, profiles) = (Folder::new("bytes").unwrap(), profiles());
        let others = models(2, &profiles);
        let mut disks = disks(&folder.0, &profiles, &others).unwrap();
        let played = play(&profiles, &mut disks, models(1, &profiles), COURSE);
        let fault = played.expect_err("the images are others");
        assert!(fault.starts_with("read-only: sector"), "{fault}");
    }

    #[test]
    fn a_meter_is_found_that_says_something_else() {
        let numbers: [fn(&mut Tally) -> &mut u64; 4] = [
            |tally| &mut tally.0.taken,
            |tally| &mut tally.0.okay,
            |tally| &mut tally.0.error,
            |tally| &mut tally.0.not_supported,
        ];
        for number in numbers {
            let (mut ends, mut counts) = (ends(), Counts::default());
            check_meters(&counts, &ends).unwrap();
            *number(&mut counts.ports[5].metered) += 1;
            let fault = check_meters(&counts, &ends).unwrap_err();
            assert!(fault.starts_with("meter 5: ") && fault.contains("; by its host: "));
            *number(&mut counts.ports[5].own) += 1;
            let fault = check_meters(&counts, &ends).unwrap_err();
            assert!(fault.starts_with("meter 5: ") && fault.contains("; by its guest: "));
            *number(&mut ends[5].checks.own) += 1;
            check_meters(&counts, &ends).unwrap();
            // A hostile guest counts nothing.
            ends[5] = End::default();
            check_meters(&counts, &ends).unwrap();
        }
    }

    #[test]
    fn a_secure_discard_is_found_that_is_not_due() {
        let (mut ends, mut counts) = (ends(), Counts::default());
        check_secure(&counts, &ends).unwrap();
        counts.ports[3].secure = 1;
        ends[3].checks.secure_as_plain = 1;
        let fault = check_secure(&counts, &ends).unwrap_err();
        assert_eq!(fault, "port 3: 1 secure discards, 0 due");
        // A hostile guest counts nothing.
        ends[3].model = None;
        check_secure(&counts, &ends).unwrap();
    }

    /// The host's medium has a bad sector that the guest does not know of.
    #[test]
    fn a_guest_finds_a_status_that_is_not_due() {
        let (folder, known, mut real) = (Folder::new("status").unwrap(), profiles(), profiles());
        real[0].bad = 0..1;
        let models = models(1, &known);
        let mut disks = disks(&folder.0, &real, &models).unwrap();
        let played = play(&known, &mut disks, models, COURSE);
        let fault = played.expect_err("a sector is bad");
        assert!(fault.starts_with("board, first zone: Response"), "{fault}");
    }
}

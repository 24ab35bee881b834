//! The same change in a race: a thread changes the start of each write between two values, as fast as it
//! can, while turns run over the page. A plan may only have the one that passes the checks.

use crate::batch::{Job, WRITE};
use crate::frames::FRAME_SECTORS;
use crate::lent::Way;
use crate::scene::{start_at, Scene};
use crate::serve::Served;
use frontend::GuestRing;
use std::hint;
use std::sync::atomic::{AtomicBool, AtomicU64, AtomicUsize, Ordering};
use std::thread;
use std::time::{Duration, Instant};

/// Requests to a round, and in all.
const RACES: u64 = 10;
const MOST_RACES: u64 = 10_000;
/// How long they may take, each: a tenth of them is to change amid the call, and the thread that changes
/// them does not always run at the same time.
const PATIENCE: Duration = Duration::from_micros(30);
/// So many in a row.
const HEAT: u64 = 500;
/// How often it is looked whether a start has changed.
const LOOKS: usize = 500;
/// Where they begin. Only one byte of it differs from the disk's end, so no mixture of both is a third
/// sector.
const RACE_START: u64 = 2560;

/// Has so many of them that it fits the demo's rounds, and tells of it.
pub fn race(scene: &mut Scene, rounds: u64) -> Result<String, String> {
    let least = MOST_RACES.min(rounds.saturating_mul(RACES));
    let writes = RACE_START..RACE_START + FRAME_SECTORS as u64;
    let jobs = scene.make(|batch| batch.add_range(WRITE, writes));
    let changer = Changer {
        ring: scene.ring,
        starts: [RACE_START, scene.volume.second.begin].map(|start| start as u32),
        at: AtomicUsize::new(start_at(0)),
        changes: AtomicU64::new(0),
        over: AtomicBool::new(false),
    };
    let [mut races, mut amid, mut written] = [0; 3];
    let (begin, patience) = (Instant::now(), PATIENCE * least as u32);
    while races < least || amid < least / 10 && begin.elapsed() < patience {
        let heat = race_some(scene, &changer, &jobs, races)?;
        races += heat[0];
        amid += heat[1];
        written += heat[2];
    }
    match scene.lost()? {
        [0, 0] => Ok(format!(
            "   {:<15} {races} writes whose starts change to and fro, {amid} of them amid the call:\n   \
             {:<15} {written} done at {RACE_START}, {} refused as past the end, none elsewhere",
            Way::Pages,
            "",
            races - written
        )),
        [own, others] => Err(format!("a race lost {own} and {others} sectors")),
    }
}

/// What the thread that changes a start goes by.
struct Changer {
    ring: &'static GuestRing,
    starts: [u32; 2],
    /// Where the start is.
    at: AtomicUsize,
    changes: AtomicU64,
    over: AtomicBool,
}

impl Changer {
    fn run(&self) {
        while !self.over.load(Ordering::Relaxed) {
            let number = self.changes.fetch_add(1, Ordering::Relaxed);
            let at = self.at.load(Ordering::Relaxed);
            self.ring.store(at, self.starts[number as usize % 2]);
        }
    }

    fn count(&self) -> u64 {
        self.changes.load(Ordering::Relaxed)
    }

    /// Has it change another slot's start, and waits a little until it does.
    fn turn_to(&self, index: u32) {
        self.at.store(start_at(index), Ordering::Relaxed);
        let seen = self.count();
        let mut looks = (0..LOOKS).map(|_| hint::spin_loop());
        while self.count() < seen + 2 && looks.next().is_some() {}
    }
}

/// Some of them, with a new thread, which may get another processor than the last one: how many there
/// were, how many of them changed amid the call, and how many were started.
fn race_some(
    scene: &mut Scene,
    changer: &Changer,
    jobs: &[Job],
    first: u64,
) -> Result<[u64; 3], String> {
    changer.over.store(false, Ordering::Relaxed);
    thread::scope(|scope| {
        scope.spawn(|| changer.run());
        let [mut amid, mut written] = [0; 2];
        let raced = (first..first + HEAT).try_for_each(|number| {
            scene.put(jobs);
            changer.turn_to(number as u32);
            let (started, changed) = race_one(scene, changer)?;
            written += u64::from(started);
            amid += u64::from(changed);
            Ok(())
        });
        changer.over.store(true, Ordering::Relaxed);
        raced.map(|()| [HEAT, amid, written])
    })
}

/// Serves one such write. Says whether it was started, and whether its start changed during the call.
fn race_one(scene: &mut Scene, changer: &Changer) -> Result<(bool, bool), String> {
    let (before, mut after) = (changer.count(), None);
    let served = scene.server.serve(&mut || after = Some(changer.count()))?;
    let changed = after.unwrap_or_else(|| changer.count()) > before;
    let written = match served {
        Some(Served::Refused) => false,
        Some(Served::Written {
            checked: RACE_START,
            used: RACE_START,
        }) => true,
        _ => return Err(format!("a start that changes: {served:?}")),
    };
    if written {
        scene.server.answer()?;
    }
    match scene.collect().len() {
        1 => Ok((written, changed)),
        responses => Err(format!("a start that changes has {responses} responses")),
    }
}

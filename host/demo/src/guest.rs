//! A guest that keeps the rules of the ring and checks everything it gets back.

use crate::batch::{Batch, Job, READ, WRITE};
use crate::front::{Front, Response};
use crate::link::{Link, State, BOUND};
use crate::pace::Pace;
use crate::pattern::Model;
use crate::profile::{Profile, Role};
use crate::report::Checks;
use frontend::EventChannel;
use generate::Random;
use kernelharp::{Refusal, Status};
use std::collections::HashMap;
use std::sync::atomic::Ordering;
use std::time::Instant;

/// Rounds of a day.
const HOURS: u64 = 24;

/// What a guest ends with.
#[derive(Debug, Default)]
pub struct End {
    pub checks: Checks,
    /// What its disk must hold; none of a guest that does not say.
    pub model: Option<Model>,
    pub pace: Pace,
}

/// Requests that have no response yet, by id, and when they were put.
type Due = HashMap<u64, (Job, Instant)>;

/// A guest with its idea of its disk.
pub struct Guest<'a> {
    profile: &'a Profile,
    link: &'a Link,
    to_host: &'a EventChannel,
    front: Front,
    model: Model,
    random: Random,
    next_id: u64,
    checks: Checks,
    pace: Pace,
}

impl<'a> Guest<'a> {
    /// A guest with its ring set up, for a host that has not opened its port yet.
    pub fn new(
        profile: &'a Profile,
        link: &'a Link,
        to_host: &'a EventChannel,
        model: Model,
        mut random: Random,
    ) -> Result<Guest<'a>, String> {
        let front = Front::new(link.ring, profile);
        Ok(Guest {
            profile,
            link,
            to_host,
            front: front.map_err(|fault| fault.to_string())?,
            model,
            next_id: random.word(),
            random,
            checks: Checks::default(),
            pace: Pace::default(),
        })
    }

    /// Lives for some rounds, then asks the host to close the port.
    pub fn run(mut self, rounds: u64) -> Result<End, String> {
        let begin = Instant::now();
        let lived = (0..rounds).try_for_each(|round| {
            self.link.rounds.store(round, Ordering::Relaxed);
            self.round(round)
        });
        self.pace.lived = begin.elapsed();
        self.link.go(State::Closing, self.to_host);
        lived.map_err(|fault| format!("{}: {fault}", self.profile.name))?;
        Ok(End {
            checks: self.checks,
            model: Some(self.model),
            pace: self.pace,
        })
    }

    fn round(&mut self, round: u64) -> Result<(), String> {
        match self.profile.role {
            Role::Board { .. } if round == 0 => self.save_scores(),
            Role::Board { roll_hour } if round % HOURS == roll_hour => self.roll_day(),
            _ => self.exchange(|batch| loop {
                batch.add_any();
                if batch.is_full() || batch.random.chance(4) {
                    break;
                }
            }),
        }
    }

    fn save_scores(&mut self) -> Result<(), String> {
        let floor = self.profile.floor();
        self.exchange(|batch| batch.add_range(WRITE, 0..floor))
    }

    /// Writes the whole board anew, then sees that board and saved scores are as they should be.
    fn roll_day(&mut self) -> Result<(), String> {
        let (floor, end) = (self.profile.floor(), self.profile.sheet.sectors);
        self.exchange(|batch| {
            batch.add_range(WRITE, floor..end);
            batch.add_flush();
        })?;
        self.exchange(|batch| batch.add_range(READ, 0..end))?;
        self.checks.days_rolled += 1;
        Ok(())
    }

    /// Makes requests, publishes them a few at a time, and collects every response.
    fn exchange(&mut self, make: impl FnOnce(&mut Batch)) -> Result<(), String> {
        let mut batch = Batch {
            profile: self.profile,
            model: &mut self.model,
            frames: &self.link.frames,
            random: &mut self.random,
            next_id: &mut self.next_id,
            jobs: Vec::new(),
            touched: Vec::new(),
        };
        make(&mut batch);
        let jobs = batch.jobs;
        let slots = self.profile.slots();
        assert!(jobs.len() <= slots, "a round is one ring at most");
        let (mut lot, all, mut due) = (0, jobs.len(), Due::new());
        for (number, job) in jobs.into_iter().enumerate() {
            let now = Instant::now();
            if self.put(&job)? {
                due.insert(job.wish.id, (job, now));
            }
            if lot == 0 {
                lot = 1 + self.random.index(all - number);
            }
            lot -= 1;
            if lot == 0 && self.front.publish() {
                self.to_host.notify();
            }
        }
        self.collect(due)
    }

    /// Puts a request, or sees that one is refused which no backend would carry out. Says whether a
    /// response is due.
    fn put(&mut self, job: &Job) -> Result<bool, String> {
        match self.front.put(&job.wish) {
            Ok(()) if job.malformed && self.front.is_library() => {
                Err(format!("{} was put, and is malformed", job.wish.id))
            }
            Ok(()) => {
                self.checks.own.count_taken();
                self.checks.put_by_library += u64::from(self.front.is_library());
                Ok(true)
            }
            Err(Refusal::BadRequest) if job.malformed => {
                self.checks.refused_by_library += 1;
                self.checks.bytes += job.check(&self.link.frames, &self.model)?;
                Ok(false)
            }
            Err(refusal) => Err(format!("{} was not put: {refusal}", job.wish.id)),
        }
    }

    /// Sleeps until each request has its one response, and checks it.
    fn collect(&mut self, mut due: Due) -> Result<(), String> {
        loop {
            while let Some(response) = self.front.collect()? {
                let Some((job, put)) = due.remove(&response.id) else {
                    return Err(format!("{response:?} has no request, or a second time"));
                };
                self.pace.note(put);
                self.check(&job, &response)?;
            }
            if due.is_empty() {
                return Ok(());
            }
            if !self.link.to_guest.wait(BOUND) {
                return Err(format!("{} requests have no response", due.len()));
            }
        }
    }

    fn check(&mut self, job: &Job, response: &Response) -> Result<(), String> {
        let due = Response {
            id: response.id,
            operation: job.wish.operation,
            status: job.status as i16,
        };
        if *response != due {
            return Err(format!("{response:?} in place of {due:?}"));
        }
        self.checks.bytes += job.check(&self.link.frames, &self.model)?;
        self.checks.own.count_answer(job.status);
        if job.wish.is_secure() && job.status == Status::Okay {
            self.checks.count_secure(&self.profile.sheet);
        }
        Ok(())
    }
}

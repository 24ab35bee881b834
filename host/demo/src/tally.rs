//! The four numbers of a meter, counted beside it or added up from several.

use kernelharp::{Meter, Status};
use std::fmt;

/// Such numbers.
#[derive(Clone, Copy, Debug, Default, PartialEq, Eq)]
pub struct Tally(pub Meter);

impl Tally {
    pub fn count_taken(&mut self) {
        self.0.taken += 1;
    }

    pub fn count_answer(&mut self, status: Status) {
        match status {
            Status::Okay => self.0.okay += 1,
            Status::Error => self.0.error += 1,
            Status::NotSupported => self.0.not_supported += 1,
        }
    }

    pub fn add(&mut self, meter: &Meter) {
        self.0.taken += meter.taken;
        self.0.okay += meter.okay;
        self.0.error += meter.error;
        self.0.not_supported += meter.not_supported;
    }

    /// Answers of any status.
    pub fn answers(&self) -> u64 {
        self.0.okay + self.0.error + self.0.not_supported
    }
}

impl fmt::Display for Tally {
    fn fmt(&self, f: &mut fmt::Formatter) -> fmt::Result {
        self.0.fmt(f)
    }
}

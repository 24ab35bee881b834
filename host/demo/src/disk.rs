//! A disk image in a file, and what a plan does to it.

use crate::frames::Frames;
use crate::pattern::{Model, SECTOR};
use crate::profile::Profile;
use kernelharp::{Operation, Plan, Run};
use std::fs::{File, OpenOptions};
use std::io;
use std::ops::Range;
use std::os::unix::fs::FileExt;
use std::path::Path;

/// Sectors behind each disk that no request may reach.
const GUARD_SECTORS: u64 = 64;
const GUARD_BYTE: u8 = 0x5A;
/// The largest plan that moves bytes: eleven frames.
const MOST_BYTES: usize = 11 * 8 * SECTOR;

/// Results of a completion that are no count.
const INPUT_OUTPUT_ERROR: i32 = -5;
const NOT_SUPPORTED: i32 = -95;

/// A disk in a file: an image, behind which is the guard, or a slice of a volume.
pub struct Disk {
    file: File,
    /// The sector of the file that the disk begins with.
    begin: u64,
    sectors: u64,
    discards: bool,
    bad: Range<u64>,
    /// Where bytes rest between the file and frames that the guest can write.
    buffer: Vec<u8>,
    /// Calls that moved bytes to or from the medium, one to a run, and how many one to an extent would
    /// have been.
    pub calls: u64,
    pub extents: u64,
}

impl Disk {
    /// A new image that holds what the guest expects of it.
    pub fn create(path: &Path, profile: &Profile, model: &Model) -> io::Result<Disk> {
        let mut options = OpenOptions::new();
        let file = options.read(true).write(true).create_new(true).open(path)?;
        let disk = Disk::slice(file, 0, profile);
        disk.file.write_all_at(&model.bytes(), 0)?;
        let guard = vec![GUARD_BYTE; offset(GUARD_SECTORS) as usize];
        disk.file.write_all_at(&guard, offset(disk.sectors))?;
        Ok(disk)
    }

    /// A disk that is a part of a file.
    pub fn slice(file: File, begin: u64, profile: &Profile) -> Disk {
        Disk {
            file,
            begin,
            sectors: profile.sheet.sectors,
            discards: profile.discards,
            bad: profile.bad.clone(),
            buffer: vec![0; MOST_BYTES],
            calls: 0,
            extents: 0,
        }
    }

    /// Does what a plan asks for, moves its bytes run by run, and gives the result to complete it with.
    pub fn carry_out(&mut self, plan: &Plan, runs: &[Run], frames: &Frames) -> i32 {
        if plan.start < self.bad.end && self.bad.start < plan.start + plan.count {
            return INPUT_OUTPUT_ERROR;
        }
        self.extents += plan.extents().len() as u64;
        let done = match plan.operation {
            Operation::Read => self.read(runs, frames),
            Operation::Write | Operation::Barrier => self.write(runs, frames),
            Operation::Flush => self.file.sync_data(),
            Operation::Discard if self.discards => self.zero(plan),
            // A medium without discards, and operations that this host does not know.
            _ => return NOT_SUPPORTED,
        };
        match done {
            Ok(()) => plan.expected_result(),
            Err(_) => INPUT_OUTPUT_ERROR,
        }
    }

    fn read(&mut self, runs: &[Run], frames: &Frames) -> io::Result<()> {
        for run in runs {
            let bytes = &mut self.buffer[..offset(run.length) as usize];
            self.calls += 1;
            let at = offset(self.begin + run.sector);
            self.file.read_exact_at(bytes, at)?;
            frames.write_machine(run.frame, run.first, bytes);
        }
        Ok(())
    }

    fn write(&mut self, runs: &[Run], frames: &Frames) -> io::Result<()> {
        for run in runs {
            let bytes = &mut self.buffer[..offset(run.length) as usize];
            frames.read_machine(run.frame, run.first, bytes);
            self.calls += 1;
            let at = offset(self.begin + run.sector);
            self.file.write_all_at(bytes, at)?;
        }
        Ok(())
    }

    /// A discard, secure or not: zeros are written over what was there.
    fn zero(&self, plan: &Plan) -> io::Result<()> {
        let zeros = vec![0; offset(plan.count) as usize];
        self.file
            .write_all_at(&zeros, offset(self.begin + plan.start))
    }

    /// Of an image: checks the guard and, where there is a model, each byte of the disk. Gives how many bytes
    /// were checked.
    pub fn verify(&self, model: Option<&Model>) -> Result<u64, String> {
        let sectors = self.sectors + GUARD_SECTORS;
        let length = self.file.metadata().map_err(|fault| fault.to_string())?;
        if length.len() != offset(sectors) {
            return Err(format!("an image has {} bytes", length.len()));
        }
        let first = if model.is_some() { 0 } else { self.sectors };
        let mut bytes = [0; SECTOR];
        for sector in first..sectors {
            let read = self.file.read_exact_at(&mut bytes, offset(sector));
            read.map_err(|fault| fault.to_string())?;
            let sound = match model {
                Some(model) if sector < self.sectors => {
                    model.holds(sector, model.versions(sector, 1)[0], &bytes)
                }
                _ => bytes == [GUARD_BYTE; SECTOR],
            };
            if !sound {
                return Err(format!("sector {sector} of an image is not as written"));
            }
        }
        Ok(offset(sectors - first))
    }
}

pub fn offset(sectors: u64) -> u64 {
    sectors * SECTOR as u64
}

//! A volume with the disks of the two boards on it, one behind the other.

use crate::disk::offset;
use crate::pattern::{Model, SECTOR};
use crate::profile::{profiles, Profile};
use std::fs::{self, File, OpenOptions};
use std::io;
use std::os::unix::fs::FileExt;
use std::path::Path;

/// A board's part of the volume.
pub struct Slice {
    pub profile: Profile,
    pub model: Model,
    /// The sector of the volume that it begins with.
    pub begin: u64,
}

/// The volume: saved scores and the board of one day for each zone.
pub struct Volume {
    pub file: File,
    pub first: Slice,
    pub second: Slice,
}

impl Volume {
    pub fn create(path: &Path, seed: u64) -> io::Result<Volume> {
        let mut options = OpenOptions::new();
        let file = options.read(true).write(true).create_new(true).open(path)?;
        // It goes away with its last user, before anything of it is on the medium.
        fs::remove_file(path)?;
        let [first, second, ..] = profiles();
        let begin = first.sheet.sectors;
        let slice = |profile: Profile, port, begin| Slice {
            model: Model::new(seed, port, profile.sheet.sectors, 1),
            profile,
            begin,
        };
        let volume = Volume {
            file,
            first: slice(first, 0, 0),
            second: slice(second, 1, begin),
        };
        for slice in [&volume.first, &volume.second] {
            let bytes = slice.model.bytes();
            volume.file.write_all_at(&bytes, offset(slice.begin))?;
        }
        Ok(volume)
    }

    /// How many sectors of a slice are not as its model says.
    pub fn lost(&self, slice: &Slice) -> io::Result<usize> {
        let due = slice.model.bytes();
        let mut bytes = vec![0; due.len()];
        self.file.read_exact_at(&mut bytes, offset(slice.begin))?;
        let pairs = due.chunks(SECTOR).zip(bytes.chunks(SECTOR));
        Ok(pairs.filter(|(due, bytes)| due != bytes).count())
    }

    /// How many sectors from one of the volume on, of so many, hold what the first board has from one of
    /// its own sectors on.
    pub fn copies_of_first(&self, at: u64, own: u64, count: u64) -> io::Result<usize> {
        let mut found = 0;
        let (model, mut bytes) = (&self.first.model, [0; SECTOR]);
        for ahead in 0..count {
            self.file.read_exact_at(&mut bytes, offset(at + ahead))?;
            let version = model.versions(own + ahead, 1)[0];
            found += usize::from(model.holds(own + ahead, version, &bytes));
        }
        Ok(found)
    }
}

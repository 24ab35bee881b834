//! What disks hold: every sector's bytes follow from the seed, the port, its place and its version.

use generate::Random;

/// Sectors have 512 bytes, whatever a disk's sector size.
pub const SECTOR: usize = 512;

/// A guest's idea of its disk: the version of each sector, 0 for zeros.
#[derive(Clone, Debug)]
pub struct Model {
    key: u64,
    versions: Vec<u32>,
    newest: u32,
}

impl Model {
    /// A disk with one version everywhere.
    pub fn new(seed: u64, port: usize, sectors: u64, version: u32) -> Model {
        Model {
            key: Random::new(seed).word() ^ (port as u64) << 60,
            versions: vec![version; sectors as usize],
            newest: version,
        }
    }

    pub fn sectors(&self) -> u64 {
        self.versions.len() as u64
    }

    /// The versions of a range.
    pub fn versions(&self, start: u64, count: u64) -> &[u32] {
        &self.versions[start as usize..][..count as usize]
    }

    /// A version that no sector has had.
    pub fn fresh(&mut self) -> u32 {
        self.newest += 1;
        self.newest
    }

    /// Notes that a range has a version now.
    pub fn set(&mut self, start: u64, count: u64, version: u32) {
        self.versions[start as usize..][..count as usize].fill(version);
    }

    /// The bytes of a sector in a version.
    pub fn fill(&self, sector: u64, version: u32, bytes: &mut [u8]) {
        if version == 0 {
            bytes.fill(0);
        } else {
            let place = sector << 32 | u64::from(version);
            Random::new(self.key ^ place.wrapping_mul(0xD6E8_FEB8_6659_FD93)).fill(bytes);
        }
    }

    /// All bytes of the disk.
    pub fn bytes(&self) -> Vec<u8> {
        let mut bytes = vec![0; self.versions.len() * SECTOR];
        let sectors = (0..).zip(bytes.chunks_exact_mut(SECTOR));
        for ((sector, bytes), &version) in sectors.zip(&self.versions) {
            self.fill(sector, version, bytes);
        }
        bytes
    }

    /// Whether a sector's bytes are those of a version.
    pub fn holds(&self, sector: u64, version: u32, bytes: &[u8]) -> bool {
        let mut due = [0; SECTOR];
        self.fill(sector, version, &mut due);
        bytes == due
    }
}

//! Copies between live words and private bytes.

use crate::ffi::{Mapping, WORD_BYTES};
use crate::layout::{read_u32, write_u32, PAGE_BYTES};

/// Words that the other side may write at the same time, each at a multiple of four.
pub(super) trait Live {
    /// The word at a place, as the page's bytes have it.
    fn load(&self, at: usize) -> u32;

    /// Writes the word at a place.
    fn store(&self, at: usize, word: u32);

    /// The number in the word at a place.
    fn number(&self, at: usize) -> u32 {
        u32::from_le(self.load(at))
    }

    /// Copies so many bytes in, from a multiple of four on; each word is loaded once.
    fn copy_in(&self, at: usize, bytes: usize, private: &mut [u8]) {
        for at in words_of(at, bytes) {
            write_u32(private, at, self.number(at));
        }
    }

    /// Copies so many bytes out, from a multiple of four on.
    fn copy_out(&self, at: usize, bytes: usize, private: &[u8]) {
        for at in words_of(at, bytes) {
            self.store(at, read_u32(private, at).to_le());
        }
    }
}

impl Live for Mapping {
    fn load(&self, at: usize) -> u32 {
        Mapping::load(self, at)
    }

    fn store(&self, at: usize, word: u32) {
        Mapping::store(self, at, word);
    }
}

/// The pages of a ring in their order. Each is mapped wherever it is: what goes on from one page to the
/// next in the ring need not do so in memory.
impl Live for [Mapping] {
    fn load(&self, at: usize) -> u32 {
        self[at / PAGE_BYTES].load(at % PAGE_BYTES)
    }

    fn store(&self, at: usize, word: u32) {
        self[at / PAGE_BYTES].store(at % PAGE_BYTES, word);
    }
}

/// Where the words of so many bytes begin.
fn words_of(at: usize, bytes: usize) -> impl Iterator<Item = usize> {
    (at..at + bytes).step_by(WORD_BYTES)
}

//! One entry of a list of completions, as it is handed in (rules 6.17 and 14.14).

use crate::terms::Refusal;

/// The words of an entry.
const WORDS: usize = 3;

/// What an entry names, and the host's result: numbers of 64 bits, which need not fit anything.
pub struct Entry {
    pub tag: u64,
    pub serial: u64,
    pub result: i64,
}

impl Entry {
    fn read(words: &[u64]) -> Entry {
        Entry {
            tag: words[0],
            serial: words[1],
            // Two's complement.
            result: words[2] as i64,
        }
    }

    /// The entries that words are, or refusal 1.
    pub fn read_all(words: &[u64]) -> Result<Vec<Entry>, Refusal> {
        let entries = words.chunks_exact(WORDS);
        if !entries.remainder().is_empty() {
            return Err(Refusal::WrongLength);
        }
        Ok(entries.map(Entry::read).collect())
    }
}

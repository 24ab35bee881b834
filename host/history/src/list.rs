//! Lists of completions: what their entries name, and what their answer tells.

use crate::places::{many, ENTRY_WORDS, MANY_WORDS};

/// The tag and the serial that an entry names, as they were handed in.
pub type Name = (u64, u64);

/// What the entries of a list name, in its order; nothing of words that are no whole entries.
pub fn names(words: &[u64]) -> Option<Vec<Name>> {
    let entries = words.chunks_exact(ENTRY_WORDS);
    let whole = entries.remainder().is_empty();
    whole.then(|| entries.map(|entry| (entry[0], entry[1])).collect())
}

/// The answer tells of so many responses as there are entries, and of each the status that it has in the
/// page (rule 12.33).
pub fn check_told(statuses: &[u16], answer: &[u64; MANY_WORDS]) -> Result<(), String> {
    let (told, due) = (answer[many::COUNT], statuses.len());
    if told != due as u64 {
        return Err(format!("the answer of {due} entries tells of {told}"));
    }
    for (at, (status, told)) in statuses.iter().zip(&answer[many::STATUSES..]).enumerate() {
        // Without its sign, as the answer has it.
        let magnitude = u64::from(status.wrapping_neg());
        if magnitude != *told {
            return Err(format!(
                "entry {at} has the status -{magnitude} in the page, the answer tells -{told}"
            ));
        }
    }
    Ok(())
}

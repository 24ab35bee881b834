//! A port's counters (section 15): what an answer raises in the host's record.

use crate::answers::{Done, DoneMany, Turned};
use crate::layout::ENTRIES;
use crate::terms::{Refusal, Status};

/// Rule 15.1: a record, which is the host's. No backend knows of it.
#[derive(Clone, Copy, Debug, Default, PartialEq, Eq)]
pub struct Meter {
    /// Requests taken.
    pub taken: u64,
    /// Answers with the status 0.
    pub okay: u64,
    /// Answers with the status -1.
    pub error: u64,
    /// Answers with the status -2.
    pub not_supported: u64,
}

impl Meter {
    /// Rule 15.4, of a turn.
    pub fn turn(&mut self, answer: &Result<Turned, Refusal>) {
        match answer {
            Ok(Turned::Started(_)) => raise(&mut self.taken),
            Ok(Turned::Answered { status, .. }) => {
                raise(&mut self.taken);
                self.answer(*status);
            }
            Ok(Turned::Idle | Turned::Overrun { .. }) | Err(_) => {}
        }
    }

    /// Rule 15.4, of a completion.
    pub fn completion(&mut self, answer: &Result<Done, Refusal>) {
        if let Ok(done) = answer {
            self.answer(done.status);
        }
    }

    /// Rule 15.4, of each completion of a list.
    pub fn many(&mut self, answer: &Result<DoneMany, Refusal>) {
        if let Ok(done) = answer {
            for status in &done.statuses {
                self.answer(*status);
            }
        }
    }

    /// Rules 15.10 and 15.11, of a turn: what it returned, and words of any kind.
    pub fn turn_words(&mut self, returned: u32, words: &[u64; 64]) {
        match (returned, words[0]) {
            (0, 1) => raise(&mut self.taken),
            (0, 2) => {
                raise(&mut self.taken);
                self.answer_word(words[10]);
            }
            _ => {}
        }
    }

    /// Rules 15.10 and 15.11, of a completion.
    pub fn completion_words(&mut self, returned: u32, words: &[u64; 4]) {
        if returned == 0 {
            self.answer_word(words[1]);
        }
    }

    /// Rule 15.12: of the statuses there is room for, as many as the answer says.
    pub fn many_words(&mut self, returned: u32, words: &[u64; 4 + ENTRIES]) {
        if returned == 0 {
            let said = usize::try_from(words[1]).unwrap_or(usize::MAX);
            for word in words[4..].iter().take(said) {
                self.answer_word(*word);
            }
        }
    }

    /// A status without its sign, or some other word, which raises nothing.
    fn answer_word(&mut self, word: u64) {
        match word {
            0 => self.answer(Status::Okay),
            1 => self.answer(Status::Error),
            2 => self.answer(Status::NotSupported),
            _ => {}
        }
    }

    fn answer(&mut self, status: Status) {
        raise(match status {
            Status::Okay => &mut self.okay,
            Status::Error => &mut self.error,
            Status::NotSupported => &mut self.not_supported,
        });
    }
}

/// Rule 15.2.
fn raise(number: &mut u64) {
    *number = number.saturating_add(1);
}

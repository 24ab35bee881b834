//! The records of both programs' hosts: each answer goes to that of its port (rule 15.3).

use generate::{meter_of, numbers};
use history::Record;
use kernelharp::layout::PORTS;
use kernelharp::words::{DoneWords, ManyWords, TurnWords};
use kernelharp::Meter;
use second::{Done, DoneMany, Refusal, Turned};
use std::ops::Range;

/// The eight ports' records, the second program's raised by its answers, the archive's by the words.
#[derive(Clone, Debug, Default, PartialEq, Eq)]
pub struct Records {
    second: [second::Meter; PORTS],
    archive: [Meter; PORTS],
}

impl Records {
    /// The numbers of a port's record.
    pub fn of(&self, port: usize) -> Record {
        numbers(&self.archive[port])
    }

    /// The host writes a port's record.
    pub fn set(&mut self, port: usize, numbers: Record) {
        let [taken, okay, error, not_supported] = numbers;
        self.archive[port] = meter_of(numbers);
        self.second[port] = second::Meter {
            taken,
            okay,
            error,
            not_supported,
        };
    }

    /// The host zeroes a port's record.
    pub fn zero(&mut self, port: usize) {
        self.set(port, Record::default());
    }

    /// Hands a turn's answer over.
    pub(crate) fn turn(&mut self, answer: &Result<Turned, Refusal>, code: u32, words: &TurnWords) {
        let port = match answer {
            Ok(Turned::Started(plan)) => Some(plan.port),
            Ok(Turned::Answered { port, .. } | Turned::Overrun { port }) => Some(*port),
            Ok(Turned::Idle) | Err(_) => None,
        };
        for port in handed_to(port) {
            self.second[port].turn(answer);
            self.archive[port].turn(code, words);
        }
        self.check();
    }

    /// Hands a completion's answer over.
    pub(crate) fn completion(
        &mut self,
        answer: &Result<Done, Refusal>,
        code: u32,
        words: &DoneWords,
    ) {
        let port = answer.as_ref().ok().map(|done| done.port);
        for port in handed_to(port) {
            self.second[port].completion(answer);
            self.archive[port].completion(code, words);
        }
        self.check();
    }

    /// Hands the answer of a list of completions over.
    pub(crate) fn many(
        &mut self,
        answer: &Result<DoneMany, Refusal>,
        code: u32,
        words: &ManyWords,
    ) {
        let port = answer.as_ref().ok().map(|done| done.port);
        for port in handed_to(port) {
            self.second[port].many(answer);
            self.archive[port].many(code, words);
        }
        self.check();
    }

    fn check(&self) {
        for (one, other) in self.archive.iter().zip(&self.second) {
            let second = [other.taken, other.okay, other.error, other.not_supported];
            assert_eq!(numbers(one), second);
        }
    }
}

/// The record of the port that an answer names. One that names none is handed to all (rule 15.8).
fn handed_to(port: Option<u32>) -> Range<usize> {
    port.map_or(0..PORTS, |port| port as usize..port as usize + 1)
}

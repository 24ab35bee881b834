//! What is counted of a port since its opening.

use crate::list::Name;
use crate::places::{Pair, Ring};
use std::collections::{HashMap, HashSet};

/// A request that was taken and has no response yet (rule 12.16).
#[derive(Clone, Debug)]
struct Unfinished {
    serial: u32,
    pair: Pair,
}

/// What is counted of a port since its opening.
#[derive(Debug, Default)]
pub struct Books {
    pub ring: Ring,
    pub taken: u64,
    answered: u64,
    /// The unfinished request of each tag that a start named; a ring has as many tags as slots. One place
    /// per tag is enough: a start that names a busy tag is a fault at once.
    unfinished: Vec<Option<Unfinished>>,
    /// Pairs taken, less pairs answered, less pairs unfinished, as multisets: a pair whose count
    /// is zero is left out, so the two sides are equal exactly when this is empty.
    balance: HashMap<Pair, i64>,
}

impl Books {
    /// Those of an opening.
    pub fn new(ring: Ring) -> Books {
        Books {
            ring,
            unfinished: vec![None; ring.slots as usize],
            ..Books::default()
        }
    }

    /// So many requests taken and answered, none of which is looked at.
    pub fn skip(&mut self, requests: u32) {
        self.taken += u64::from(requests);
        self.answered += u64::from(requests);
    }

    /// C, by rule 12.27.
    pub fn taken_index(&self) -> u32 {
        self.taken as u32
    }

    /// R, by rule 12.27.
    fn answered_index(&self) -> u32 {
        self.answered as u32
    }

    /// Counted one by one.
    pub fn count_unfinished(&self) -> u32 {
        self.unfinished.iter().flatten().count() as u32
    }

    pub fn lowest_free_tag(&self) -> Option<usize> {
        self.unfinished.iter().position(Option::is_none)
    }

    /// Whether a tag's request is unfinished, with whatever serial.
    pub fn is_tag_busy(&self, tag: u32) -> bool {
        matches!(self.unfinished.get(tag as usize), Some(Some(_)))
    }

    /// Whether each name is that of an unfinished request, and no tag is named again.
    pub fn are_busy(&self, names: &[Name]) -> bool {
        let mut tags = HashSet::new();
        let mut names = names.iter();
        names.all(|&(tag, serial)| self.is_busy(tag, serial) && tags.insert(tag))
    }

    fn is_busy(&self, tag: u64, serial: u64) -> bool {
        let tag = usize::try_from(tag).ok();
        let place = tag.and_then(|tag| self.unfinished.get(tag));
        matches!(place, Some(Some(request)) if u64::from(request.serial) == serial)
    }

    fn weigh(&mut self, pair: Pair, change: i64) {
        let count = self.balance.entry(pair).or_insert(0);
        *count += change;
        if *count == 0 {
            self.balance.remove(&pair);
        }
    }

    /// Rule 12.12: a request's pair, from the share lent.
    pub fn take(&mut self, share: &[u8]) -> Pair {
        let pair = self.ring.request_pair(share, self.taken_index());
        self.taken += 1;
        self.weigh(pair, 1);
        pair
    }

    /// Rule 12.15: a response's pair, from the share left. Gives the status that stands beside it.
    pub fn answer(&mut self, share: &[u8]) -> u16 {
        let index = self.answered_index();
        let pair = self.ring.response_pair(share, index);
        self.answered += 1;
        self.weigh(pair, -1);
        self.ring.response_status(share, index)
    }

    pub fn begin(&mut self, tag: usize, serial: u32, pair: Pair) {
        self.unfinished[tag] = Some(Unfinished { serial, pair });
        self.weigh(pair, -1);
    }

    pub fn finish(&mut self, tag: usize) {
        if let Some(request) = self.unfinished[tag].take() {
            self.weigh(request.pair, 1);
        }
    }

    /// Rules 12.22 and 12.24: neither numbers nor pairs are lost or doubled.
    pub fn check(&self) -> Result<(), String> {
        let unfinished = u64::from(self.count_unfinished());
        if self.taken != self.answered + unfinished {
            return Err(format!(
                "taken {} is not answered {} + unfinished {unfinished}",
                self.taken, self.answered
            ));
        }
        if !self.balance.is_empty() {
            return Err(format!(
                "pairs taken less answered less unfinished: {:x?}",
                self.balance
            ));
        }
        Ok(())
    }
}

//! Counts by class.

use std::collections::BTreeMap;
use std::fmt;

/// How often each class occurred.
#[derive(Clone, Debug, Default)]
pub struct Tally {
    counts: BTreeMap<String, u64>,
}

impl Tally {
    /// Counts a class once more.
    pub fn tick(&mut self, class: &str) {
        if let Some(count) = self.counts.get_mut(class) {
            *count += 1;
        } else {
            self.counts.insert(class.to_string(), 1);
        }
    }

    /// Counts a class where it occurred.
    pub fn tick_if(&mut self, occurred: bool, class: &str) {
        if occurred {
            self.tick(class);
        }
    }

    /// Adds another run's counts, by another name of each class.
    pub fn add_named(&mut self, other: &Tally, name: impl Fn(&str) -> String) {
        for (class, count) in &other.counts {
            *self.counts.entry(name(class)).or_insert(0) += count;
        }
    }

    /// Adds another run's counts.
    pub fn add(&mut self, other: &Tally) {
        self.add_named(other, str::to_string);
    }

    /// Those of the classes that did not occur.
    pub fn missing(&self, mut classes: Vec<String>) -> Vec<String> {
        classes.retain(|class| !self.counts.contains_key(class));
        classes
    }
}

impl fmt::Display for Tally {
    fn fmt(&self, f: &mut fmt::Formatter) -> fmt::Result {
        for (class, count) in &self.counts {
            writeln!(f, "{count:>9}  {class}")?;
        }
        Ok(())
    }
}

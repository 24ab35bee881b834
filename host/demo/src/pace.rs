//! How quickly a guest was served.

use std::time::{Duration, Instant};

/// The times of a guest's requests, from put to collected.
#[derive(Debug, Default)]
pub struct Pace {
    micros: Vec<u32>,
    /// How long the guest lived.
    pub lived: Duration,
}

impl Pace {
    /// Notes a request that was collected now.
    pub fn note(&mut self, put: Instant) {
        let micros = put.elapsed().as_micros();
        self.micros.push(u32::try_from(micros).unwrap_or(u32::MAX));
    }

    /// Requests collected a second.
    pub fn rate(&self) -> f64 {
        self.micros.len() as f64 / self.lived.as_secs_f64().max(1e-6)
    }

    /// The microseconds that so many of a hundred requests did not take longer than.
    pub fn quantile(&self, percent: usize) -> u32 {
        let mut sorted = self.micros.clone();
        sorted.sort_unstable();
        let place = (sorted.len() * percent).div_ceil(100).max(1) - 1;
        sorted.get(place).copied().unwrap_or(0)
    }
}

#[cfg(test)]
mod tests {
    use super::*;

    #[test]
    fn quantiles_of_a_hundred() {
        let micros = (1..=100).rev().collect();
        let lived = Duration::from_secs(4);
        let pace = Pace { micros, lived };
        assert_eq!([50, 99, 100].map(|it| pace.quantile(it)), [50, 99, 100]);
        assert_eq!(pace.rate(), 25.0);
        assert_eq!(Pace::default().quantile(50), 0);
    }
}

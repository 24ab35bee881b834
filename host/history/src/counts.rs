//! What a port's record of counters has to say, counted from the history (rules 15.6 and 15.7).

/// A record as the host has it: requests taken, answers with the status 0, -1 and -2.
pub type Record = [u64; 4];

/// What the numbers of a record are called.
const NAMES: [&str; 4] = ["taken", "okay", "error", "not supported"];

/// The statuses in a record's order, each by its two bytes in a page (rule 2.12).
const STATUSES: [u16; 3] = [0x0000, 0xFFFF, 0xFFFE];

/// What was counted since the record was zeroed. Wider than the record's numbers, which stop where
/// these go on.
#[derive(Debug, Default)]
pub struct Counts {
    taken: u128,
    answered: [u128; 3],
}

impl Counts {
    /// A request was taken.
    pub fn take(&mut self) {
        self.taken += 1;
    }

    /// A response was given that has these 16 bits in its page. Others than the three are nobody's.
    pub fn answer(&mut self, status: u16) {
        if let Some(at) = STATUSES.iter().position(|&known| known == status) {
            self.answered[at] += 1;
        }
    }

    /// Rule 15.6, of each number.
    pub fn check(&self, record: &Record) -> Result<(), String> {
        let [okay, error, not_supported] = self.answered;
        let counts = [self.taken, okay, error, not_supported];
        for (name, (&number, count)) in NAMES.iter().zip(record.iter().zip(counts)) {
            if u128::from(number) != count.min(u128::from(u64::MAX)) {
                return Err(format!("{name} is {number} in the record, counted {count}"));
            }
        }
        Ok(())
    }
}

#[cfg(test)]
mod tests {
    use super::*;

    const MOST: u128 = u64::MAX as u128;

    #[test]
    fn numbers_end_at_the_greatest() {
        for (count, due) in [
            (0, 0),
            (MOST - 1, u64::MAX - 1),
            (MOST, u64::MAX),
            (MOST + 1, u64::MAX),
            (3 * MOST, u64::MAX),
        ] {
            for at in 0..4 {
                let (mut all, mut record) = ([0; 4], [0; 4]);
                (all[at], record[at]) = (count, due);
                let [taken, answered @ ..] = all;
                let counts = Counts { taken, answered };
                assert_eq!(counts.check(&record), Ok(()));
                // One that went on from 2^64 - 1 to 0, and one that stopped too early.
                for wrong in [count as u64, due.wrapping_sub(1), due.wrapping_add(1)] {
                    record[at] = wrong;
                    assert_eq!(counts.check(&record).is_ok(), wrong == due, "{}", NAMES[at]);
                }
            }
        }
    }

    #[test]
    fn statuses_are_their_sixteen_bits() {
        let mut counts = Counts::default();
        for status in [
            0, 0xFFFF, 0xFFFF, 0xFFFE, 1, 2, 0xFF, 0xFF00, 0xFEFF, 0xFFFD,
        ] {
            counts.answer(status);
        }
        assert_eq!(counts.check(&[0, 1, 2, 1]), Ok(()));
    }
}

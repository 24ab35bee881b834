//! Making joinings of several programs, and comparing them.

use super::{check_runs, JoinCensus, JoinGenerator, Joiner, Joining};
use crate::run::{at_fault, run_list, same_words, Failure};
use crate::UNTOUCHED;
use kernelharp::words::{JoinWords, JOIN_WORDS};
use kernelharp::Run;
use std::hint::black_box;

/// Records on either side of those that are lent.
const AROUND: usize = 2;

/// What a program gave and left.
#[derive(Debug, PartialEq, Eq)]
pub(super) struct Outcome {
    pub code: u32,
    answer: JoinWords,
    /// The records lent, and those around them.
    records: Vec<Run>,
}

impl Outcome {
    /// Makes a joining of a program and checks what it has to leave.
    fn of(program: &Joiner, joining: &Joining) -> Result<Outcome, String> {
        let (lent, before) = (joining.clone(), stale(joining.room + 2 * AROUND));
        let (mut records, mut answer) = (before.clone(), [UNTOUCHED; JOIN_WORDS]);
        let list = &mut records[AROUND..AROUND + joining.room];
        let code = program(&lent, list, &mut answer);
        // What is lent to be read counts as unchanged; this makes the compiler look.
        let left = black_box(&lent);
        same_words("extent word", &joining.extents, &left.extents)?;
        same_words("machine frame", &joining.frames, &left.frames)?;
        let (filled, stays) = match (code, answer) {
            (0, [runs]) if runs > joining.room as u64 => {
                return Err(format!("{runs} runs in {} records", joining.room));
            }
            (0, [runs]) => (runs as usize, true),
            (_, answer) => (0, answer == [UNTOUCHED; JOIN_WORDS]),
        };
        let behind = AROUND + filled;
        if before[..AROUND] != records[..AROUND] || before[behind..] != records[behind..] || !stays
        {
            return Err(format!("code {code}: what has to stay was written"));
        }
        Ok(Outcome {
            code,
            answer,
            records,
        })
    }

    /// The runs, where it was done.
    pub fn runs(&self) -> Option<&[Run]> {
        let [runs] = self.answer;
        (self.code == 0).then(|| &self.records[AROUND..][..runs as usize])
    }

    fn compare(&self, other: &Outcome) -> Result<(), String> {
        if self.code != other.code {
            return Err(format!("code {} and {}", self.code, other.code));
        }
        same_words("answer word", &self.answer, &other.answer)?;
        let (one, two) = (self.runs(), other.runs());
        match one == two {
            true => Ok(()),
            false => Err(format!("runs {one:?} and {two:?}")),
        }
    }
}

/// Records of which no two are alike.
fn stale(count: usize) -> Vec<Run> {
    let record = |at: u64| Run {
        frame: UNTOUCHED,
        first: at,
        length: !at,
        sector: UNTOUCHED ^ at,
    };
    (0..count as u64).map(record).collect()
}

/// Makes one joining of every program. Gives the first one's outcome.
fn step(programs: &[&Joiner], joining: &Joining) -> Result<Outcome, String> {
    let mut outcomes = Vec::new();
    for (index, program) in programs.iter().enumerate() {
        let outcome = Outcome::of(program, joining);
        outcomes.push(outcome.map_err(|fault| format!("program {index}: {fault}"))?);
    }
    for (index, other) in outcomes.iter().enumerate().skip(1) {
        outcomes[0]
            .compare(other)
            .map_err(|fault| format!("programs 0 and {index} differ: {fault}"))?;
    }
    if let Some(runs) = outcomes[0].runs() {
        check_runs(joining, runs)?;
    }
    Ok(outcomes.swap_remove(0))
}

/// Makes `calls` random joinings of every program. All must give the same code and answer and leave the same
/// records, none may write where nothing is to be written, and the first one's runs must keep what is
/// claimed of them.
pub fn run_joins(programs: &[&Joiner], seed: u64, calls: u64) -> Result<JoinCensus, Failure> {
    let mut generator = JoinGenerator::new(seed);
    let mut census = JoinCensus::new();
    run_list(seed, calls, || {
        let joining = generator.next_joining();
        let outcome = step(programs, &joining).map_err(|fault| at_fault(&joining, fault))?;
        census.note(&joining, &outcome);
        Ok(())
    })?;
    Ok(census)
}

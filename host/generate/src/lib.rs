//! Random lists of calls, and running one list through several programs.
//!
//! A [`Step`] is what guests (and the host, in the grants) write, and then one call. The
//! [`Generator`] makes steps; it looks at the answers of the first program, as a real host does.
//! The other programs get the very same steps, and [`run`] stops at the first difference. Beside the
//! calls, the host hands each answer over to a record of counters, and zeroes records; and ports that were
//! just opened are set to indices that calls would take too long to reach. The guest's half
//! has lists of its own ([`run_guests`]), and lists on one page with a backend ([`run_halves`]); and so has
//! the joining of extents to runs ([`run_joins`]).
//!
//! To compare another program, implement [`Core`] for it and run it beside the second program:
//!
//! ```
//! use second::Backend;
//!
//! let (mut second, mut other) = (Backend::new(), Backend::new());
//! let report = generate::run(&mut [&mut second, &mut other], 1, 500);
//! assert!(report.is_ok());
//! ```

mod census;
mod generator;
mod guest;
mod halves;
mod joining;
mod meters;
mod programs;
mod random;
mod requests;
mod ring;
mod run;
mod sheets;
mod skips;
mod tally;
mod world;

pub use census::Census;
pub use generator::Generator;
pub use guest::{
    collect_words, run_guests, GuestCall, GuestCensus, GuestCore, GuestGenerator, GuestOutcome,
    GuestStep, PageWrite,
};
pub use halves::{run_halves, Halves, HalvesReport};
pub use joining::{
    check_runs, join_by_archive, join_by_second, run_joins, JoinCensus, JoinGenerator, Joiner,
    Joining,
};
pub use meters::{meter_of, numbers};
pub use programs::{done_words, for_second, many_words, turn_words, Core, List};
pub use random::Random;
pub use ring::Ring;
pub use run::{run, Failure, Report};
pub use tally::Tally;
pub use world::{Outcome, World, UNTOUCHED};

use kernelharp::Completion;

/// One of the calls. Buffers of another length than due hold the first bytes of the due one,
/// then zeros.
#[derive(Clone, Debug, PartialEq, Eq)]
pub enum Call {
    /// Open a port from a node sheet.
    Open {
        /// The port named.
        port: u32,
        /// The node sheet.
        sheet: Vec<u8>,
    },
    /// Close a port.
    Close {
        /// The port named.
        port: u32,
    },
    /// Take a turn.
    Turn {
        /// How many bytes of rings are lent.
        rings_bytes: usize,
        /// How many bytes of grants are lent.
        grants_bytes: usize,
    },
    /// Complete a started request.
    Complete {
        /// How many bytes of rings are lent.
        rings_bytes: usize,
        /// The request named, and its result.
        named: Completion,
    },
    /// Complete a list of started requests.
    CompleteMany {
        /// How many bytes of rings are lent.
        rings_bytes: usize,
        /// The port named.
        port: u32,
        /// The words of the list, three to an entry where they are whole ones.
        entries: Vec<u64>,
    },
}

/// Which buffer a [`Write`] goes to.
#[derive(Clone, Copy, Debug, PartialEq, Eq)]
pub enum Buffer {
    /// The rings, written by guests.
    Rings,
    /// The grants, written by the host.
    Grants,
}

/// Bytes that somebody writes between two calls.
#[derive(Clone, Debug, PartialEq, Eq)]
pub struct Write {
    /// Where to.
    pub buffer: Buffer,
    /// At which byte of the buffer.
    pub at: usize,
    /// What.
    pub bytes: Vec<u8>,
}

/// Writes, then a call.
#[derive(Clone, Debug, PartialEq, Eq)]
pub struct Step {
    /// What is written before the call.
    pub writes: Vec<Write>,
    /// The call.
    pub call: Call,
}

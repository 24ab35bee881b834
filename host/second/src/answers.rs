//! What the calls answer (rule 11.4).

use crate::terms::{Operation, Reason, Status};

/// Rule 5.27.
#[derive(Clone, Debug, PartialEq, Eq)]
pub struct Extent {
    /// The guest frame.
    pub frame: u32,
    /// The first sector within the frame.
    pub first_sector: u8,
    /// How many sectors.
    pub length: u64,
    /// Where they lie on the disk.
    pub disk_sector: u64,
}

/// Rule 5.22: what the host is to do.
#[derive(Clone, Debug, PartialEq, Eq)]
pub struct Plan {
    /// The port served.
    pub port: u32,
    /// The tag that keeps it.
    pub tag: u32,
    /// C as it was before this request.
    pub serial: u32,
    /// What to do.
    pub operation: Operation,
    /// First sector on disk.
    pub start: u64,
    /// How many sectors.
    pub count: u64,
    /// The secure mark (rule 5.23).
    pub secure: bool,
    /// At most eleven.
    pub extents: Vec<Extent>,
}

/// What a turn did.
#[derive(Clone, Debug, PartialEq, Eq)]
pub enum Turned {
    /// No port had something to serve.
    Idle,
    /// A request passed all checks.
    Started(Plan),
    /// A request did not pass (rule 5.32).
    Answered {
        /// The port served.
        port: u32,
        /// The first check at fault.
        reason: Reason,
        /// The status in the response.
        status: Status,
        /// Whether the guest wants to be told.
        notify: bool,
    },
    /// An overrun (rule 5.12).
    Overrun {
        /// The port, broken from now on.
        port: u32,
    },
}

/// What a completion did (rule 6.13).
#[derive(Clone, Debug, PartialEq, Eq)]
pub struct Done {
    /// The port named.
    pub port: u32,
    /// The status in the response.
    pub status: Status,
    /// Whether the guest wants to be told.
    pub notify: bool,
}

/// What a list of completions did (rule 6.22).
#[derive(Clone, Debug, PartialEq, Eq)]
pub struct DoneMany {
    /// The port named.
    pub port: u32,
    /// The statuses in the responses, in the order of the list.
    pub statuses: Vec<Status>,
    /// Whether the guest wants to be told.
    pub notify: bool,
}

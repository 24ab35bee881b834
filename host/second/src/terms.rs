//! Refusals, reasons, statuses and operations, by their numbers.

/// Sections 7, 16 and 17: what a refused call answers.
#[derive(Clone, Copy, Debug, PartialEq, Eq)]
pub enum Refusal {
    /// Rule 7.1.
    WrongLength = 1,
    /// Rule 7.2.
    NoPort = 2,
    /// Rule 7.3.
    NotClosed = 3,
    /// Rule 7.4.
    IsClosed = 4,
    /// Rule 7.5.
    InFlight = 5,
    /// Rule 7.6.
    NotBusy = 6,
    /// Rule 7.7.
    TooMany = 7,
    /// Rule 17.9.
    TooFewFrames = 8,
    /// Rule 17.10.
    TooFewRuns = 9,
    /// Rules 17.5 to 17.7.
    NoPlan = 10,
    /// Rule 7.11.
    SheetShape = 11,
    /// Rule 7.12.
    SheetNodes = 12,
    /// Rule 7.13.
    SheetText = 13,
    /// Rule 7.14.
    SheetNumber = 14,
    /// Rule 7.15.
    SheetMissing = 15,
    /// Section 16: a put with 32 requests outstanding.
    RingFull = 31,
    /// A put whose id is outstanding.
    IdOutstanding = 32,
    /// A put of a request that no backend would start.
    BadRequest = 33,
    /// A collect where rsp_prod is further ahead than requests are outstanding.
    BadRspProd = 34,
    /// A collect of a response that fits none of them.
    NotOutstanding = 35,
}

/// Section 8: the check that a request fails first. 23 is withdrawn (rule 8.23).
#[derive(Clone, Copy, Debug, PartialEq, Eq)]
pub enum Reason {
    /// Rule 8.21.
    UnknownOperation = 21,
    /// Rule 8.22.
    FeatureOff = 22,
    /// Rule 8.24.
    ReadOnly = 24,
    /// Rule 8.25.
    WrongAmount = 25,
    /// Rule 8.26.
    WrongSegment = 26,
    /// Rule 8.27.
    NotGranted = 27,
    /// Rule 8.28.
    PastEnd = 28,
    /// Rule 8.29.
    Unaligned = 29,
}

impl Reason {
    /// The status of the table in section 8.
    pub fn status(self) -> Status {
        match self {
            Reason::UnknownOperation | Reason::FeatureOff => Status::NotSupported,
            _ => Status::Error,
        }
    }
}

/// Rule 2.12.
#[derive(Clone, Copy, Debug, PartialEq, Eq)]
pub enum Status {
    /// All went well.
    Okay = 0,
    /// It did not.
    Error = -1,
    /// It cannot be done here.
    NotSupported = -2,
}

/// Rule 2.13.
#[derive(Clone, Copy, Debug, PartialEq, Eq)]
pub enum Operation {
    /// Disk to frames.
    Read = 0,
    /// Frames to disk.
    Write = 1,
    /// A write in order, or the order alone.
    Barrier = 2,
    /// What was written is made lasting.
    Flush = 3,
    /// Sectors may be forgotten.
    Discard = 5,
}

impl Operation {
    /// None for an unknown operation (rule 2.14).
    pub fn from_byte(byte: u8) -> Option<Operation> {
        Some(match byte {
            0 => Operation::Read,
            1 => Operation::Write,
            2 => Operation::Barrier,
            3 => Operation::Flush,
            5 => Operation::Discard,
            _ => return None,
        })
    }
}

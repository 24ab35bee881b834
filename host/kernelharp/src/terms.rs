//! The rules' numbers by name: refusals, reasons, statuses and operations.

use std::fmt;

/// An enum of numbers, each with its words.
macro_rules! numbered {
    (
        $(#[$attribute:meta])*
        $name:ident, $kind:literal:
        $($case:ident = $number:literal, $words:literal;)*
    ) => {
        $(#[$attribute])*
        #[derive(Clone, Copy, Debug, PartialEq, Eq, Hash)]
        #[repr(u32)]
        #[non_exhaustive]
        pub enum $name {
            $(#[doc = $words] $case = $number,)*
        }

        impl $name {
            /// The one of a number.
            pub fn from_number(number: u32) -> Option<$name> {
                match number {
                    $($number => Some($name::$case),)*
                    _ => None,
                }
            }

            /// When it is given, in short.
            pub fn words(self) -> &'static str {
                match self {
                    $($name::$case => $words,)*
                }
            }
        }

        impl fmt::Display for $name {
            fn fmt(&self, f: &mut fmt::Formatter) -> fmt::Result {
                write!(f, "{} {}: {}", $kind, *self as u32, self.words())
            }
        }
    };
}

numbered! {
    /// What a refused call answers (section 7 of the rules; 8 to 10 are of joining, section 17; 31 to 35
    /// are of the guest's half, section 16, and 1 is of both halves).
    Refusal, "refusal":
    WrongLength = 1, "a lent buffer has the wrong length";
    NoPort = 2, "port above 7";
    NotClosed = 3, "port not closed";
    IsClosed = 4, "port closed";
    InFlight = 5, "requests in flight";
    NotBusy = 6, "tag beyond the ring's slots, not busy, another serial, or named twice";
    TooMany = 7, "more than 64 completions";
    TooFewFrames = 8, "fewer machine frames than extents";
    TooFewRuns = 9, "fewer run records than runs";
    NoPlan = 10, "more extents than places, or one empty, past its frame, past 2^64 - 1, or not next on the disk";
    SheetShape = 11, "sheet empty, more than 9 entries, a reserved byte not 0, wrong total length";
    SheetNodes = 12, "node 0, above 9, or not rising";
    SheetText = 13, "a text that node 1 to 5 or 8 does not know, or no number in 6, 7 or 9";
    SheetNumber = 14, "a number that node 6, 7 or 9 does not allow";
    SheetMissing = 15, "node 1, 6 or 7 missing";
    RingFull = 31, "32 requests outstanding";
    IdOutstanding = 32, "a request with that id is outstanding";
    BadRequest = 33, "the request fails check 21, 25 or 26, or a number does not fit its field";
    BadRspProd = 34, "rsp_prod is further ahead than there are requests outstanding";
    NotOutstanding = 35, "no outstanding request has the response's id and operation";
}

impl std::error::Error for Refusal {}

numbered! {
    /// Why a guest's request gets its response at once and does not start (section 8 of the
    /// rules). 23 is withdrawn and never given.
    Reason, "reason":
    UnknownOperation = 21, "unknown operation";
    FeatureOff = 22, "an operation whose feature the disk does not have";
    ReadOnly = 24, "a request that writes, on a read-only disk";
    WrongAmount = 25, "a wrong number of segments, or nothing to discard";
    WrongSegment = 26, "a segment that does not lie in its frame";
    NotGranted = 27, "a frame without the grant that it takes";
    PastEnd = 28, "past the end of the disk";
    Unaligned = 29, "not in whole sectors of the disk";
}

impl Reason {
    /// The status that goes with it: not supported for 21 and 22, error for the others.
    pub fn status(self) -> Status {
        match self {
            Reason::UnknownOperation | Reason::FeatureOff => Status::NotSupported,
            _ => Status::Error,
        }
    }

    /// When the reason of a number is given, in short, for logs and tables: 23 reads
    /// "withdrawn", a number that never was one "no reason".
    pub fn text(number: u32) -> &'static str {
        match (Reason::from_number(number), number) {
            (Some(reason), _) => reason.words(),
            (None, 23) => "withdrawn",
            (None, _) => "no reason",
        }
    }
}

/// The status of a response (rule 2.12).
#[derive(Clone, Copy, Debug, PartialEq, Eq, Hash)]
#[repr(i16)]
pub enum Status {
    /// 0
    Okay = 0,
    /// -1
    Error = -1,
    /// -2
    NotSupported = -2,
}

impl Status {
    const ALL: [Status; 3] = [Status::Okay, Status::Error, Status::NotSupported];

    /// The status as the answers' words carry it: 0, 1 or 2.
    pub fn magnitude(self) -> u64 {
        u64::from((self as i16).unsigned_abs())
    }

    /// The status of a magnitude.
    pub fn from_magnitude(magnitude: u64) -> Option<Status> {
        Status::ALL
            .into_iter()
            .find(|it| it.magnitude() == magnitude)
    }

    /// The status of 16 bits as they stand in a response.
    pub fn from_bits(bits: u16) -> Option<Status> {
        Status::ALL.into_iter().find(|it| *it as u16 == bits)
    }
}

impl fmt::Display for Status {
    fn fmt(&self, f: &mut fmt::Formatter) -> fmt::Result {
        f.write_str(match self {
            Status::Okay => "status 0 (okay)",
            Status::Error => "status -1 (error)",
            Status::NotSupported => "status -2 (not supported)",
        })
    }
}

/// The operations that are known (rule 2.13).
#[derive(Clone, Copy, Debug, PartialEq, Eq, Hash)]
#[repr(u8)]
#[non_exhaustive]
pub enum Operation {
    /// 0
    Read = 0,
    /// 1
    Write = 1,
    /// 2
    Barrier = 2,
    /// 3
    Flush = 3,
    /// 5
    Discard = 5,
}

impl Operation {
    /// None for an unknown operation (rule 2.14).
    pub fn from_byte(byte: u8) -> Option<Operation> {
        match byte {
            0 => Some(Operation::Read),
            1 => Some(Operation::Write),
            2 => Some(Operation::Barrier),
            3 => Some(Operation::Flush),
            5 => Some(Operation::Discard),
            _ => None,
        }
    }
}

impl fmt::Display for Operation {
    fn fmt(&self, f: &mut fmt::Formatter) -> fmt::Result {
        f.write_str(match self {
            Operation::Read => "read",
            Operation::Write => "write",
            Operation::Barrier => "barrier",
            Operation::Flush => "flush",
            Operation::Discard => "discard",
        })
    }
}

#[cfg(test)]
mod tests {
    use super::*;

    #[test]
    fn numbers_lead_back_to_their_names() {
        let refusals: Vec<u32> = (0..100)
            .filter_map(Refusal::from_number)
            .map(|refusal| refusal as u32)
            .collect();
        let of_a_backend = [1, 2, 3, 4, 5, 6, 7, 11, 12, 13, 14, 15];
        let (of_joining, of_a_guest) = ([8, 9, 10], [31, 32, 33, 34, 35]);
        let mut due = [&of_a_backend[..], &of_joining, &of_a_guest].concat();
        due.sort();
        assert_eq!(refusals, due);
        let reasons: Vec<u32> = (0..100)
            .filter_map(Reason::from_number)
            .map(|reason| reason as u32)
            .collect();
        assert_eq!(reasons, [21, 22, 24, 25, 26, 27, 28, 29]);
        let statuses: Vec<i16> = (0..100)
            .filter_map(Status::from_magnitude)
            .map(|status| status as i16)
            .collect();
        assert_eq!(statuses, [0, -1, -2]);
        let bits: Vec<u16> = (0..=u16::MAX)
            .filter(|&bits| Status::from_bits(bits).is_some())
            .collect();
        assert_eq!(bits, [0, 0xFFFE, 0xFFFF]);
        assert_eq!(Status::from_bits(0xFFFE), Some(Status::NotSupported));
    }

    #[test]
    fn a_refusal_prints_number_and_words() {
        let refusal: Box<dyn std::error::Error> = Box::new(Refusal::NotBusy);
        let due =
            "refusal 6: tag beyond the ring's slots, not busy, another serial, or named twice";
        assert_eq!(refusal.to_string(), due);
        let reason = "reason 27: a frame without the grant that it takes";
        assert_eq!(Reason::NotGranted.to_string(), reason);
    }

    #[test]
    fn every_reason_has_its_text_and_23_is_withdrawn() {
        for number in 0..100 {
            let due = match number {
                23 => "withdrawn",
                21..=29 => Reason::from_number(number).expect("a reason").words(),
                _ => "no reason",
            };
            assert_eq!(Reason::text(number), due, "{number}");
        }
    }
}

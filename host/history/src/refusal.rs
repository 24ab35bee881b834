//! The numbers that a call is refused with (sections 7 and 16).

/// Done, and not refused.
pub const NONE: u32 = 0;
pub const WRONG_LENGTH: u32 = 1;
pub const NO_PORT: u32 = 2;
pub const NOT_CLOSED: u32 = 3;
pub const IS_CLOSED: u32 = 4;
pub const IN_FLIGHT: u32 = 5;
pub const NOT_BUSY: u32 = 6;
pub const TOO_MANY: u32 = 7;
pub const SHEET_SHAPE: u32 = 11;
pub const SHEET_NODES: u32 = 12;
pub const SHEET_TEXT: u32 = 13;
pub const SHEET_NUMBER: u32 = 14;
pub const SHEET_MISSING: u32 = 15;
pub const RING_FULL: u32 = 31;
pub const ID_OUTSTANDING: u32 = 32;
pub const BAD_REQUEST: u32 = 33;

//! What a ring says and is told: the backlog of a port (rules 4.11 and 4.12), responses (rules 6.1
//! to 6.5).

use crate::terms::Status;

/// What a port's req_prod says.
#[derive(Clone, Copy, Debug, PartialEq, Eq)]
pub enum Backlog {
    /// It is C.
    Nothing,
    /// It is ahead of C by no more than there is room for.
    Waits,
    /// It is further ahead.
    Overrun,
}

/// Rules 4.11 and 4.12, by the distance of req_prod from C, in a ring of so many slots.
pub fn backlog(slots: u32, req_prod: u32, taken: u32, in_flight: u32) -> Backlog {
    let distance = req_prod.wrapping_sub(taken);
    if distance == 0 {
        Backlog::Nothing
    } else if distance <= slots - in_flight {
        Backlog::Waits
    } else {
        Backlog::Overrun
    }
}

/// Rule 2.10: the bytes of a response, of which a layout has the first 16 or 12. What it has behind the status is zeros.
pub fn response_bytes(id: u64, operation: u8, status: Status) -> [u8; 16] {
    let mut response = [0; 16];
    response[0..8].copy_from_slice(&id.to_le_bytes());
    response[8] = operation;
    response[10..12].copy_from_slice(&(status as i16).to_le_bytes());
    response
}

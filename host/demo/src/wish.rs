//! A request as a guest means it, for either front end.

use crate::batch::{BARRIER, DISCARD, FLUSH, READ, WRITE};
use frontend::Request as PlainRequest;
use kernelharp::layout::SEGMENTS;
use kernelharp::{Request, Segment};

/// What a request asks for.
pub struct Wish {
    pub operation: u8,
    pub id: u64,
    pub start: u64,
    pub with: With,
}

/// What a request comes with.
pub enum With {
    /// Any number of them: one that no slot has room for is to be found out.
    Segments(Vec<Segment>),
    /// Of a discard.
    Sectors { sectors: u64, secure: bool },
}

impl Wish {
    /// Whether it is a discard that is to leave nothing to be read.
    pub fn is_secure(&self) -> bool {
        matches!(self.with, With::Sectors { secure: true, .. })
    }

    /// For the library's guest's half; none where its types have no such request.
    pub fn typed(&self) -> Option<Request<'_>> {
        let Wish { id, start, .. } = *self;
        match (self.operation, &self.with) {
            (READ, With::Segments(segments)) => Some(Request::Read {
                id,
                start,
                segments,
            }),
            (WRITE, With::Segments(segments)) => Some(Request::Write {
                id,
                start,
                segments,
            }),
            (BARRIER, With::Segments(segments)) => Some(Request::Barrier {
                id,
                start,
                segments,
            }),
            (FLUSH, With::Segments(segments)) if segments.is_empty() => Some(Request::Flush { id }),
            (DISCARD, &With::Sectors { sectors, secure }) => Some(Request::Discard {
                id,
                start,
                sectors,
                secure,
            }),
            _ => None,
        }
    }

    /// For the front end in plain Rust, which says what it is told.
    pub fn plain(&self) -> PlainRequest {
        let Wish {
            operation,
            id,
            start,
            ..
        } = *self;
        match &self.with {
            With::Segments(segments) => {
                let fitting = &segments[..segments.len().min(SEGMENTS)];
                let mut request = PlainRequest::segmented(operation, id, start, fitting);
                request.count_or_flag = segments.len() as u8;
                request
            }
            With::Sectors { sectors, secure } => {
                PlainRequest::discard(id, *secure, start, *sectors)
            }
        }
    }
}

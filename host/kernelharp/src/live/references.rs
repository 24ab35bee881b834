//! References of any size: each stands in the private ring as the number of its place, and is put back
//! in the plan.

use super::ring::Copied;
use crate::answers::Plan;
use crate::layout::{read_u32, write_u32, PORTS, PORT_GRANTS, SEGMENTS, SEGMENT_BYTES, TAGS};
use crate::names::Port;
use crate::terms::Operation;
use std::fmt;
use std::sync::{Arc, Mutex, PoisonError};

/// What a guest's reference is granted for.
#[derive(Clone, Copy, Debug, PartialEq, Eq, Hash)]
#[repr(u8)]
pub enum Grant {
    /// Nothing: the guest has not granted it to this host, or not any more.
    None = 0,
    /// The host may read the frame.
    Read = 1,
    /// The host may read and write it.
    ReadWrite = 2,
}

/// The hook that is asked about references.
type Granted = Box<dyn FnMut(Port, u32) -> Grant + Send>;

/// A place for each segment of each slot, fewer than a port has grants.
const PLACES: usize = TAGS * SEGMENTS;

/// The hook for ports to be opened, and the ports that were opened with one.
#[derive(Default)]
pub(super) struct References {
    granted: Option<Arc<Mutex<Granted>>>,
    ports: [Option<Translated>; PORTS],
}

/// A port that was opened with a hook.
struct Translated {
    /// The one set at that time, which other ports may have too.
    granted: Arc<Mutex<Granted>>,
    /// The guest's references by their places.
    references: Box<[u32; PLACES]>,
}

impl References {
    pub(super) fn set_granted(&mut self, granted: Granted) {
        self.granted = Some(Arc::new(Mutex::new(granted)));
    }

    /// A port keeps to what holds when it is opened.
    pub(super) fn opened(&mut self, port: Port) {
        self.ports[port.index()] = self.granted.clone().map(|granted| Translated {
            granted,
            references: Box::new([0; PLACES]),
        });
    }

    /// What the places of its references granted is not for the next guest.
    pub(super) fn closed(&mut self, port: Port, grants: &mut [u8; PORT_GRANTS]) {
        if self.ports[port.index()].take().is_some() {
            grants.fill(Grant::None as u8);
        }
    }

    /// A request was copied in: its segments get the numbers of their places, with the grants that the
    /// hook says. A place is free again after the turn that takes the request, for the plan has the
    /// reference by then.
    pub(super) fn translate(
        &mut self,
        port: Port,
        request: Copied,
        grants: &mut [u8; PORT_GRANTS],
    ) {
        let Some(translated) = &mut self.ports[port.index()] else {
            return;
        };
        let Translated {
            granted,
            references,
        } = translated;
        // A hook that panicked is asked again all the same.
        let mut granted = granted.lock().unwrap_or_else(PoisonError::into_inner);
        let first = SEGMENTS * request.slot;
        for (place, segment) in (first..).zip(segments_mut(request)) {
            let reference = read_u32(segment, 0);
            references[place] = reference;
            grants[place] = granted(port, reference) as u8;
            write_u32(segment, 0, place as u32);
        }
    }

    /// The guest's references again.
    pub(super) fn put_back(&self, plan: &mut Plan) {
        if let Some(translated) = &self.ports[plan.name.port.index()] {
            plan.map_frames(|place| translated.references[place as usize]);
        }
    }
}

impl fmt::Debug for References {
    fn fmt(&self, f: &mut fmt::Formatter) -> fmt::Result {
        f.debug_struct("References").finish_non_exhaustive()
    }
}

/// The segments of a read, write or barrier. Any other request has none, and one with too many is
/// refused whatever they are.
fn segments_mut(request: Copied<'_>) -> impl Iterator<Item = &mut [u8]> {
    let Copied { abi, bytes, .. } = request;
    let segmented = matches!(
        Operation::from_byte(bytes[0]),
        Some(Operation::Read | Operation::Write | Operation::Barrier)
    );
    let count = usize::from(bytes[1]);
    let used = if segmented && count <= SEGMENTS {
        count
    } else {
        0
    };
    bytes[abi.segments_at()..]
        .chunks_exact_mut(SEGMENT_BYTES)
        .take(used)
}

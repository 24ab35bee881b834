//! Calls at the wrap of the indices, which calls alone would take too long to reach.

use super::*;
use crate::answers::Turned;
use crate::layout::{
    read_u32, Layout, ONE_PAGE_SLOTS, REQ_PROD, RSP_EVENT, RSP_PROD, TWO_PAGE_SLOTS,
};
use crate::sheet::Disk;
use crate::terms::Reason;

/// A ring of each layout and size.
const RINGS: [Disk; 4] = [
    disk(Layout::BITS_64, ONE_PAGE_SLOTS),
    disk(Layout::BITS_32, ONE_PAGE_SLOTS),
    disk(Layout::BITS_64, TWO_PAGE_SLOTS),
    disk(Layout::BITS_32, TWO_PAGE_SLOTS),
];

const fn disk(layout: Layout, slots: u32) -> Disk {
    Disk {
        writable: true,
        barrier: false,
        flush: true,
        discard: false,
        secure: false,
        sector_size: 512,
        sectors: 2008,
        layout,
        slots,
    }
}

/// A backend whose port 0 stands at C = R = `index`.
fn backend_at(disk: &Disk, index: u32) -> Backend {
    let mut backend = Backend::new();
    backend.ports[0] = Port::Open(Box::new(Session::new(disk.clone())));
    backend.skip(0, index);
    backend
}

fn buffers() -> (Vec<u8>, Vec<u8>) {
    (vec![0; RINGS_BYTES], vec![0; GRANTS_BYTES])
}

/// Where the last slot begins: that of index 2^32 - 1, as 2^32 is a multiple of both sizes.
fn last_slot(disk: &Disk) -> usize {
    64 + disk.layout.slot_bytes * (disk.slots as usize - 1)
}

#[test]
fn answered_at_the_wrap() {
    for disk in RINGS {
        let (mut rings, grants) = buffers();
        let mut backend = backend_at(&disk, u32::MAX);
        rings[last_slot(&disk)] = 9;
        let turned = backend.turn(&mut rings, &grants);
        let answer = Turned::Answered {
            port: 0,
            reason: Reason::UnknownOperation,
            status: Status::NotSupported,
            notify: true,
        };
        assert_eq!(turned, Ok(answer));
        assert_eq!(read_u32(&rings, RSP_PROD), 0);
        assert_eq!(rings[last_slot(&disk) + 8], 9);
        assert_eq!(backend, {
            let mut after = backend_at(&disk, 0);
            after.pointer = 1;
            after
        });
    }
}

#[test]
fn started_at_the_wrap() {
    for disk in RINGS {
        let (mut rings, grants) = buffers();
        let mut backend = backend_at(&disk, u32::MAX);
        rings[last_slot(&disk)] = 3;
        let Ok(Turned::Started(plan)) = backend.turn(&mut rings, &grants) else {
            panic!("a flush starts")
        };
        assert_eq!((plan.tag, plan.serial), (0, u32::MAX));
        // One in flight: req_prod may run one less than a ring ahead of C = 0, no further.
        write_u32(&mut rings, REQ_PROD, disk.slots);
        let overrun = backend.clone().turn(&mut rings, &grants);
        assert_eq!(overrun, Ok(Turned::Overrun { port: 0 }));
        let named = Completion {
            port: 0,
            tag: 0,
            serial: u32::MAX,
            result: 0,
        };
        let done = backend.complete(&mut rings, named);
        assert_eq!(done.map(|done| done.status), Ok(Status::Okay));
        assert_eq!(read_u32(&rings, RSP_PROD), 0);
        assert_eq!(rings[last_slot(&disk) + 8], 3);
    }
}

/// Three flushes in flight from index 2^32 - 2 on, completed by one list in another order.
#[test]
fn a_list_across_the_wrap() {
    for disk in RINGS {
        let (mut rings, grants) = buffers();
        let begin = u32::MAX - 1;
        let mut backend = backend_at(&disk, begin);
        for index in [begin, u32::MAX, 0] {
            let at = disk.layout.slot_at(disk.slots, index);
            (rings[at], rings[at + 1]) = (3, 0);
            rings[at + disk.layout.id] = 50 + index.wrapping_sub(begin) as u8;
            write_u32(&mut rings, REQ_PROD, index.wrapping_add(1));
            let turned = backend.turn(&mut rings, &grants);
            assert!(matches!(turned, Ok(Turned::Started(_))), "{turned:?}");
        }
        write_u32(&mut rings, RSP_EVENT, 0);
        let entries = [[2, 0, 0], [0, begin.into(), 5], [1, u32::MAX.into(), 0]];
        let done = backend.complete_many(&mut rings, 0, &entries.concat());
        let answer = DoneMany {
            port: 0,
            statuses: vec![Status::Okay, Status::Error, Status::Okay],
            notify: true,
        };
        assert_eq!(done, Ok(answer));
        assert_eq!(read_u32(&rings, RSP_PROD), 1);
        for (index, id) in [(begin, 52), (u32::MAX, 50), (0, 51)] {
            assert_eq!(rings[disk.layout.slot_at(disk.slots, index)], id);
        }
        assert_eq!(backend.close(0), Ok(()));
    }
}

#[test]
fn idle_at_the_wrap() {
    for disk in RINGS {
        let (mut rings, grants) = buffers();
        let mut backend = backend_at(&disk, u32::MAX);
        write_u32(&mut rings, REQ_PROD, u32::MAX);
        write_u32(&mut rings, REQ_EVENT, 77);
        assert_eq!(backend.turn(&mut rings, &grants), Ok(Turned::Idle));
        assert_eq!(read_u32(&rings, REQ_EVENT), 0);
    }
}

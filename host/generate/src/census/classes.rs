//! What a long run should show.

use super::boundaries::boundary_classes;
use super::discards::{discard_classes, DISCARD_REASONS};
use super::lists::{list_classes, list_ring_classes};
use super::meters::{meter_classes, port_meter_classes};
use super::rings::ring_classes;
use super::sheets::{
    body_class, opened_by, opened_with, text_fault, NUMBER, ORDER, PROTOCOL, TEXT,
};
use super::{class_of, LENGTHS};
use crate::sheets::{NEAR_PROTOCOLS, NO_ORDERS, OTHER_ORDERS};
use crate::Ring;
use kernelharp::layout::{Abi, Pages};

/// The reasons that each operation can meet.
const REASONS: [(u8, &[u64]); 5] = [
    (0, &[25, 26, 27, 28, 29]),
    (1, &[24, 25, 26, 27, 28, 29]),
    (2, &[22, 24, 25, 26, 27, 28, 29]),
    (3, &[22, 25]),
    (5, DISCARD_REASONS),
];

/// Every class that a long run should show.
pub fn expected_classes() -> Vec<String> {
    let mut classes: Vec<String> = PLAIN_CLASSES.iter().map(|&name| name.into()).collect();
    for number in [2, 3, 11, 12, 13, 14, 15] {
        classes.push(format!("open refused {number:02}"));
    }
    for number in [2, 4, 5] {
        classes.push(format!("close refused {number:02}"));
    }
    for number in [1, 2, 4, 6] {
        classes.push(format!("complete refused {number:02}"));
    }
    for length in LENGTHS {
        classes.push(format!("turn refused 01, rings {length}"));
        classes.push(format!("turn refused 01, grants {length}"));
        classes.push(format!("complete refused 01, rings {length}"));
    }
    for size in [512, 1024, 2048, 4096] {
        classes.push(format!("open done, sector-size {size}"));
    }
    classes.extend((1..=9).map(|node| body_class(TEXT, node)));
    classes.extend([6, 7, 9].map(|node| body_class(NUMBER, node)));
    classes.extend(NEAR_PROTOCOLS.map(|text| text_fault(TEXT, PROTOCOL, text)));
    classes.extend(NO_ORDERS.map(|text| text_fault(TEXT, ORDER, text)));
    classes.extend(OTHER_ORDERS.map(|text| text_fault(NUMBER, ORDER, text)));
    classes.push(opened_by(None));
    classes.push(opened_with(None));
    classes.extend(Pages::ALL.map(|pages| opened_with(Some(pages.order()))));
    classes.extend(meter_classes());
    classes.extend(list_classes());
    for abi in Abi::ALL {
        classes.push(opened_by(Some(abi.protocol())));
        let port_classes = port_classes();
        classes.extend(port_classes.iter().map(|class| class_of(abi, class)));
    }
    for ring in Ring::ALL {
        let ring_classes = [ring_classes(ring), list_ring_classes(ring)].concat();
        classes.extend(ring_classes.iter().map(|class| class_of(ring, class)));
    }
    classes
}

/// The classes that ports of each layout should show.
fn port_classes() -> Vec<String> {
    let mut classes: Vec<String> = PORT_CLASSES.iter().map(|&name| name.into()).collect();
    for (operation, reasons) in REASONS {
        classes.push(format!("started, operation {operation}"));
        classes.push(format!("completed, operation {operation}"));
        classes.push(format!("listed, operation {operation}"));
        for reason in reasons {
            classes.push(format!("answered {reason}, operation {operation}"));
        }
    }
    let reasons = [21, 22, 24, 25, 26, 27, 28, 29];
    classes.extend(reasons.map(|reason| format!("answered {reason}")));
    classes.extend(port_meter_classes());
    classes.extend(boundary_classes());
    classes.extend(discard_classes());
    classes
}

const PLAIN_CLASSES: &[&str] = &[
    "close done",
    "close done, broken port",
    "complete refused 01, port above 7 too",
    "complete refused 01, rings of one page each",
    "guest wrote between calls",
    "guest wrote req_event",
    "guest wrote rsp_prod",
    "idle",
    "idle, some port broken",
    "idle, some port open",
    "open done",
    "open done, 0 sectors",
    "open done, 2^64 - 1 sectors",
    "open done, mode r",
    "open done, mode w",
    "open done, sectors of 1 to 7 digits",
    "open done, sectors of 16 digits",
    "open done, sectors of 17 to 20 digits",
    "open done, sectors of 8 digits",
    "open done, sectors of 9 to 15 digits",
    "open refused 02, sheet damaged too",
    "open refused 03, broken port",
    "open refused 03, sheet damaged too",
    "sheet cut within its bodies",
    "sheet cut within its table",
    "sheet empty",
    "sheet of more than 9 entries",
    "sheet refused 13, node 7, leading zero, 8 digits",
    "sheet refused 13, node 7, leading zero, above 8 digits",
    "sheet refused 13, node 7, leading zero, below 8 digits",
    "sheet refused 13, node 7, no byte",
    "sheet refused 13, node 7, wrong byte before the eights",
    "sheet refused 13, node 7, wrong byte behind a number too great",
    "sheet refused 13, node 7, wrong byte in a later eight",
    "sheet refused 13, node 7, wrong byte in the first eight",
    "sheet refused 13, node 7, wrong byte in the second eight",
    "sheet refused 14, node 7, 20 digits",
    "sheet refused 14, node 7, 21 to 23 digits",
    "sheet refused 14, node 7, 24 digits",
    "sheet refused 14, node 7, more digits",
    "sheet with a node above 9",
    "sheet with a node twice",
    "sheet with a reserved byte",
    "sheet with bytes after its bodies",
    "sheet with falling nodes",
    "sheet with node 0",
    "sheet without node 1",
    "sheet without node 6",
    "sheet without node 7",
    "turn refused 01",
    "turn refused 01, rings and grants",
    "turn refused 01, rings of one page each",
    "turn with ports of every ring open",
];

const PORT_CLASSES: &[&str] = &[
    "answered",
    "answered 21, operation 4",
    "answered 27, a frame above 1023",
    "answered 27, every frame granted for reading",
    "answered 28, around 2^64",
    "answered, notify no",
    "answered, notify yes",
    "answered, status -1",
    "answered, status -2",
    "started",
    "started, 11 extents",
    "started, discard above 2^32 sectors",
    "started, empty barrier",
    "started, frame 1023",
    "started, up to the last sector",
];

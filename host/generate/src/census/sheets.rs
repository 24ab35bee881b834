//! A closer word on sheets: why one was refused, and of one that opened a port, by which texts its layout
//! and its pages were chosen and how long its sectors' number is. A reader of numbers may take eight digits
//! a step, so lengths and places are told apart by eights.

use crate::sheets::{NEAR_PROTOCOLS, NO_ORDERS, OTHER_ORDERS};
use second::{read_sheet, Refusal};

const SHAPE: u32 = Refusal::SheetShape as u32;
const NODES: u32 = Refusal::SheetNodes as u32;
pub const TEXT: u32 = Refusal::SheetText as u32;
pub const NUMBER: u32 = Refusal::SheetNumber as u32;
const MISSING: u32 = Refusal::SheetMissing as u32;

/// The node of the sectors.
const SECTORS: u8 = 7;

/// The node of the protocol.
pub const PROTOCOL: u8 = 8;

/// The node of the ring's page order.
pub const ORDER: u8 = 9;

/// A number of more digits is above 2^64 - 1.
const MOST_DIGITS: usize = 20;

/// What was wrong with a sheet, where the number leaves it open.
pub fn sheet_faults(sheet: &[u8], code: u32) -> Vec<String> {
    match code {
        SHAPE => vec![shape_fault(sheet).into()],
        NODES => vec![nodes_fault(&nodes(sheet)).into()],
        TEXT | NUMBER => body_faults(sheet, code),
        MISSING => {
            let nodes = nodes(sheet);
            let missing = [1, 6, 7].into_iter().find(|node| !nodes.contains(node));
            let class = missing.map(|node| format!("sheet without node {node}"));
            class.into_iter().collect()
        }
        _ => Vec::new(),
    }
}

fn nodes_fault(nodes: &[u8]) -> &'static str {
    if nodes.contains(&0) {
        "sheet with node 0"
    } else if nodes.iter().any(|&node| node > 9) {
        "sheet with a node above 9"
    } else if nodes.windows(2).any(|pair| pair[0] == pair[1]) {
        "sheet with a node twice"
    } else {
        "sheet with falling nodes"
    }
}

fn nodes(sheet: &[u8]) -> Vec<u8> {
    entries(sheet).map(|(line, _)| line[0]).collect()
}

/// Each entry of a sheet of the right shape: its line in the table, and its body.
fn entries(sheet: &[u8]) -> impl Iterator<Item = (&[u8], &[u8])> {
    let (table, mut bodies) = sheet[1..].split_at(4 * usize::from(sheet[0]));
    table.chunks(4).map(move |line| {
        let length = usize::from(line[2]) + 256 * usize::from(line[3]);
        let (body, rest) = bodies.split_at(length);
        bodies = rest;
        (line, body)
    })
}

fn shape_fault(sheet: &[u8]) -> &'static str {
    let entries = match sheet.first() {
        None => return "sheet empty",
        Some(10..) => return "sheet of more than 9 entries",
        Some(&entries) => usize::from(entries),
    };
    if sheet.len() < 1 + 4 * entries {
        return "sheet cut within its table";
    }
    let table = &sheet[1..1 + 4 * entries];
    if table.chunks(4).any(|line| line[1] != 0) {
        return "sheet with a reserved byte";
    }
    let bodies: usize = table
        .chunks(4)
        .map(|line| usize::from(line[2]) + 256 * usize::from(line[3]))
        .sum();
    if sheet.len() < 1 + 4 * entries + bodies {
        "sheet cut within its bodies"
    } else {
        "sheet with bytes after its bodies"
    }
}

/// Which body a sheet was refused for: the first that is refused so in a sheet of its own. Of the
/// sectors, also for what in their text, and of the protocol and the page order, by which text.
fn body_faults(sheet: &[u8], code: u32) -> Vec<String> {
    let at_fault = |(line, body): &(&[u8], &[u8])| {
        let alone = [&[1], *line, *body].concat();
        read_sheet(&alone).is_err_and(|refusal| refusal as u32 == code)
    };
    let Some((line, body)) = entries(sheet).find(at_fault) else {
        return Vec::new();
    };
    let texts: &[&str] = match (line[0], code) {
        (PROTOCOL, _) => &NEAR_PROTOCOLS,
        (ORDER, TEXT) => &NO_ORDERS,
        (ORDER, _) => &OTHER_ORDERS,
        _ => &[],
    };
    // Any other text is noise, and of no class.
    let near = texts.iter().filter(|text| text.as_bytes() == body);
    let near = near.map(|text| text_fault(code, line[0], text));
    let digits = (line[0] == SECTORS).then(|| sectors_fault(code, body));
    let class = body_class(code, line[0]);
    let closer = near.chain(digits.map(String::from));
    closer.chain([class]).collect()
}

/// What a text of node 7 was refused for: its length as a number, its first byte that is no digit, or a
/// zero before others.
fn sectors_fault(code: u32, body: &[u8]) -> &'static str {
    if code == NUMBER {
        return match body.len() {
            ..21 => "sheet refused 14, node 7, 20 digits",
            21..24 => "sheet refused 14, node 7, 21 to 23 digits",
            24 => "sheet refused 14, node 7, 24 digits",
            _ => "sheet refused 14, node 7, more digits",
        };
    }
    if let Some(place) = body.iter().position(|byte| !byte.is_ascii_digit()) {
        if place > MOST_DIGITS {
            return "sheet refused 13, node 7, wrong byte behind a number too great";
        }
        // The whole eights that end the text.
        return match place.checked_sub(body.len() % 8).map(|place| place / 8) {
            None => "sheet refused 13, node 7, wrong byte before the eights",
            Some(0) => "sheet refused 13, node 7, wrong byte in the first eight",
            Some(1) => "sheet refused 13, node 7, wrong byte in the second eight",
            Some(_) => "sheet refused 13, node 7, wrong byte in a later eight",
        };
    }
    match body.len() {
        0 => "sheet refused 13, node 7, no byte",
        1..8 => "sheet refused 13, node 7, leading zero, below 8 digits",
        8 => "sheet refused 13, node 7, leading zero, 8 digits",
        _ => "sheet refused 13, node 7, leading zero, above 8 digits",
    }
}

/// The class of a sheet that is refused for a node's body.
pub fn body_class(code: u32, node: u8) -> String {
    format!("sheet refused {code}, node {node}")
}

/// The class of a sheet that is refused for this text of a node.
pub fn text_fault(code: u32, node: u8, text: &str) -> String {
    format!("{}: {text:?}", body_class(code, node))
}

/// The classes of a sheet that opened a port, by its nodes 7, 8 and 9.
pub fn opened_classes(sheet: &[u8]) -> Vec<String> {
    let body_of = |node| entries(sheet).find_map(|(line, body)| (line[0] == node).then_some(body));
    let sectors = body_of(SECTORS).map(|body| sectors_taken(body).into());
    let protocol = body_of(PROTOCOL).map(String::from_utf8_lossy);
    let protocol = opened_by(protocol.as_deref());
    let order = body_of(ORDER).map(String::from_utf8_lossy);
    let order = opened_with(order.as_deref());
    sectors.into_iter().chain([protocol, order]).collect()
}

fn sectors_taken(body: &[u8]) -> &'static str {
    match body.len() {
        ..8 => "open done, sectors of 1 to 7 digits",
        8 => "open done, sectors of 8 digits",
        9..16 => "open done, sectors of 9 to 15 digits",
        16 => "open done, sectors of 16 digits",
        _ => "open done, sectors of 17 to 20 digits",
    }
}

/// The class of a sheet that opened a port, by the text of node 8 or its absence.
pub fn opened_by(protocol: Option<&str>) -> String {
    format!("open done, protocol {}", protocol.unwrap_or("absent"))
}

/// The class of a sheet that opened a port, by the text of node 9 or its absence.
pub fn opened_with(order: Option<&str>) -> String {
    format!("open done, ring-page-order {}", order.unwrap_or("absent"))
}

//! Node sheets: what a sound one says, and refusals 11 to 15 on both sides of their lines (rules 7.11 to
//! 7.15).

use second::{read_sheet, Disk, Layout, Refusal};
use tests::{sheet, sheet_number, usual_sheet, with_node};

fn node_number(node: u8, text: &str) -> u32 {
    sheet_number(&with_node(node, text))
}

/// The sheet of rule 3.12.
const SHEET_OF_21: [u8; 21] = [
    0x03, 0x01, 0x00, 0x01, 0x00, 0x06, 0x00, 0x03, 0x00, 0x07, 0x00, 0x04, 0x00, 0x77, 0x35, 0x31,
    0x32, 0x32, 0x30, 0x30, 0x38,
];

#[test]
fn sheet_of_21_bytes() {
    let disk = Disk {
        writable: true,
        barrier: false,
        flush: false,
        discard: false,
        secure: false,
        sector_size: 512,
        sectors: 2008,
        layout: Layout::BITS_64,
        slots: 32,
    };
    assert_eq!(read_sheet(&SHEET_OF_21), Ok(disk));
    assert_eq!(sheet(&[(1, "w"), (6, "512"), (7, "2008")]), SHEET_OF_21);
    assert_eq!(sheet_number(&SHEET_OF_21), 0);
}

#[test]
fn sheet_with_every_node() {
    let mut entries = vec![(1, "r"), (2, "1"), (3, "0"), (4, "1"), (5, "0")];
    entries.extend([(6, "4096"), (7, "0"), (8, "x86_64-abi"), (9, "0")]);
    let disk = read_sheet(&sheet(&entries)).unwrap();
    assert_eq!((disk.sector_size, disk.sectors, disk.unit()), (4096, 0, 8));
    assert!(!disk.writable && disk.barrier && !disk.flush && disk.discard && !disk.secure);
}

#[test]
fn protocol_says_the_layout() {
    let layout = |sheet: &[u8]| read_sheet(sheet).unwrap().layout;
    assert_eq!(layout(&usual_sheet()), Layout::BITS_64);
    assert_eq!(layout(&with_node(8, "x86_64-abi")), Layout::BITS_64);
    assert_eq!(layout(&with_node(8, "x86_32-abi")), Layout::BITS_32);
    // Near either text, and between the two.
    for text in [
        "X86_32-abi",
        "x86_16-abi",
        "x86_31-abi",
        "x86_34-abi",
        "x86_62-abi",
        "x86_64-abix86_32-abi",
    ] {
        assert_eq!(node_number(8, text), 13, "{text:?}");
    }
    // It stands for no other node, and is no excuse for a later one.
    for text in ["x86_64-abi", "x86_32-abi"] {
        let unsized_disk = [(1, "w"), (6, "512"), (8, text)];
        assert_eq!(sheet_number(&sheet(&unsized_disk)), 15);
        let four_pages = [(1, "w"), (6, "512"), (7, "2008"), (8, text), (9, "2")];
        assert_eq!(sheet_number(&sheet(&four_pages)), 14);
    }
}

#[test]
fn ring_page_order_says_the_slots() {
    let slots = |sheet: &[u8]| read_sheet(sheet).map(|disk| disk.slots);
    assert_eq!(slots(&usual_sheet()), Ok(32));
    assert_eq!(slots(&with_node(9, "0")), Ok(32));
    assert_eq!(slots(&with_node(9, "1")), Ok(64));
    assert_eq!(slots(&with_node(9, "2")), Err(Refusal::SheetNumber));
    // In either layout, and whatever the features say.
    for (protocol, layout) in [
        ("x86_64-abi", Layout::BITS_64),
        ("x86_32-abi", Layout::BITS_32),
    ] {
        for (feature, order, due) in [("0", "1", 64), ("1", "0", 32)] {
            let mut entries = vec![(1, "w"), (2, feature), (5, feature)];
            entries.extend([(6, "512"), (7, "1"), (8, protocol), (9, order)]);
            let disk = read_sheet(&sheet(&entries)).unwrap();
            assert_eq!((disk.layout, disk.slots), (layout, due));
            assert_eq!(sheet_number(&sheet(&entries)), 0);
        }
    }
}

#[test]
fn sheet_faults_in_order() {
    // 11 before 12, 12 before 13, the first body at fault, and 15 last.
    let mut wrong = sheet(&[(0, "x"), (6, "y")]);
    assert_eq!(sheet_number(&wrong), 12);
    wrong.push(0);
    assert_eq!(sheet_number(&wrong), 11);
    assert_eq!(sheet_number(&sheet(&[(6, "1"), (7, "x")])), 14);
    assert_eq!(sheet_number(&sheet(&[(6, "x"), (7, "1")])), 13);
    assert_eq!(sheet_number(&sheet(&[(6, "512"), (9, "2")])), 14);
    for text in ["0", "1"] {
        assert_eq!(sheet_number(&sheet(&[(6, "512"), (9, text)])), 15);
    }
}

#[test]
fn refusal_11() {
    assert_eq!(sheet_number(&[]), 11);
    // No entries are a sheet, though one without nodes 1, 6 and 7.
    assert_eq!(sheet_number(&[0]), 15);
    assert_eq!(sheet_number(&[0, 0]), 11);
    let mut ten = vec![10];
    ten.extend([0; 40]);
    assert_eq!(sheet_number(&ten), 11);
    for length in 0..21 {
        assert_eq!(sheet_number(&SHEET_OF_21[..length]), 11, "{length} bytes");
    }
    let longer = [&SHEET_OF_21[..], &[0]].concat();
    assert_eq!(sheet_number(&longer), 11);
    for entry in 0..3 {
        let mut reserved = SHEET_OF_21;
        reserved[2 + 4 * entry] = 1;
        assert_eq!(sheet_number(&reserved), 11);
    }
    let mut high_length = SHEET_OF_21;
    high_length[4] = 1;
    assert_eq!(sheet_number(&high_length), 11);
}

#[test]
fn refusal_12() {
    for nodes in [
        [0, 6, 7],
        [1, 6, 10],
        [1, 6, 6],
        [1, 7, 6],
        [6, 1, 7],
        [1, 1, 7],
    ] {
        let entries = nodes.map(|node| (node, "512"));
        assert_eq!(sheet_number(&sheet(&entries)), 12, "{nodes:?}");
    }
    assert_eq!(sheet_number(&sheet(&[(255, "")])), 12);
    assert_eq!(sheet_number(&sheet(&[(9, "0")])), 15);
}

#[test]
fn refusal_13() {
    for text in ["", "R", "rw", "1", "w "] {
        assert_eq!(node_number(1, text), 13, "{text:?}");
    }
    for node in 2..=5 {
        for text in ["", "2", "00", "01", "10", "w"] {
            assert_eq!(node_number(node, text), 13, "{text:?}");
        }
        assert_eq!(node_number(node, "0"), 0);
        assert_eq!(node_number(node, "1"), 0);
    }
    for node in [6, 7, 9] {
        let leading_zeros = "0".repeat(70) + "1";
        for text in [
            "",
            "00",
            "01",
            "+1",
            "-1",
            "1 ",
            "a",
            "1/",
            "1:",
            &leading_zeros,
        ] {
            assert_eq!(node_number(node, text), 13, "{text:?}");
        }
    }
    for text in ["", "x86_64-ab", "x86_64-abi\0", "x86_32-ab", "x86_32-abi "] {
        assert_eq!(node_number(8, text), 13, "{text:?}");
    }
    assert_eq!(node_number(1, "r"), 0);
    assert_eq!(node_number(8, "x86_64-abi"), 0);
    assert_eq!(node_number(8, "x86_32-abi"), 0);
}

#[test]
fn refusal_14() {
    let long = "9".repeat(65535 - 100);
    for text in ["0", "511", "513", "8192", "18446744073709552128", &long] {
        assert_eq!(node_number(6, text), 14, "{text:.30}");
    }
    for text in ["512", "1024", "2048", "4096"] {
        assert_eq!(node_number(6, text), 0);
    }
    for text in ["18446744073709551616", "99999999999999999999", &long] {
        assert_eq!(node_number(7, text), 14, "{text:.30}");
    }
    for text in ["0", "9", "18446744073709551615"] {
        assert_eq!(node_number(7, text), 0);
    }
    for text in [
        "2",
        "3",
        "10",
        "11",
        "4294967297",
        "18446744073709551617",
        &long,
    ] {
        assert_eq!(node_number(9, text), 14, "{text:.30}");
    }
    assert_eq!(node_number(9, "0"), 0);
    assert_eq!(node_number(9, "1"), 0);
}

#[test]
fn refusal_15() {
    for missing in [1, 6, 7] {
        let mut entries = vec![(1, "w"), (6, "512"), (7, "2008")];
        entries.retain(|entry| entry.0 != missing);
        assert_eq!(sheet_number(&sheet(&entries)), 15, "node {missing}");
    }
}

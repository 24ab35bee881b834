//! What a started request is asked of the host, and the results that are expected (rules 5.22 to 5.29, 6.9,
//! 6.10), in both layouts.

use generate::turn_words;
use kernelharp::layout::Abi;
use kernelharp::words::{extent, kind, turn, TURN_WORDS};
use second::{Extent, Operation, Plan, Status, Turned};
use tests::{full_sheet, sheet, usual_sheet_of, with_ring, Ask, Bench};

/// The plan of a start on port 0, which leaves the pages.
fn started(abi: Abi, ask: &Ask) -> Plan {
    let mut bench = Bench::open(&usual_sheet_of(abi));
    let before = bench.clone();
    bench.post(0, ask);
    let lent = bench.rings.clone();
    let Turned::Started(plan) = bench.turn() else {
        panic!("a start")
    };
    assert_eq!(bench.rings, lent, "a start leaves the pages");
    assert_ne!(bench.backend, before.backend);
    plan
}

#[test]
fn plan_of_a_write() {
    let mut ask = Ask::of(1, 3, 1000, 0, 7);
    ask.segments = vec![(5, 0, 7), (1023, 7, 7), (0, 2, 4)];
    let [plan, other] = Abi::ALL.map(|abi| started(abi, &ask));
    assert_eq!(plan, other, "64-bit and 32-bit");
    let stretch = |frame, first_sector, length, disk_sector| Extent {
        frame,
        first_sector,
        length,
        disk_sector,
    };
    let extents = [
        stretch(5, 0, 8, 1000),
        stretch(1023, 7, 1, 1008),
        stretch(0, 2, 3, 1009),
    ];
    assert_eq!(plan.extents, extents);
    assert_eq!((plan.operation, plan.count), (Operation::Write, 12));
    let words = turn_words(&Turned::Started(plan));
    let mut due = [0; TURN_WORDS];
    due[turn::KIND] = kind::STARTED;
    due[turn::OPERATION] = Operation::Write as u64;
    (due[turn::START], due[turn::COUNT]) = (1000, 12);
    due[turn::EXTENT_COUNT] = 3;
    let written = [5, 0, 8, 1000, 1023, 7, 1, 1008, 0, 2, 3, 1009];
    due[turn::EXTENTS..][..3 * extent::WORDS].copy_from_slice(&written);
    assert_eq!(words, due);
}

#[test]
fn plans_without_extents() {
    // Start and count of a discard have 64 bits in both layouts.
    let (far, many) = (0x0102_0304_0506_0708, 0x1112_1314_1516_1718);
    let large = full_sheet("w", "512", &u64::MAX.to_string());
    for abi in Abi::ALL {
        let mut bench = Bench::open(&with_ring(&large, abi));
        let mut plan = |ask: &Ask| {
            let plan = bench.serve(ask).unwrap();
            assert!(plan.extents.is_empty());
            (plan.start, plan.count, plan.secure)
        };
        assert_eq!(plan(&Ask::of(3, 0, 77, 0, 0)), (0, 0, false));
        assert_eq!(plan(&Ask::of(2, 0, 77, 0, 0)), (0, 0, false));
        assert_eq!(plan(&Ask::discard(0xFE, 77, 9)), (77, 9, false));
        assert_eq!(plan(&Ask::discard(0xFF, 77, 9)), (77, 9, true));
        assert_eq!(plan(&Ask::discard(0, far, many)), (far, many, false));
    }
}

/// For a discard that asks for it, on a disk that has it, and for nothing else: an odd n asks for nothing.
#[test]
fn secure_mark() {
    let disk = |discard_secure| {
        let features = [(2, "1"), (3, "1"), (4, "1"), (5, discard_secure)];
        sheet(&[&[(1, "w")], &features[..], &[(6, "512"), (7, "2008")]].concat())
    };
    for (text, has_it) in [("0", false), ("1", true)] {
        for abi in Abi::ALL {
            let mut bench = Bench::open(&with_ring(&disk(text), abi));
            let mut mark = |ask: Ask| {
                let plan = bench.serve(&ask).unwrap();
                bench.complete(plan.port, plan.tag, plan.serial, 0).unwrap();
                plan.secure
            };
            for flag in 0..=255 {
                let due = has_it && flag % 2 == 1;
                assert_eq!(mark(Ask::discard(flag, 0, 8)), due, "{text}, flag {flag}");
            }
            for operation in 0..3 {
                assert!((1..=11).all(|n| !mark(Ask::of(operation, n, 0, 0, 7))));
            }
            assert!(!mark(Ask::of(2, 0, 0, 0, 7)) && !mark(Ask::of(3, 0, 0, 0, 7)));
        }
    }
}

/// The status that a result gives; the response in slot 0 says so, and the bytes behind it stay.
fn status_of(abi: Abi, ask: &Ask, result: i32) -> Status {
    let mut bench = Bench::open(&usual_sheet_of(abi));
    bench.serve(ask).unwrap();
    let done = bench.complete(0, 0, 0, result).unwrap();
    let (response, rest) = bench.slot(0, 0).split_at(abi.response_bytes());
    assert_eq!(response[..8], ask.id.to_le_bytes());
    assert_eq!(response[8..10], [ask.operation, 0]);
    assert_eq!(response[10..12], (done.status as i16).to_le_bytes());
    assert!(response[12..].iter().all(|&byte| byte == 0));
    assert_eq!(rest, &ask.bytes(abi)[response.len()..]);
    done.status
}

#[test]
fn expected_results() {
    for (ask, expected) in [
        (Ask::of(0, 11, 0, 0, 7), 88),
        (Ask::of(1, 1, 0, 7, 7), 1),
        (Ask::of(2, 2, 0, 0, 1), 4),
        (Ask::of(2, 0, 9, 0, 0), 0),
        (Ask::of(3, 0, 9, 0, 0), 0),
        (Ask::discard(0, 0, 9), 0),
    ] {
        for (result, status) in [
            (expected, Status::Okay),
            (expected + 1, Status::Error),
            (expected - 1, Status::Error),
            (-95, Status::NotSupported),
            (95, Status::Error),
        ] {
            for abi in Abi::ALL {
                let came = status_of(abi, &ask, result);
                assert_eq!(came, status, "{expected} and {result}, {abi:?}");
            }
        }
    }
}

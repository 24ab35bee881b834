//! Reasons 21 to 29, each on both sides of its line and before those that come later (rules 8.21 to 8.29),
//! in both layouts. 23 is withdrawn: nothing gets it.

use kernelharp::layout::Abi;
use second::Status;
use tests::{full_sheet, sheet, usual_sheet, usual_sheet_of, with_ring, Ask, Bench};

/// The sector sizes, and how many sectors of 512 bytes each is.
const SIZES: [(&str, u8); 4] = [("512", 1), ("1024", 2), ("2048", 4), ("4096", 8)];

/// A number that is the same for both layouts.
fn either(number: impl Fn(Abi) -> u32) -> u32 {
    let [number, other] = Abi::ALL.map(number);
    assert_eq!(number, other, "64-bit and 32-bit");
    number
}

/// The reason for a request on the usual disk, 0 when it starts.
fn usual(ask: &Ask) -> u32 {
    on(&usual_sheet(), ask)
}

fn on(sheet: &[u8], ask: &Ask) -> u32 {
    either(|abi| Bench::open(&with_ring(sheet, abi)).number(ask))
}

#[test]
fn reason_21() {
    for operation in [4, 6, 7, 128, 255] {
        // 21 before any other check: mode r, 99 segments.
        let ask = Ask::of(operation, 99, 0, 9, 0);
        assert_eq!(on(&full_sheet("r", "512", "0"), &ask), 21);
    }
    assert_eq!(usual(&Ask::of(3, 0, 0, 0, 0)), 0);
}

#[test]
fn reason_22() {
    let off = |node: u8, mode| {
        let mut entries = vec![(1, mode), (2, "1"), (3, "1"), (4, "1"), (5, "1")];
        entries.extend([(6, "512"), (7, "2008")]);
        entries.retain(|entry| entry.0 != node);
        sheet(&entries)
    };
    let asks = [
        (2, Ask::of(2, 1, 0, 0, 7)),
        (3, Ask::of(3, 0, 0, 0, 0)),
        (4, Ask::discard(0, 0, 8)),
    ];
    for (node, ask) in asks {
        assert_eq!(on(&off(node, "w"), &ask), 22, "node {node}");
        assert_eq!(on(&off(node, "r"), &ask), 22, "node {node}");
        assert_eq!(usual(&ask), 0);
    }
}

/// What becomes of a discard with each flag: the secure mark of its plan, or the reason.
fn discards(disk: &[u8], start: u64, count: u64) -> Vec<Result<bool, u32>> {
    let [ends, others] = Abi::ALL.map(|abi| {
        let mut bench = Bench::open(&with_ring(disk, abi));
        let end = |flag| {
            let plan = bench.serve(&Ask::discard(flag, start, count));
            let plan = plan.map_err(|reason| reason as u32)?;
            assert_eq!((plan.start, plan.count), (start, count));
            let done = bench.complete(plan.port, plan.tag, plan.serial, 0);
            assert_eq!(done.map(|done| done.status), Ok(Status::Okay));
            Ok(plan.secure)
        };
        (0..=255).map(end).collect::<Vec<_>>()
    });
    assert_eq!(ends, others, "64-bit and 32-bit");
    ends
}

/// No discard gets it. Whatever its flag and the disk's discard-secure, it starts, or it fails the same
/// check; and where discard-secure is 0 it starts as a plain one.
#[test]
fn reason_23() {
    let cases = [
        ("w", "1", 0, 2008, 0),
        ("w", "1", 2000, 8, 0),
        ("r", "0", 4, 0, 22),
        ("w", "0", 0, 8, 22),
        ("r", "1", 4, 0, 24),
        ("r", "1", 0, 8, 24),
        ("w", "1", 9999, 0, 25),
        ("w", "1", 0, 0, 25),
        ("w", "1", 2004, 8, 28),
        ("w", "1", 2000, 16, 28),
        ("w", "1", u64::MAX - 7, 8, 28),
        ("w", "1", 4, 8, 29),
        ("w", "1", 8, 1, 29),
    ];
    for (mode, discard, start, count, number) in cases {
        for secure in [None, Some("0"), Some("1")] {
            let mut entries = vec![(1, mode), (4, discard)];
            entries.extend(secure.map(|text| (5, text)));
            entries.extend([(6, "4096"), (7, "2008")]);
            let due = |flag| match number {
                0 => Ok(secure == Some("1") && flag % 2 == 1),
                _ => Err(number),
            };
            let due: Vec<_> = (0..256).map(due).collect();
            let came = discards(&sheet(&entries), start, count);
            assert_eq!(came, due, "{entries:?}, start {start}, count {count}");
        }
    }
}

#[test]
fn reason_24() {
    let read_only = full_sheet("r", "512", "2008");
    for ask in [
        Ask::of(1, 12, 2000, 0, 7),
        Ask::of(2, 0, 0, 0, 7),
        Ask::discard(0, 0, 0),
    ] {
        assert_eq!(on(&read_only, &ask), 24);
    }
    assert_eq!(on(&read_only, &Ask::usual_read()), 0);
    assert_eq!(on(&read_only, &Ask::of(3, 0, 0, 0, 0)), 0);
    assert_eq!(usual(&Ask::of(1, 12, 2000, 0, 7)), 25);
}

#[test]
fn reason_25() {
    for operation in [0, 1] {
        // 25 before 26.
        for n in [0, 12, 13, 255] {
            assert_eq!(usual(&Ask::of(operation, n, 0, 9, 0)), 25, "n {n}");
        }
        for n in [1, 11] {
            assert_eq!(usual(&Ask::of(operation, n, 0, 0, 7)), 0, "n {n}");
        }
    }
    for (n, number) in [(0, 0), (1, 0), (11, 0), (12, 25), (255, 25)] {
        assert_eq!(usual(&Ask::of(2, n, 0, 0, 7)), number, "barrier, n {n}");
    }
    for (n, number) in [(0, 0), (1, 25), (255, 25)] {
        assert_eq!(usual(&Ask::of(3, n, 0, 0, 7)), number, "flush, n {n}");
    }
    assert_eq!(usual(&Ask::discard(0, 9999, 0)), 25);
    assert_eq!(usual(&Ask::discard(0, 0, 1)), 0);
    // The count has 64 bits: its low half alone would be 0.
    assert_eq!(usual(&Ask::discard(0, 0, 1 << 32)), 28);
}

#[test]
fn reason_26() {
    for (first, last) in [(3, 2), (0, 8), (8, 8), (255, 255), (255, 0)] {
        // 26 before 27 to 29.
        let mut ask = Ask::of(0, 2, 9999, 0, 7);
        ask.segments[0].0 = 5000;
        ask.segments[1].1 = first;
        ask.segments[1].2 = last;
        assert_eq!(usual(&ask), 26, "{first}..{last}");
    }
    for (first, last) in [(0, 0), (0, 7), (7, 7), (2, 3)] {
        assert_eq!(usual(&Ask::of(0, 1, 0, first, last)), 0);
    }
    // Segments beyond n mean nothing.
    let mut ask = Ask::of(0, 2, 0, 0, 7);
    ask.count_or_flag = 1;
    ask.segments[1] = (5000, 9, 0);
    assert_eq!(usual(&ask), 0);
}

#[test]
fn reason_27() {
    let granted = |operation, frame: u32, grant| {
        either(|abi| {
            let mut bench = Bench::open(&usual_sheet_of(abi));
            bench.grant(0, 5, grant);
            bench.grant(0, 1023, grant);
            let mut ask = Ask::of(operation, 2, 0, 0, 7);
            ask.segments[0].0 = 6;
            ask.segments[1].0 = frame;
            bench.number(&ask)
        })
    };
    for (grant, read, write) in [
        (0, 27, 27),
        (1, 27, 0),
        (2, 0, 0),
        (3, 27, 27),
        (255, 27, 27),
    ] {
        for frame in [5, 1023] {
            assert_eq!(granted(0, frame, grant), read, "read, grant {grant}");
            assert_eq!(granted(1, frame, grant), write, "write, grant {grant}");
            assert_eq!(granted(2, frame, grant), write, "barrier, grant {grant}");
        }
    }
    for frame in [1024, 1029, 65541, u32::MAX] {
        assert_eq!(granted(0, frame, 2), 27, "frame {frame}");
    }
    // 27 before 28; the grants of another port say nothing here.
    for abi in Abi::ALL {
        let mut bench = Bench::open(&usual_sheet_of(abi));
        bench.grant(0, 5, 0);
        assert_eq!(bench.number(&Ask::of(0, 1, 9999, 0, 7)), 27);
        let mut bench = Bench::open(&usual_sheet_of(abi));
        bench.grant(1, 5, 0);
        assert_eq!(bench.number(&Ask::usual_read()), 0);
    }
}

#[test]
fn reason_28() {
    let sized = |sectors: &str, ask: &Ask| on(&full_sheet("w", "512", sectors), ask);
    assert_eq!(sized("2008", &Ask::usual_read()), 0);
    assert_eq!(sized("2007", &Ask::usual_read()), 28);
    let largest = u64::MAX.to_string();
    assert_eq!(sized(&largest, &Ask::of(0, 1, u64::MAX, 0, 0)), 28);
    assert_eq!(sized(&largest, &Ask::of(0, 1, u64::MAX - 1, 0, 0)), 0);
    assert_eq!(sized(&largest, &Ask::of(0, 1, u64::MAX - 1, 0, 7)), 28);
    assert_eq!(sized(&largest, &Ask::discard(0, 1, u64::MAX)), 28);
    assert_eq!(sized(&largest, &Ask::discard(0, 0, u64::MAX)), 0);
    assert_eq!(sized("8", &Ask::discard(0, 1, 8)), 28);
    assert_eq!(sized("8", &Ask::discard(0, 1, 7)), 0);
    // Skipped for flush and empty barriers.
    assert_eq!(sized("0", &Ask::of(3, 0, u64::MAX, 0, 0)), 0);
    assert_eq!(sized("0", &Ask::of(2, 0, u64::MAX, 0, 0)), 0);
    // 28 before 29.
    assert_eq!(
        on(&full_sheet("w", "4096", "8"), &Ask::of(0, 1, 4, 0, 7)),
        28
    );
}

#[test]
fn reason_29() {
    for (size, unit) in SIZES {
        let (disk, unit) = (full_sheet("w", size, "2008"), u64::from(unit));
        for start in 0..9 {
            let due = if start % unit == 0 { 0 } else { 29 };
            assert_eq!(on(&disk, &Ask::of(1, 1, start, 0, 7)), due);
            assert_eq!(on(&disk, &Ask::discard(0, start, 8)), due);
        }
        for count in 1..9 {
            let due = if count % unit == 0 { 0 } else { 29 };
            let last = count as u8 - 1;
            assert_eq!(on(&disk, &Ask::of(2, 1, 8, 0, last)), due);
            // No segments, though its flag could be n and its bytes one that is off.
            for flag in [0, 1, 11] {
                assert_eq!(on(&disk, &Ask::discard(flag, 8, count)), due);
            }
        }
        // A flush and an empty barrier have neither start nor segments.
        assert_eq!(on(&disk, &Ask::of(3, 0, 1, 0, 0)), 0);
        assert_eq!(on(&disk, &Ask::of(2, 0, 1, 0, 0)), 0);
    }
    // Segments are looked at one by one: parts of a sector do not make up for each other.
    let disk = full_sheet("w", "4096", "2008");
    assert_eq!(on(&disk, &Ask::of(0, 8, 0, 0, 0)), 29);
    assert_eq!(on(&disk, &Ask::of(0, 8, 0, 0, 7)), 0);
}

/// Requests to one disk of this sector size, one after another, with the number due for each, 0 when it
/// starts. What starts is completed.
fn all_on(size: &str, asks: impl IntoIterator<Item = (Ask, u32)>) {
    let sheet = full_sheet("w", size, "2008");
    let mut benches = Abi::ALL.map(|abi| Bench::open(&with_ring(&sheet, abi)));
    for (ask, due) in asks {
        for bench in &mut benches {
            let came = match bench.serve(&ask) {
                Ok(plan) => {
                    let done = bench.complete(plan.port, plan.tag, plan.serial, plan.count as i32);
                    assert_eq!(done.map(|done| done.status), Ok(Status::Okay));
                    0
                }
                Err(reason) => reason as u32,
            };
            let (n, segments) = (ask.count_or_flag, &ask.segments);
            assert_eq!(came, due, "{size}: {n} of {segments:?}");
        }
    }
}

#[test]
fn reason_29_of_any_one_or_two_segments() {
    let within = (0..8).flat_map(|first| (first..8).map(move |last| (5, first, last)));
    let mut lists = Vec::new();
    for one in within.clone() {
        lists.push(vec![one]);
        lists.extend(within.clone().map(|other| vec![one, other]));
    }
    assert_eq!(lists.len(), 36 + 36 * 36);
    for (size, unit) in SIZES {
        let off = |&(_, first, last): &_| first % unit != 0 || (last + 1) % unit != 0;
        for operation in 0..3 {
            let asks = lists.iter().map(|segments| {
                let mut ask = Ask::of(operation, segments.len() as u8, 0, 0, 0);
                ask.segments.clone_from(segments);
                let due = if segments.iter().any(off) { 29 } else { 0 };
                (ask, due)
            });
            all_on(size, asks);
        }
    }
}

#[test]
fn reason_26_or_29_of_any_two_bytes() {
    for (size, unit) in SIZES {
        for operation in 0..3 {
            let bytes = (0..=255).flat_map(|first| (0..=255).map(move |last| (first, last)));
            let asks = bytes.map(|(first, last)| {
                let due = match (first, last) {
                    _ if first > last || last > 7 => 26,
                    _ if first % unit != 0 || (last + 1) % unit != 0 => 29,
                    _ => 0,
                };
                (Ask::of(operation, 1, 0, first, last), due)
            });
            all_on(size, asks);
        }
    }
}

/// The halves of a sector at any two of eleven places, or one segment that is moved by a half; the first
/// n places count. The total is fine where both halves count, or the one does.
#[test]
fn reason_29_at_any_place() {
    for (size, unit) in &SIZES[1..] {
        let half = unit / 2;
        for n in 1..=11 {
            let places = (0..11).flat_map(|one| (0..11).map(move |other| (one, other)));
            // A frame has no room for a large sector that is moved.
            let places = places.filter(|(one, other)| one != other || unit + half <= 8);
            let asks = places.map(|(one, other)| {
                let mut ask = Ask::of(1, 11, 0, 0, 7);
                ask.count_or_flag = n;
                if one == other {
                    ask.segments[one] = (5, half, unit + half - 1);
                } else {
                    ask.segments[one] = (5, 0, half - 1);
                    ask.segments[other] = (5, half, unit - 1);
                }
                let counts = one.min(other) < usize::from(n);
                (ask, if counts { 29 } else { 0 })
            });
            all_on(size, asks);
        }
    }
}

/// Any of the faults 26, 27 and 28, beside the halves of a sector, in any order of the segments.
#[test]
fn reason_29_comes_last() {
    for (size, unit) in &SIZES[1..] {
        let asks = (0..3 * 8 * 4u32).map(|number| {
            let (operation, faults, turns) = (number / 32, number / 4 % 8, number % 4);
            let mut ask = Ask::of(operation as u8, 4, 0, 0, 7);
            ask.segments[0].2 = unit / 2 - 1;
            ask.segments[1] = (5, unit / 2, unit - 1);
            if faults & 1 != 0 {
                ask.segments[2].2 = 8;
            }
            if faults & 2 != 0 {
                ask.segments[3].0 = 1024;
            }
            if faults & 4 != 0 {
                ask.start = 2000;
            }
            ask.segments.rotate_left(turns as usize);
            (ask, 26 + faults.trailing_zeros().min(3))
        });
        all_on(size, asks);
    }
}

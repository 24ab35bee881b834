//! Refusals 1 to 6, each on both sides of its line and before those that come later (rules 7.1 to 7.6).

use generate::Ring;
use kernelharp::layout::{GRANTS_BYTES, PAGE_BYTES, PORTS, RINGS_BYTES};
use second::Turned;
use tests::{usual_sheet, usual_sheet_of, Ask, Bench};

#[test]
fn refusal_01() {
    for (rings_bytes, grants_bytes) in [
        (RINGS_BYTES - 1, GRANTS_BYTES),
        (RINGS_BYTES + 1, GRANTS_BYTES),
        (RINGS_BYTES, GRANTS_BYTES - 1),
        (RINGS_BYTES, GRANTS_BYTES + 1),
        // A page to each port, as long as no ring had more.
        (PORTS * PAGE_BYTES, GRANTS_BYTES),
        (0, 0),
    ] {
        let mut bench = Bench::open(&usual_sheet());
        bench.post(0, &Ask::usual_read());
        bench.rings.resize(rings_bytes, 0);
        bench.grants.resize(grants_bytes, 0);
        let number = bench.refused(|bench| bench.backend.turn(&mut bench.rings, &bench.grants));
        assert_eq!(number, 1);
    }
    let mut bench = Bench::open(&usual_sheet());
    assert_eq!(bench.number(&Ask::usual_read()), 0);
    bench.rings.push(0);
    assert_eq!(bench.refused_complete(0, 0, 0), 1);
    // 1 before 2, 4 and 6.
    assert_eq!(bench.refused_complete(8, 0, 0), 1);
    assert_eq!(bench.refused_complete(1, 0, 0), 1);
    assert_eq!(bench.refused_complete(0, 1, 0), 1);
    bench.rings.truncate(PORTS * PAGE_BYTES);
    assert_eq!(bench.refused_complete(0, 0, 0), 1);
    bench.rings.resize(RINGS_BYTES, 0);
    assert!(bench.complete(0, 0, 0, 8).is_ok());
}

#[test]
fn refusal_02() {
    let mut bench = Bench::new();
    for port in [8, 9, 256, u32::MAX] {
        // 2 before the sheet's numbers.
        assert_eq!(bench.refused_open(port, &[]), 2);
        assert_eq!(bench.refused_close(port), 2);
        assert_eq!(bench.refused_complete(port, 99, 0), 2);
    }
    assert_eq!(bench.backend.open(7, &usual_sheet()), Ok(()));
    assert_eq!(bench.backend.close(7), Ok(()));
}

#[test]
fn refusal_03() {
    let mut bench = Bench::open(&usual_sheet());
    assert_eq!(bench.refused_open(0, &usual_sheet()), 3);
    assert_eq!(bench.refused_open(0, &[]), 3);
    bench.set_req_prod(0, 33);
    assert_eq!(bench.turn(), Turned::Overrun { port: 0 });
    assert_eq!(bench.refused_open(0, &usual_sheet()), 3);
    assert_eq!(bench.backend.close(0), Ok(()));
    assert_eq!(bench.backend.open(0, &usual_sheet()), Ok(()));
}

#[test]
fn refusal_04() {
    let mut bench = Bench::open(&usual_sheet());
    assert_eq!(bench.refused_close(1), 4);
    assert_eq!(bench.refused_complete(1, 99, 0), 4);
    assert_eq!(bench.backend.close(0), Ok(()));
    assert_eq!(bench.refused_close(0), 4);
}

#[test]
fn refusal_05() {
    let mut bench = Bench::open(&usual_sheet());
    assert_eq!(bench.number(&Ask::usual_read()), 0);
    assert_eq!(bench.refused_close(0), 5);
    // Broken ports keep what is in flight, and can still complete it.
    bench.set_req_prod(0, 33);
    assert_eq!(bench.turn(), Turned::Overrun { port: 0 });
    assert_eq!(bench.refused_close(0), 5);
    assert!(bench.complete(0, 0, 0, 8).is_ok());
    assert_eq!(bench.backend.close(0), Ok(()));
}

#[test]
fn refusal_06() {
    let mut bench = Bench::open(&usual_sheet());
    assert_eq!(bench.number(&Ask::usual_read()), 0);
    for (tag, serial) in [
        (32, 0),
        (63, 0),
        (64, 0),
        (u32::MAX, 0),
        (1, 0),
        (31, 0),
        (0, 1),
        (0, 1 << 31),
    ] {
        assert_eq!(bench.refused_complete(0, tag, serial), 6);
    }
    assert!(bench.complete(0, 0, 0, 8).is_ok());
    assert_eq!(bench.refused_complete(0, 0, 0), 6);
    // The tag comes back with another serial.
    let plan = bench.serve(&Ask::usual_read()).unwrap();
    assert_eq!((plan.tag, plan.serial), (0, 1));
    assert_eq!(bench.refused_complete(0, 0, 0), 6);
    assert!(bench.complete(0, 0, 1, 8).is_ok());
}

/// With every tag busy that a ring has: those, and no others.
#[test]
fn refusal_06_by_the_rings_size() {
    for ring in Ring::ALL {
        let mut bench = Bench::open(&usual_sheet_of(ring));
        let slots = ring.slots();
        for _ in 0..slots {
            bench.serve(&Ask::usual_read()).unwrap();
        }
        for tag in slots..=130 {
            for serial in [0, tag, tag - 32, tag % slots] {
                assert_eq!(bench.refused_complete(0, tag, serial), 6);
            }
        }
        for tag in 0..slots {
            assert!(bench.complete(0, tag, tag, 8).is_ok());
            assert_eq!(bench.refused_complete(0, tag, tag), 6);
        }
    }
}

#[test]
fn stale_completion_after_reopening() {
    for (ring, again) in Ring::ALL
        .map(|ring| Ring::ALL.map(|again| (ring, again)))
        .concat()
    {
        let mut bench = Bench::open(&usual_sheet_of(ring));
        bench.serve(&Ask::usual_read()).unwrap();
        bench.complete(0, 0, 0, 8).unwrap();
        bench.backend.close(0).unwrap();
        bench.backend.open(0, &usual_sheet_of(again)).unwrap();
        bench.set_req_prod(0, 0);
        assert_eq!(bench.refused_complete(0, 0, 0), 6);
        bench.serve(&Ask::usual_read()).unwrap();
        assert!(bench.complete(0, 0, 0, 8).is_ok());
    }
}
